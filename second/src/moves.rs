//! A single move of a named relay.
//!
//! Renders the first paragraph of "How a relay moves", as requests A6 and A7
//! changed it: windings are judged without an allowance, a shunted one is dead,
//! and no move is undecided.

use crate::board::{Board, Ends, State, Windings};
use crate::tell::{tell, Told};

/// What a single move answers.
#[derive(Clone, Copy, Debug, PartialEq, Eq)]
pub enum Answer {
    Drew,
    Dropped,
    Rests,
    Conflict,
}

/// Moves one relay of the board, if it moves, and hands back the state.
pub fn move_relay(board: &Board, state: State, relay: usize) -> (Answer, State) {
    let answer = look(board, &state, relay);
    match answer {
        Answer::Drew => (answer, state.draw(relay)),
        Answer::Dropped => (answer, state.drop(relay)),
        Answer::Rests | Answer::Conflict => (answer, state),
    }
}

fn look(board: &Board, state: &State, relay: usize) -> Answer {
    let is_live = |ends: Ends| tell(board, state, ends) == Told::Live;
    let is_drawn = state.is_drawn(relay);
    match board.windings(relay) {
        Some(Windings::Regular(ends)) => regular(is_drawn, is_live(ends)),
        Some(Windings::Steel { drawing, dropping }) => {
            steel(is_drawn, is_live(drawing), is_live(dropping))
        }
        None => panic!("a relay without its windings, which refusal 9 shuts out"),
    }
}

fn regular(is_drawn: bool, is_live: bool) -> Answer {
    match (is_drawn, is_live) {
        (false, true) => Answer::Drew,
        (true, false) => Answer::Dropped,
        (true, true) | (false, false) => Answer::Rests,
    }
}

/// The answer of a steel relay, by whether its drawing winding is live and
/// whether its dropping winding is.
fn steel(is_drawn: bool, drawing: bool, dropping: bool) -> Answer {
    match (is_drawn, drawing, dropping) {
        (_, true, true) => Answer::Conflict,
        (false, true, false) => Answer::Drew,
        (true, false, true) => Answer::Dropped,
        (true, true, false) | (false, false, true) | (_, false, false) => Answer::Rests,
    }
}
