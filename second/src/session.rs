//! One whole session, from its bytes to its lines.
//!
//! Renders "The session program" and, of "Numbers for no", what a session can
//! be refused for: 1 to 10, 12 and, of request A2, 17. By request A7 W is read
//! and then ignored.

use crate::board::{Board, State};
use crate::file::read_board;
use crate::number::{Reader, Refusal};
use crate::runs::run;

/// The length of the log of every run.
const LOG: usize = 4_096;

/// The lines that a session prints.
pub fn session(input: &[u8]) -> String {
    let mut lines = String::new();
    if let Err(refusal) = play(input, &mut lines) {
        let Refusal { number, place } = refusal;
        lines += &format!("refused {number} {place}\n");
    }
    lines
}

/// Adds a line for the first run and one for each event, up to the end or to
/// what is refused.
fn play(input: &[u8], lines: &mut String) -> Result<(), Refusal> {
    let mut reader = Reader::open(input)?;
    let board = read_board(&mut reader)?;
    // W, of which only the form can be refused
    reader.number()?;
    let mut state = run_event(&board, State::fresh(&board), 0, lines);
    let mut event = 0;
    while !reader.at_end() {
        event += 1;
        let (button, pushes) = read_event(&mut reader, &board)?;
        if state.is_pushed(button) == pushes {
            *lines += &format!("{event} refused 12\n");
            continue;
        }
        let acted = if pushes {
            state.push(button)
        } else {
            state.release(button)
        };
        state = run_event(&board, acted, event, lines);
    }
    Ok(())
}

/// Reads an event: its button, and whether it pushes.
fn read_event(reader: &mut Reader, board: &Board) -> Result<(usize, bool), Refusal> {
    let number = reader.number()?;
    let event = number.checked(0..2 * board.buttons, 7)?;
    Ok((event / 2, event % 2 == 1))
}

/// Runs the board, adds the line of this event and hands back the state left.
fn run_event(board: &Board, state: State, event: usize, lines: &mut String) -> State {
    let answer = run(board, state, &mut [0; LOG]);
    let word = answer.word.text();
    let (moves, drawn) = (answer.moves, answer.state.drawn_sum());
    *lines += &format!("{event} {word} {moves} {drawn}\n");
    answer.state
}
