//! A run, until it is idle, stopped or spent.
//!
//! Renders the second paragraph of "How a relay moves", without the word that
//! request A7 strikes, and with the one of request A8: a run stops when a state
//! comes again. All states that it came through are kept to find this.

use crate::board::{Board, State};
use crate::moves::{move_relay, Answer};
use std::collections::HashMap;

/// The relay that a run gives which no relay stopped.
pub const NO_RELAY: u8 = 255;

#[derive(Clone, Copy, Debug, PartialEq, Eq)]
pub enum Word {
    Idle,
    Spent,
    Conflict,
    Buzz,
}

impl Word {
    pub fn text(self) -> &'static str {
        match self {
            Word::Idle => "idle",
            Word::Spent => "spent",
            Word::Conflict => "conflict",
            Word::Buzz => "buzz",
        }
    }
}

/// How a run ended: the word, the moves made, the state left, and the relay
/// that stopped it. For buzz also the moves made before the state left came
/// for the first time, and those between its two times; else 0 and 0.
#[derive(Clone, Copy, Debug, PartialEq, Eq)]
pub struct RunAnswer {
    pub word: Word,
    pub moves: usize,
    pub state: State,
    pub relay: u8,
    pub before: usize,
    pub between: usize,
}

/// Runs the board from this state. The log's length is the move allowance; its
/// bytes beyond the moves made stay as they were.
pub fn run(board: &Board, mut state: State, log: &mut [u8]) -> RunAnswer {
    let mut moves = 0;
    // each state of the run, with the moves made before it came
    let mut came = HashMap::from([(state, moves)]);
    let (mut before, mut between) = (0, 0);
    let (word, relay) = 'run: loop {
        for relay in 0..board.relays {
            let number = relay as u8;
            let (answer, moved) = move_relay(board, state, relay);
            let byte = match answer {
                Answer::Rests => continue,
                Answer::Conflict => break 'run (Word::Conflict, number),
                Answer::Drew => number + 128,
                Answer::Dropped => number,
            };
            let Some(entry) = log.get_mut(moves) else {
                break 'run (Word::Spent, number);
            };
            *entry = byte;
            moves += 1;
            state = moved;
            if let Some(earlier) = came.insert(state, moves) {
                (before, between) = (earlier, moves - earlier);
                break 'run (Word::Buzz, NO_RELAY);
            }
            continue 'run;
        }
        break (Word::Idle, NO_RELAY);
    };
    RunAnswer {
        word,
        moves,
        state,
        relay,
        before,
        between,
    }
}
