//! The judge of request A6, which lists no chains, and the check of a terminal.
//!
//! A terminal divides a winding if, with it taken out, no remaining end of the
//! winding reaches a remaining pole over conducting parts; an end that is a
//! pole reaches it. In other words: it is on all ways from an end to a pole.

use crate::board::{Board, Ends, State};
use crate::leaps::on_all_ways;
use crate::shunts::is_shunted;
use crate::ways::ways;

/// What the judge says; dead with the lowest terminal that divides.
#[derive(Clone, Copy, Debug, PartialEq, Eq)]
pub enum Told {
    Live,
    Shunted,
    Dead(usize),
}

/// Judges the winding with these ends: shunted first, else live, else dead.
pub fn tell(board: &Board, state: &State, ends: Ends) -> Told {
    if is_shunted(board, state, ends) {
        return Told::Shunted;
    }
    match &ways(board, state, ends)[..] {
        [] => Told::Dead(0),
        [way] => Told::Dead(lowest(&on_all_ways(board, state, ends, way))),
        _ => Told::Live,
    }
}

/// Whether this terminal of the board divides the winding with these ends, be
/// it shunted or not. Where there is no way at all, each terminal does.
pub fn divides(board: &Board, state: &State, ends: Ends, x: usize) -> bool {
    match ways(board, state, ends).first() {
        None => true,
        Some(way) => on_all_ways(board, state, ends, way)[x],
    }
}

/// The lowest terminal that is on all ways, where there are not two apart.
fn lowest(on_all: &[bool]) -> usize {
    let Some(terminal) = on_all.iter().position(|&is_on_all| is_on_all) else {
        panic!("neither two ways apart nor a terminal on all, which Menger's theorem shuts out");
    };
    terminal
}
