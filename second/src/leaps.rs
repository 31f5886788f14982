//! The terminals that all ways have in common, found from one way.
//!
//! Renders, of request A6, which terminals divide a winding. A terminal that
//! divides lies on each way from an end to a pole, so it lies on the one that
//! is given. Its terminals have the places 1, 2 and so on; place 0 is before
//! them and leads to the ends, and the place after them is where the poles lead
//! to. A leap goes from one place to another over no terminal of the way. What
//! lies between its places is passed by, and what no leap passes by divides.
//! No terminal is taken out, and no other way is looked for.

use crate::board::{Board, Ends, Part, State, MINUS, PLUS};
use crate::groups::Groups;

/// The place before the way.
const START: usize = 0;

/// The lowest and the highest of some places.
type Span = (usize, usize);

/// For each terminal, whether it is on all ways from one of the ends to a pole,
/// of which `way` is one.
pub fn on_all_ways(board: &Board, state: &State, ends: Ends, way: &[usize]) -> Vec<bool> {
    let leaps = leaps(board, state, ends, way);
    let mut on_all = vec![false; board.terminals];
    for (place, &terminal) in (START + 1..).zip(way) {
        let passes_by = |&(from, to): &Span| from < place && place < to;
        on_all[terminal] = !leaps.iter().any(passes_by);
    }
    on_all
}

/// The leaps from place to place: over a single part, or from the start to an
/// end or from a pole to the place after the way, or over one group of linked
/// terminals off the way, from the lowest place it touches to the highest.
fn leaps(board: &Board, state: &State, ends: Ends, way: &[usize]) -> Vec<Span> {
    let conducting: Vec<&Part> = conducting(board, state);
    let places = places(board.terminals, way);
    let is_off = |part: &&Part| places[part.ends.0].is_none() && places[part.ends.1].is_none();
    let groups = Groups::linked(board.terminals, conducting.iter().copied().filter(is_off));
    let mut leaps = Vec::new();
    let mut spans: Vec<Option<Span>> = vec![None; board.terminals];
    for (terminal, place) in touches(&conducting, &places, ends, way) {
        match places[terminal] {
            Some(own) => leaps.push((own.min(place), own.max(place))),
            None => {
                let span = &mut spans[groups.head(terminal)];
                let (low, high) = span.unwrap_or((place, place));
                *span = Some((low.min(place), high.max(place)));
            }
        }
    }
    leaps.extend(spans.into_iter().flatten());
    leaps
}

fn conducting<'a>(board: &'a Board, state: &State) -> Vec<&'a Part> {
    let parts = board.parts.iter();
    parts.filter(|part| part.conducts(state)).collect()
}

/// For each terminal its place, if it is on the way.
fn places(terminals: usize, way: &[usize]) -> Vec<Option<usize>> {
    let mut places = vec![None; terminals];
    for (place, &terminal) in (START + 1..).zip(way) {
        places[terminal] = Some(place);
    }
    places
}

/// Terminals with a place that each of them touches, without any terminal
/// between: as an end, as a pole, or over a part.
fn touches(
    conducting: &[&Part],
    places: &[Option<usize>],
    ends: Ends,
    way: &[usize],
) -> Vec<(usize, usize)> {
    let after = START + way.len() + 1;
    let mut touches = vec![(ends.0, START), (ends.1, START)];
    touches.extend([(PLUS, after), (MINUS, after)]);
    for part in conducting {
        let (a, b) = part.ends;
        touches.extend(places[b].map(|place| (a, place)));
        touches.extend(places[a].map(|place| (b, place)));
    }
    touches
}

#[cfg(test)]
mod tests {
    use super::*;
    use crate::board::Kind;
    use crate::samples::{all_ends, all_ways, any_board, any_state, board, dice};

    /// The terminals of wires on six terminals that no leap over the way passes
    /// by, for a winding on 2-3.
    fn not_passed_by(wires: &[Ends], way: &[usize]) -> Vec<usize> {
        let parts: Vec<_> = wires.iter().map(|&ends| (Kind::Wire, ends)).collect();
        let on_all = on_all_ways(&board(6, &parts), &State::empty(), (2, 3), way);
        (0..6).filter(|&terminal| on_all[terminal]).collect()
    }

    #[test]
    fn without_a_leap_all_of_the_way_divides() {
        assert_eq!(not_passed_by(&[(2, 4), (4, 1)], &[2, 4, 1]), [1, 2, 4]);
    }

    #[test]
    fn leaps_over_one_part_or_over_terminals_off_the_way() {
        let row = [(2, 3), (2, 4), (4, 5), (5, 1)];
        let with = |ends| not_passed_by(&[&row[..], &[ends]].concat(), &[2, 4, 5, 1]);
        // 3 is an end, so it leads from the start to what it is joined to; where
        // that is 2, nothing is passed by
        assert_eq!(with((2, 3)), [1, 2, 4, 5]);
        assert_eq!(with((3, 4)), [1, 4, 5]);
        assert_eq!(with((3, 5)), [1, 5]);
        assert_eq!(with((2, 5)), [1, 2, 5]);
        assert_eq!(with((1, 4)), [1, 2, 4]);
        // 0 is a pole, so it leads to the place after the way
        assert_eq!(with((5, 0)), [2, 4, 5]);
        assert_eq!(with((0, 4)), [2, 4]);
        assert_eq!(with((0, 3)), []);
    }

    #[test]
    fn an_end_or_a_pole_within_the_way() {
        let row = [(2, 3), (3, 4), (4, 1), (1, 5), (5, 0)];
        assert_eq!(not_passed_by(&row, &[2, 3, 4, 1, 5, 0]), [1, 3, 4]);
        assert_eq!(not_passed_by(&row, &[3, 4, 1]), [1, 3, 4]);
    }

    #[test]
    fn what_is_on_all_ways_is_found_from_each_way() {
        let mut roll = dice(7);
        let mut found = [0; 4];
        for _ in 0..2_000 {
            let (board, state) = (any_board(&mut roll), any_state(&mut roll));
            for ends in all_ends(&board) {
                let all = all_ways(&board, &state, ends);
                let is_on_all = |terminal| all.iter().all(|way| way.contains(&terminal));
                let expected: Vec<bool> = (0..board.terminals).map(is_on_all).collect();
                for way in &all {
                    assert_eq!(on_all_ways(&board, &state, ends, way), expected);
                    let dividing = expected.iter().filter(|&&is_on_all| is_on_all).count();
                    found[dividing.min(3)] += 1;
                }
            }
        }
        assert!(found.iter().all(|&ways| ways > 100));
    }
}
