//! Which windings are shunted.
//!
//! Renders request A4: a winding is shunted if its two ends are linked through
//! conducting parts none of which is a winding, over any terminals. Terminals
//! that are linked so form a group.

use crate::board::{Board, Ends, State};
use crate::groups::Groups;

/// Whether the winding with these ends is shunted.
pub fn is_shunted(board: &Board, state: &State, ends: Ends) -> bool {
    let groups = groups(board, state);
    groups.head(ends.0) == groups.head(ends.1)
}

fn groups(board: &Board, state: &State) -> Groups {
    let conducting = board.parts.iter().filter(|part| part.conducts(state));
    Groups::linked(
        board.terminals,
        conducting.filter(|part| !part.is_winding()),
    )
}

#[cfg(test)]
mod tests {
    use super::*;
    use crate::board::{Kind, NO_ENDS};
    use crate::samples::{any_board, any_state, board, dice};

    /// The head of each terminal's group.
    fn heads(board: &Board, state: &State) -> Vec<usize> {
        let groups = groups(board, state);
        (0..board.terminals).map(|at| groups.head(at)).collect()
    }

    /// Whether a part joins these two, conducts and is no winding: the words of
    /// the request, kind by kind.
    fn joined(board: &Board, state: &State, a: usize, b: usize) -> bool {
        board.parts.iter().any(|part| {
            let between = part.ends == (a, b) || part.ends == (b, a);
            between
                && match part.kind {
                    Kind::Wire => true,
                    Kind::UpperContact(relay) => state.is_drawn(relay),
                    Kind::LowerContact(relay) => !state.is_drawn(relay),
                    Kind::Button(button) => state.is_pushed(button),
                    _ => false,
                }
        })
    }

    /// Whether some list of terminals, none twice, goes on from this one to `b`
    /// with neighbours that are joined so.
    fn linked(board: &Board, state: &State, list: &[usize], b: usize) -> bool {
        let last = list[list.len() - 1];
        let mut others = (0..board.terminals).filter(|next| !list.contains(next));
        last == b
            || others.any(|next| {
                joined(board, state, last, next)
                    && linked(board, state, &[list, &[next]].concat(), b)
            })
    }

    #[test]
    fn without_a_link_each_terminal_is_by_itself() {
        let empty = State::empty();
        assert_eq!(heads(&board(2, &[]), &empty), [0, 1]);
        let open = board(
            4,
            &[
                (Kind::UpperContact(0), (0, 1)),
                (Kind::LowerContact(1), (1, 2)),
                (Kind::Button(0), (2, 3)),
                (Kind::Mark(0), (0, 3)),
                (Kind::Mark(1), NO_ENDS),
                (Kind::RegularWinding(0), (0, 2)),
                (Kind::DrawingWinding(1), (1, 3)),
                (Kind::DroppingWinding(1), (0, 1)),
            ],
        );
        assert_eq!(heads(&open, &empty.draw(1)), [0, 1, 2, 3]);
        assert_eq!(heads(&open, &empty.draw(1).push(1)), [0, 1, 2, 3]);
        assert_eq!(heads(&open, &empty.draw(1).push(0)), [0, 1, 2, 2]);
        assert_eq!(heads(&open, &empty), [0, 1, 1, 3]);
        assert_eq!(heads(&open, &empty.draw(0)), [0, 0, 0, 3]);
    }

    #[test]
    fn groups_merge_whichever_link_comes_first() {
        let links = [(5, 4), (2, 3), (3, 5), (1, 2)].map(|ends| (Kind::Wire, ends));
        for turn in 0..links.len() {
            let turned = [&links[turn..], &links[..turn]].concat();
            let board = board(7, &turned);
            assert_eq!(heads(&board, &State::empty()), [0, 1, 1, 1, 1, 1, 6]);
        }
    }

    #[test]
    fn the_longest_link_goes_over_all_64_terminals() {
        let up: Vec<_> = (0..63).map(|at| (Kind::Wire, (at, at + 1))).collect();
        let down: Vec<_> = up.iter().rev().copied().collect();
        for links in [up, down] {
            let empty = &State::empty();
            assert_eq!(heads(&board(64, &links), empty), [0; 64]);
            assert!(is_shunted(&board(64, &links), empty, (63, 0)));
            let cut = [&links[..31], &links[32..]].concat();
            assert!(!is_shunted(&board(64, &cut), empty, (63, 0)));
            assert!(!is_shunted(&board(64, &cut), empty, (0, 63)));
        }
    }

    #[test]
    fn groups_are_those_of_the_definition() {
        let mut roll = dice(4);
        let mut found = [0; 2];
        for _ in 0..2_000 {
            let (board, state) = (any_board(&mut roll), any_state(&mut roll));
            for (a, b) in (0..board.terminals).flat_map(|b| (0..b).map(move |a| (a, b))) {
                let by_definition = linked(&board, &state, &[a], b);
                assert_eq!(is_shunted(&board, &state, (a, b)), by_definition);
                assert_eq!(is_shunted(&board, &state, (b, a)), by_definition);
                found[usize::from(by_definition)] += 1;
            }
        }
        assert!(found.iter().all(|&pairs| pairs > 1_000));
    }
}
