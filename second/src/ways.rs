//! Ways from a winding's ends to the poles that have no terminal in common.
//!
//! Renders, of request A6, when a winding that is not shunted is live. A chain
//! from plus to minus that crosses the winding is two such ways, one from each
//! end, with the winding between them, and two such ways make such a chain. By
//! Menger's theorem there are two exactly if no single terminal lies on every
//! way from an end to a pole, which is what the request's x does.
//!
//! The ways are the units of a flow, which is augmented until it is greatest.
//! Its network has two nodes for each terminal, an entry and an exit, with one
//! step from the first to the second: so only one way has room in a terminal.

use crate::board::{Board, Ends, State, MINUS, PLUS};

/// As many ways as there can be at once, which is two at most: each from an end
/// to a pole over conducting parts, no terminal in both or twice in one. A way
/// has a single terminal where an end is a pole.
pub fn ways(board: &Board, state: &State, ends: Ends) -> Vec<Vec<usize>> {
    let mut network = Network::of(board, state, ends);
    while let Some(row) = network.row_with_room() {
        network.take(&row);
    }
    let both = [ends.0, ends.1].into_iter();
    let begun = both.filter(|&end| network.is_taken(network.source(), entry(end)));
    begun.map(|end| network.way_from(end)).collect()
}

fn entry(terminal: usize) -> usize {
    2 * terminal
}

fn exit(terminal: usize) -> usize {
    2 * terminal + 1
}

/// Between which nodes there is room for a step: one that is not yet taken, or
/// one back against a step that is taken, which undoes it. No two nodes have
/// steps to each other at first, so that room tells which were taken.
struct Network {
    terminals: usize,
    room: Vec<bool>,
}

impl Network {
    fn of(board: &Board, state: &State, ends: Ends) -> Self {
        let mut network = Self::without_room(board.terminals);
        for terminal in 0..board.terminals {
            network.set_room(entry(terminal), exit(terminal), true);
        }
        for part in board.parts.iter().filter(|part| part.conducts(state)) {
            let (a, b) = part.ends;
            network.set_room(exit(a), entry(b), true);
            network.set_room(exit(b), entry(a), true);
        }
        for end in [ends.0, ends.1] {
            network.set_room(network.source(), entry(end), true);
        }
        for pole in [PLUS, MINUS] {
            network.set_room(exit(pole), network.sink(), true);
        }
        network
    }

    fn without_room(terminals: usize) -> Self {
        let nodes = 2 * terminals + 2;
        Network {
            terminals,
            room: vec![false; nodes * nodes],
        }
    }

    fn source(&self) -> usize {
        2 * self.terminals
    }

    fn sink(&self) -> usize {
        2 * self.terminals + 1
    }

    fn nodes(&self) -> usize {
        2 * self.terminals + 2
    }

    fn has_room(&self, from: usize, to: usize) -> bool {
        self.room[from * self.nodes() + to]
    }

    fn set_room(&mut self, from: usize, to: usize, room: bool) {
        let nodes = self.nodes();
        self.room[from * nodes + to] = room;
    }

    /// Whether this step, one of those that there were at first, is taken.
    fn is_taken(&self, from: usize, to: usize) -> bool {
        self.has_room(to, from)
    }

    /// A shortest row of nodes from the source to the sink with room for each
    /// step; none if there is no such row.
    fn row_with_room(&self) -> Option<Vec<usize>> {
        let before = self.nodes_before();
        let mut row = vec![self.sink()];
        while row[row.len() - 1] != self.source() {
            row.push(before[row[row.len() - 1]]?);
        }
        row.reverse();
        Some(row)
    }

    /// For each node that steps with room lead to from the source, the node
    /// before it; for the source, itself. None is looked for after the sink.
    fn nodes_before(&self) -> Vec<Option<usize>> {
        let mut before = vec![None; self.nodes()];
        before[self.source()] = Some(self.source());
        let mut met = vec![self.source()];
        let mut left = 0;
        while before[self.sink()].is_none() && left < met.len() {
            let node = met[left];
            left += 1;
            for (next, before) in before.iter_mut().enumerate() {
                if before.is_none() && self.has_room(node, next) {
                    *before = Some(node);
                    met.push(next);
                }
            }
        }
        before
    }

    /// Takes the steps of a row, or undoes those that it goes back.
    fn take(&mut self, row: &[usize]) {
        for step in row.windows(2) {
            self.set_room(step[0], step[1], false);
            self.set_room(step[1], step[0], true);
        }
    }

    /// The terminals of the way that begins at this end.
    fn way_from(&self, end: usize) -> Vec<usize> {
        let mut way = vec![end];
        while let Some(next) = self.terminal_after(way[way.len() - 1]) {
            way.push(next);
        }
        way
    }

    /// The terminal that a way goes on to from this one; none where it ends.
    fn terminal_after(&self, terminal: usize) -> Option<usize> {
        let mut others = (0..self.terminals).filter(|&next| next != terminal);
        others.find(|&next| self.is_taken(exit(terminal), entry(next)))
    }
}

#[cfg(test)]
mod tests {
    use super::*;
    use crate::board::Kind;
    use crate::samples::{all_ends, all_ways, any_board, any_state, board, dice};

    fn wires(terminals: usize, ends: &[Ends]) -> Board {
        let parts: Vec<_> = ends.iter().map(|&ends| (Kind::Wire, ends)).collect();
        board(terminals, &parts)
    }

    /// The ways, the lower first: which comes first is of no matter.
    fn sorted(board: &Board, ends: Ends) -> Vec<Vec<usize>> {
        let mut ways = ways(board, &State::empty(), ends);
        ways.sort();
        ways
    }

    fn have_none_in_common(one: &[usize], other: &[usize]) -> bool {
        one.iter().all(|terminal| !other.contains(terminal))
    }

    #[test]
    fn an_end_that_is_a_pole_is_a_way() {
        let bare = wires(4, &[]);
        assert_eq!(sorted(&bare, (0, 1)), [[0], [1]]);
        assert_eq!(sorted(&bare, (1, 0)), [[0], [1]]);
        assert_eq!(sorted(&bare, (3, 1)), [[1]]);
        assert_eq!(sorted(&bare, (0, 3)), [[0]]);
        assert_eq!(sorted(&bare, (2, 3)), [[0; 0]; 0]);
    }

    #[test]
    fn parallel_parts_are_no_second_way() {
        let row = [(0, 2), (0, 2), (2, 0), (2, 3), (3, 2), (2, 4)];
        assert_eq!(ways(&wires(5, &row), &State::empty(), (3, 4)).len(), 1);
    }

    #[test]
    fn the_first_way_gives_room_to_the_second() {
        // 2 and 3 both reach a pole soonest over 4, but 2 also over 5 and 6
        let parts = [(2, 4), (4, 0), (2, 5), (5, 6), (6, 0), (3, 4), (4, 1)];
        let apart: [&[usize]; 2] = [&[2, 5, 6, 0], &[3, 4, 1]];
        assert_eq!(sorted(&wires(7, &parts), (2, 3)), apart);
        assert_eq!(sorted(&wires(7, &parts), (3, 2)), apart);
        // 2-4-5-0 and 3-6-5-0 meet in 5: where one comes to it, the other's step
        // from 4 to 5 is undone
        let (met, around) = ([(2, 4), (4, 5), (5, 0), (3, 6), (6, 5)], [(4, 7), (7, 8)]);
        let crossed = [&met[..], &around, &[(8, 1)]].concat();
        let apart: [&[usize]; 2] = [&[2, 4, 7, 8, 1], &[3, 6, 5, 0]];
        assert_eq!(sorted(&wires(9, &crossed), (2, 3)), apart);
    }

    #[test]
    fn a_way_may_hold_all_64_terminals() {
        let row: Vec<Ends> = (2..63).map(|at| (at + 1, at)).collect();
        let led = [&row[..], &[(63, 0)]].concat();
        assert_eq!(sorted(&wires(64, &led), (2, 1)).concat().len(), 64);
    }

    #[test]
    fn ways_are_among_all_ways_and_two_exactly_if_two_are_apart() {
        let mut roll = dice(6);
        let mut found = [0; 3];
        for _ in 0..2_000 {
            let (board, state) = (any_board(&mut roll), any_state(&mut roll));
            for ends in all_ends(&board) {
                let all = all_ways(&board, &state, ends);
                let is_apart = |one: &Vec<usize>| {
                    let mut others = all.iter();
                    others.any(|other| have_none_in_common(one, other))
                };
                let ways = ways(&board, &state, ends);
                assert!(ways.iter().all(|way| all.contains(way)));
                match &ways[..] {
                    [] => assert!(all.is_empty()),
                    [_] => assert!(!all.iter().any(is_apart)),
                    [one, other] => assert!(have_none_in_common(one, other)),
                    _ => panic!("more than two ways"),
                }
                found[ways.len()] += 1;
            }
        }
        assert!(found.iter().all(|&pairs| pairs > 1_000));
    }
}
