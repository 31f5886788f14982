//! Chains, one after another, in dictionary order.
//!
//! Renders the first paragraph of "Chains and current". From a chain its
//! successor is found without any other memory of the way: no terminal is ever
//! marked; a terminal may follow if it is joined to the last one and the chain
//! does not hold it.

use crate::board::{Board, State, MINUS, PLUS};

/// Which terminals are joined by a conducting part, in either direction.
struct Joints {
    terminals: usize,
    table: Vec<bool>,
}

impl Joints {
    fn of(board: &Board, state: &State) -> Self {
        let terminals = board.terminals;
        let mut table = vec![false; terminals * terminals];
        for part in board.parts.iter().filter(|part| part.conducts(state)) {
            let (a, b) = part.ends;
            table[a * terminals + b] = true;
            table[b * terminals + a] = true;
        }
        Joints { terminals, table }
    }

    /// For each terminal, whether it is joined to this one.
    fn row(&self, terminal: usize) -> &[bool] {
        let begin = terminal * self.terminals;
        &self.table[begin..begin + self.terminals]
    }
}

/// All the chains of a board in a state, each made when it is asked for.
pub struct Chains {
    joints: Joints,
    begun: bool,
    chain: Vec<usize>,
}

impl Chains {
    pub fn of(board: &Board, state: &State) -> Self {
        Chains {
            joints: Joints::of(board, state),
            begun: false,
            chain: Vec::new(),
        }
    }

    /// The next chain in dictionary order; none after the last.
    pub fn next_chain(&mut self) -> Option<&[usize]> {
        if !self.begun {
            self.begun = true;
            self.chain.push(PLUS);
            return Some(&self.chain);
        }
        if self.lengthen(0) {
            return Some(&self.chain);
        }
        while let Some(last) = self.chain.pop() {
            if self.lengthen(last + 1) {
                return Some(&self.chain);
            }
        }
        None
    }

    /// Makes the chain longer by the lowest terminal, from `least` up, that
    /// may follow its last one; false if there is none.
    fn lengthen(&mut self, least: usize) -> bool {
        let Some(&last) = self.chain.last() else {
            return false;
        };
        if last == MINUS {
            return false;
        }
        let joined = self.joints.row(last);
        let follows = |&next: &usize| joined[next] && !self.chain.contains(&next);
        let Some(next) = (least..joined.len()).find(follows) else {
            return false;
        };
        self.chain.push(next);
        true
    }
}

#[cfg(test)]
mod tests {
    use super::*;
    use crate::board::{Kind, Part};

    fn wires(terminals: usize, ends: &[(usize, usize)]) -> Board {
        let wire = |&ends| Part {
            ends,
            kind: Kind::Wire,
        };
        Board {
            terminals,
            relays: 0,
            buttons: 0,
            parts: ends.iter().map(wire).collect(),
        }
    }

    fn all_chains(board: &Board) -> Vec<Vec<usize>> {
        let mut chains = Chains::of(board, &State::fresh(board));
        let mut all = Vec::new();
        while let Some(chain) = chains.next_chain() {
            all.push(chain.to_vec());
        }
        assert_eq!(chains.next_chain(), None);
        all
    }

    /// The rule book's definition of a chain, for a list that begins with 0.
    fn is_chain(list: &[usize], board: &Board) -> bool {
        let joined = |a, b| {
            let mut ends = board.parts.iter().map(|part| part.ends);
            ends.any(|ends| ends == (a, b) || ends == (b, a))
        };
        let twice = (0..list.len()).any(|place| list[..place].contains(&list[place]));
        let past_minus = list[..list.len() - 1].contains(&1);
        !twice && !past_minus && list.windows(2).all(|two| joined(two[0], two[1]))
    }

    /// Every list of at most T terminals that begins with 0, sifted by the
    /// definition, and then sorted: slices are in dictionary order.
    fn chains_by_definition(board: &Board) -> Vec<Vec<usize>> {
        let mut lists = vec![vec![0]];
        let mut found = Vec::new();
        for _ in 0..board.terminals {
            found.extend(lists.iter().filter(|list| is_chain(list, board)).cloned());
            let longer = |list: &Vec<usize>| {
                let list = list.clone();
                (0..board.terminals).map(move |next| [&list[..], &[next]].concat())
            };
            lists = lists.iter().flat_map(longer).collect();
        }
        found.sort();
        found
    }

    #[test]
    fn plus_alone_is_a_chain() {
        assert_eq!(all_chains(&wires(2, &[])), vec![vec![0]]);
        assert_eq!(all_chains(&wires(64, &[(2, 63)])), vec![vec![0]]);
    }

    #[test]
    fn chains_end_at_minus_and_parallel_parts_make_no_second_chain() {
        let board = wires(3, &[(0, 1), (1, 0), (0, 1), (1, 2)]);
        assert_eq!(all_chains(&board), vec![vec![0], vec![0, 1]]);
    }

    #[test]
    fn dictionary_order_with_both_ways_round() {
        let board = wires(4, &[(3, 0), (0, 2), (3, 2), (2, 1)]);
        let expected: [&[usize]; 7] = [
            &[0],
            &[0, 2],
            &[0, 2, 1],
            &[0, 2, 3],
            &[0, 3],
            &[0, 3, 2],
            &[0, 3, 2, 1],
        ];
        assert_eq!(all_chains(&board), expected);
    }

    #[test]
    fn the_longest_chain_holds_all_64_terminals() {
        let mut ends: Vec<_> = (2..63).map(|at| (at + 1, at)).collect();
        ends.extend([(0, 2), (63, 1)]);
        let all = all_chains(&wires(64, &ends));
        assert_eq!(all.len(), 64);
        assert_eq!(all[63].len(), 64);
    }

    #[test]
    fn chains_are_those_of_the_definition() {
        let mut dice: u32 = 1;
        let mut roll = |sides: usize| {
            dice = dice.wrapping_mul(1_664_525).wrapping_add(1_013_904_223);
            (dice >> 16) as usize % sides
        };
        for _ in 0..150 {
            let terminals = 2 + roll(4);
            let mut ends = Vec::new();
            for _ in 0..roll(11) {
                let (a, b) = (roll(terminals), roll(terminals));
                if a != b {
                    ends.push((a, b));
                }
            }
            let board = wires(terminals, &ends);
            assert_eq!(all_chains(&board), chains_by_definition(&board));
        }
    }
}
