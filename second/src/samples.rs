//! For tests: random small boards, and the ways over them, listed one by one.

use crate::board::{Board, Ends, Kind, Part, State, MINUS, PLUS};

/// Dice that fall the same each time, for numbers below `sides`.
pub fn dice(seed: u32) -> impl FnMut(usize) -> usize {
    let mut dice = seed;
    move |sides| {
        dice = dice.wrapping_mul(1_664_525).wrapping_add(1_013_904_223);
        (dice >> 16) as usize % sides
    }
}

/// A board of two relays and two buttons, with these parts.
pub fn board(terminals: usize, parts: &[(Kind, Ends)]) -> Board {
    let part = |&(kind, ends)| Part { ends, kind };
    Board {
        terminals,
        relays: 2,
        buttons: 2,
        parts: parts.iter().map(part).collect(),
    }
}

/// Up to eleven parts of any kind, on two to six terminals.
pub fn any_board(roll: &mut impl FnMut(usize) -> usize) -> Board {
    let kinds = [
        Kind::Wire,
        Kind::UpperContact(0),
        Kind::LowerContact(1),
        Kind::Button(0),
        Kind::RegularWinding(0),
        Kind::DrawingWinding(1),
        Kind::DroppingWinding(1),
        Kind::Mark(0),
    ];
    let terminals = 2 + roll(5);
    let mut parts = Vec::new();
    for _ in 0..roll(12) {
        let (a, b) = (roll(terminals), roll(terminals));
        if a != b {
            parts.push((kinds[roll(kinds.len())], (a, b)));
        }
    }
    board(terminals, &parts)
}

/// A state that opens or closes some parts of such a board.
pub fn any_state(roll: &mut impl FnMut(usize) -> usize) -> State {
    let empty = State::empty();
    [empty, empty.draw(0), empty.draw(0).push(0), empty.draw(1)][roll(4)]
}

/// Each pair of terminals, in both orders.
pub fn all_ends(board: &Board) -> Vec<Ends> {
    let with = |a| (0..board.terminals).map(move |b| (a, b));
    let pairs = (0..board.terminals).flat_map(with);
    pairs.filter(|(a, b)| a != b).collect()
}

/// Every way from one of the ends to a pole: a list of terminals, none twice,
/// whose neighbours are joined by a conducting part.
pub fn all_ways(board: &Board, state: &State, ends: Ends) -> Vec<Vec<usize>> {
    let mut lists = vec![vec![ends.0], vec![ends.1]];
    let mut ways = Vec::new();
    while let Some(list) = lists.pop() {
        let last = list[list.len() - 1];
        let follows = |&next: &usize| !list.contains(&next) && is_joined(board, state, last, next);
        let next = (0..board.terminals).filter(follows);
        lists.extend(next.map(|next| [&list[..], &[next]].concat()));
        if [PLUS, MINUS].contains(&last) {
            ways.push(list);
        }
    }
    ways
}

fn is_joined(board: &Board, state: &State, a: usize, b: usize) -> bool {
    let mut conducting = board.parts.iter().filter(|part| part.conducts(state));
    conducting.any(|part| part.ends == (a, b) || part.ends == (b, a))
}
