//! Judging one winding.
//!
//! Renders the last two paragraphs of "Chains and current" and, of request A4,
//! what a shunted winding is judged to be: dead with effort 0, whatever W is.
//! Of any other winding the chains are looked at one by one until one shows it
//! live or W were looked at.

use crate::board::{Board, Ends, State, MINUS, MOST_TERMINALS};
use crate::chains::Chains;
use crate::shunts::is_shunted;

#[derive(Clone, Copy, Debug, PartialEq, Eq)]
pub enum Verdict {
    Live,
    Dead,
    Undecided,
}

/// A verdict, its effort (W for undecided) and the chain shown: its length and
/// 64 places, the unused ones 0.
#[derive(Clone, Copy, Debug, PartialEq, Eq)]
pub struct Judgement {
    pub verdict: Verdict,
    pub effort: u32,
    pub length: usize,
    pub chain: [u8; MOST_TERMINALS],
}

impl Judgement {
    fn without_chain(verdict: Verdict, effort: u32) -> Self {
        Judgement {
            verdict,
            effort,
            length: 0,
            chain: [0; MOST_TERMINALS],
        }
    }

    fn live(effort: u32, chain: &[usize]) -> Self {
        let mut judgement = Self::without_chain(Verdict::Live, effort);
        judgement.length = chain.len();
        for (place, &terminal) in judgement.chain.iter_mut().zip(chain) {
            *place = terminal as u8;
        }
        judgement
    }
}

/// Judges the winding with these ends, with the allowance `w`. If it is shunted
/// no chain is made.
pub fn judge(board: &Board, state: &State, ends: Ends, w: u32) -> Judgement {
    if is_shunted(board, state, ends) {
        return Judgement::without_chain(Verdict::Dead, 0);
    }
    judge_by_chains(board, state, ends, w)
}

/// Judges by the chains alone, as before request A4. At most one chain more
/// than `w` is made.
pub(crate) fn judge_by_chains(board: &Board, state: &State, ends: Ends, w: u32) -> Judgement {
    judge_on(&mut Chains::of(board, state), ends, 0, w)
}

/// Judges by the chains still to come, when `before` of them, none of which
/// shows the winding live, were looked at. No number here goes past `w`.
fn judge_on(chains: &mut Chains, ends: Ends, before: u32, w: u32) -> Judgement {
    for looked_at in before..w {
        let Some(chain) = chains.next_chain() else {
            return Judgement::without_chain(Verdict::Dead, looked_at);
        };
        if shows_live(chain, ends) {
            return Judgement::live(looked_at + 1, chain);
        }
    }
    match chains.next_chain() {
        None => Judgement::without_chain(Verdict::Dead, w),
        Some(_) => Judgement::without_chain(Verdict::Undecided, w),
    }
}

/// Whether the chain ends at 1 and has a and b side by side, in either order.
fn shows_live(chain: &[usize], (a, b): Ends) -> bool {
    let side_by_side = |two: &[usize]| two == [a, b] || two == [b, a];
    chain.last() == Some(&MINUS) && chain.windows(2).any(side_by_side)
}

#[cfg(test)]
mod tests {
    use super::*;
    use crate::board::{Kind, Part};

    /// Judges H1, whose button is on 0-2 and whose winding is on 2-1, as if so
    /// many chains came before its own.
    fn judge_h1(is_pushed: bool, before: u32, w: u32) -> (Verdict, u32, usize) {
        let part = |kind, ends| Part { ends, kind };
        let board = Board {
            terminals: 3,
            relays: 1,
            buttons: 1,
            parts: vec![
                part(Kind::Button(0), (0, 2)),
                part(Kind::RegularWinding(0), (2, 1)),
            ],
        };
        let fresh = State::fresh(&board);
        let state = if is_pushed { fresh.push(0) } else { fresh };
        let chains = &mut Chains::of(&board, &state);
        let judgement = judge_on(chains, (2, 1), before, w);
        (judgement.verdict, judgement.effort, judgement.length)
    }

    #[test]
    fn the_count_of_chains_ends_at_the_greatest_allowance() {
        let most = u32::MAX;
        for before in [0, 2_097_151, 1 << 31, most - 4, most - 3] {
            let live = (Verdict::Live, before + 3, 3);
            assert_eq!(judge_h1(true, before, most), live);
            assert_eq!(judge_h1(true, before, before + 3), live);
            let undecided = (Verdict::Undecided, before + 2, 0);
            assert_eq!(judge_h1(true, before, before + 2), undecided);
        }
        for before in [0, 2_097_151, 1 << 31, most - 2, most - 1] {
            let dead = (Verdict::Dead, before + 1, 0);
            assert_eq!(judge_h1(false, before, most), dead);
            assert_eq!(judge_h1(false, before, before + 1), dead);
            let undecided = (Verdict::Undecided, before, 0);
            assert_eq!(judge_h1(false, before, before), undecided);
        }
    }

    #[test]
    fn more_chains_than_the_greatest_allowance_are_undecided() {
        let most = u32::MAX;
        let undecided = (Verdict::Undecided, most, 0);
        for before in [most - 2, most - 1, most] {
            assert_eq!(judge_h1(true, before, most), undecided);
        }
        assert_eq!(judge_h1(false, most, most), undecided);
    }
}
