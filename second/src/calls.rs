//! The calls, each with what it is handed: a board, a state, and what is asked.
//!
//! Renders, of "Numbers for no", lines 11, 13, 14 and 15 in the order of calls
//! (15, 14, 13, 11), and what a refused call returns; and 19 of request A6,
//! after 11, and 20 of request A10, after 13. Under 15 is also what request A2
//! asks of a board. What is handed in may break any rule; what was accepted is
//! a `Board` and a `State`.

use crate::board::{Board, Ends, Kind, Part, State, Windings};
use crate::board::{MOST_BUTTONS, MOST_PARTS, MOST_RELAYS, MOST_TERMINALS};
use crate::judge::{judge, Judgement};
use crate::moves::{move_relay, Answer};
use crate::report::{report, Report};
use crate::runs::{run, RunAnswer, Word, NO_RELAY};
use crate::tell::{divides, tell, Told};

/// The longest log that a run takes.
const LONGEST_LOG: usize = 65_536;

/// The most buttons of a board that is reported on.
const MOST_SET: usize = 12;

/// A number for no; the place of a refused call is always 0.
pub type No = u8;

/// A board that is handed in: its counts, with C as `count`, the relays that
/// start drawn, as the sum of 2 to the number of each, and its parts, of which
/// the first C count.
#[derive(Clone, Debug, PartialEq, Eq)]
pub struct HandedBoard {
    pub terminals: usize,
    pub relays: usize,
    pub buttons: usize,
    pub count: usize,
    pub start: u64,
    pub parts: Vec<Part>,
}

/// A state that is handed in: the drawn relays and the pushed buttons, each as
/// the sum of 2 to its number.
#[derive(Clone, Copy, Debug, PartialEq, Eq)]
pub struct HandedState {
    pub drawn: u64,
    pub pushed: u64,
}

/// Which winding is asked about: a relay, and whether it is its second one.
pub type Asked = (u32, bool);

/// What a move answers: the word or the number for no, and the state.
pub type Moved = (Result<Answer, No>, HandedState);

/// What a run answers; `before` and `between` are 0 but for buzz.
#[derive(Clone, Copy, Debug, PartialEq, Eq)]
pub struct Ran {
    pub word: Result<Word, No>,
    pub moves: usize,
    pub state: HandedState,
    pub relay: u8,
    pub before: usize,
    pub between: usize,
}

/// What a report answers: the number for no, if it is refused, and the figures,
/// which are then all zeros.
pub type Reported = (Option<No>, Report);

impl HandedBoard {
    /// The board, if it breaks no rule of refusals 3 to 9 and 17 and carries
    /// the start that its marks give; else 15.
    fn accepted(&self) -> Result<Board, No> {
        let in_range = (2..=MOST_TERMINALS).contains(&self.terminals)
            && self.relays <= MOST_RELAYS
            && self.buttons <= MOST_BUTTONS
            && self.count <= MOST_PARTS;
        if !in_range {
            return Err(15);
        }
        let parts = self.parts[..self.count].to_vec();
        let is_fine = parts.iter().all(|part| self.fits(part))
            && (0..self.relays).all(|relay| is_wound(&parts, relay))
            && self.starts_as_marked(&parts);
        if !is_fine {
            return Err(15);
        }
        Ok(Board {
            terminals: self.terminals,
            relays: self.relays,
            buttons: self.buttons,
            parts,
        })
    }

    /// Whether a part joins two different terminals of the board and names a
    /// relay or button of it: what 5, 6 and 7 ask. Of a mark only 7 is asked.
    fn fits(&self, part: &Part) -> bool {
        let (a, b) = part.ends;
        let joins = a < self.terminals && b < self.terminals && a != b;
        match part.kind {
            Kind::Wire => joins,
            Kind::Button(button) => joins && button < self.buttons,
            Kind::UpperContact(relay)
            | Kind::LowerContact(relay)
            | Kind::RegularWinding(relay)
            | Kind::DrawingWinding(relay)
            | Kind::DroppingWinding(relay) => joins && relay < self.relays,
            Kind::Mark(relay) => relay < self.relays,
        }
    }

    /// Whether each relay of the start has exactly one mark, and no other has
    /// any: what 17 asks, and that the start is the one the marks give.
    fn starts_as_marked(&self, parts: &[Part]) -> bool {
        let marks = |relay| count(parts, Kind::Mark(relay)) as u64;
        let mut relays = 0..self.relays;
        self.start >> self.relays == 0
            && relays.all(|relay| marks(relay) == self.start >> relay & 1)
    }
}

/// How many of the parts are of this kind.
fn count(parts: &[Part], kind: Kind) -> usize {
    parts.iter().filter(|part| part.kind == kind).count()
}

/// Whether a relay is regular, with exactly one part of kind 4, or steel-core,
/// with exactly one of kind 5 and one of kind 6: what 8 and 9 ask.
fn is_wound(parts: &[Part], relay: usize) -> bool {
    let regular = count(parts, Kind::RegularWinding(relay));
    let drawing = count(parts, Kind::DrawingWinding(relay));
    let dropping = count(parts, Kind::DroppingWinding(relay));
    matches!((regular, drawing, dropping), (1, 0, 0) | (0, 1, 1))
}

impl HandedState {
    /// The state, if the board has its relays and buttons; else 14.
    fn accepted(self, board: &Board) -> Result<State, No> {
        if self.drawn >> board.relays != 0 || self.pushed >> board.buttons != 0 {
            return Err(14);
        }
        let is_in = |set: u64| move |&number: &usize| set >> number & 1 == 1;
        let drawn = (0..board.relays).filter(is_in(self.drawn));
        let pushed = (0..board.buttons).filter(is_in(self.pushed));
        let state = drawn.fold(State::empty(), State::draw);
        Ok(pushed.fold(state, State::push))
    }

    /// The state as it is handed back.
    fn of(state: &State) -> Self {
        let pushed = (0..MOST_BUTTONS).filter(|&button| state.is_pushed(button));
        HandedState {
            drawn: state.drawn_sum(),
            pushed: pushed.map(|button| 1 << button).sum(),
        }
    }
}

/// The board and the state, if both are accepted: 15, then 14.
fn accepted(board: &HandedBoard, state: HandedState) -> Result<(Board, State), No> {
    let board = board.accepted()?;
    let state = state.accepted(&board)?;
    Ok((board, state))
}

/// The ends of a relay's first or second winding; 11 where there is none.
fn winding(board: &Board, (relay, is_second): Asked) -> Result<Ends, No> {
    match (board.windings(relay as usize), is_second) {
        (Some(Windings::Regular(ends)), false) => Ok(ends),
        (Some(Windings::Steel { drawing, .. }), false) => Ok(drawing),
        (Some(Windings::Steel { dropping, .. }), true) => Ok(dropping),
        (Some(Windings::Regular(_)), true) | (None, _) => Err(11),
    }
}

/// Judges a winding by the chains, with the allowance `w`.
pub fn judge_call(
    board: &HandedBoard,
    state: HandedState,
    asked: Asked,
    w: u32,
) -> Result<Judgement, No> {
    let (board, state) = accepted(board, state)?;
    let ends = winding(&board, asked)?;
    Ok(judge(&board, &state, ends, w))
}

/// Judges a winding without an allowance.
pub fn tell_call(board: &HandedBoard, state: HandedState, asked: Asked) -> Result<Told, No> {
    let (board, state) = accepted(board, state)?;
    let ends = winding(&board, asked)?;
    Ok(tell(&board, &state, ends))
}

/// Checks whether the terminal `x` divides a winding.
pub fn check_call(
    board: &HandedBoard,
    state: HandedState,
    asked: Asked,
    x: u32,
) -> Result<bool, No> {
    let (board, state) = accepted(board, state)?;
    let ends = winding(&board, asked)?;
    if x as usize >= board.terminals {
        return Err(19);
    }
    Ok(divides(&board, &state, ends, x as usize))
}

/// Moves a named relay, if it moves.
pub fn move_call(board: &HandedBoard, handed: HandedState, relay: u32) -> Moved {
    let (board, state) = match accepted(board, handed) {
        Ok(both) => both,
        Err(number) => return (Err(number), handed),
    };
    if relay as usize >= board.relays {
        return (Err(11), handed);
    }
    let (answer, left) = move_relay(&board, state, relay as usize);
    (Ok(answer), HandedState::of(&left))
}

/// Runs a board over the lent log.
pub fn run_call(board: &HandedBoard, handed: HandedState, log: &mut [u8]) -> Ran {
    let both = accepted(board, handed).and_then(|both| match log.len() {
        0..=LONGEST_LOG => Ok(both),
        _ => Err(13),
    });
    match both {
        Ok((board, state)) => ran(run(&board, state, log)),
        Err(number) => Ran {
            word: Err(number),
            moves: 0,
            state: handed,
            relay: NO_RELAY,
            before: 0,
            between: 0,
        },
    }
}

fn ran(answer: RunAnswer) -> Ran {
    Ran {
        word: Ok(answer.word),
        moves: answer.moves,
        state: HandedState::of(&answer.state),
        relay: answer.relay,
        before: answer.before,
        between: answer.between,
    }
}

/// Reports on all settings of a board's buttons, each run with a log of this
/// length.
pub fn report_call(board: &HandedBoard, length: u32) -> Reported {
    match reportable(board, length as usize) {
        Ok(board) => (None, report(&board, length as usize)),
        Err(number) => (Some(number), Report::default()),
    }
}

/// The board, if it is accepted and a report is made of it with a log of this
/// length: 15, then 13, then 20.
fn reportable(board: &HandedBoard, length: usize) -> Result<Board, No> {
    let board = board.accepted()?;
    if length > LONGEST_LOG {
        return Err(13);
    }
    if board.buttons > MOST_SET {
        return Err(20);
    }
    Ok(board)
}

#[cfg(test)]
mod tests {
    use super::*;
    use crate::board::NO_ENDS;
    use crate::judge::Verdict;

    const MUCH: u32 = u32::MAX;
    const FRESH: HandedState = HandedState {
        drawn: 0,
        pushed: 0,
    };
    const BEYOND: HandedState = HandedState {
        drawn: 2,
        pushed: 0,
    };

    fn part(kind: Kind, ends: Ends) -> Part {
        Part { ends, kind }
    }

    /// H1: button 0 on 0-2, the regular winding of relay 0 on 2-1.
    fn h1() -> HandedBoard {
        HandedBoard {
            terminals: 3,
            relays: 1,
            buttons: 1,
            count: 2,
            start: 0,
            parts: vec![
                part(Kind::Button(0), (0, 2)),
                part(Kind::RegularWinding(0), (2, 1)),
            ],
        }
    }

    /// H1 with its winding replaced by these parts.
    fn wound(windings: &[Kind]) -> HandedBoard {
        let mut board = h1();
        board.parts.truncate(1);
        board
            .parts
            .extend(windings.iter().map(|&kind| part(kind, (2, 1))));
        board.count = board.parts.len();
        board
    }

    /// A board of 32 regular relays on 0-1, as many buttons, this start, and
    /// marks of these relays, whose ends are beyond the board.
    fn marked(start: u64, relays: impl IntoIterator<Item = usize>) -> HandedBoard {
        let windings = (0..32).map(|relay| part(Kind::RegularWinding(relay), (0, 1)));
        let marks = relays
            .into_iter()
            .map(|relay| part(Kind::Mark(relay), (255, 255)));
        let parts: Vec<Part> = windings.chain(marks).collect();
        HandedBoard {
            terminals: 2,
            relays: 32,
            buttons: 32,
            count: parts.len(),
            start,
            parts,
        }
    }

    #[test]
    fn a_board_with_a_broken_rule_is_refused_by_15() {
        let broken: [fn(&mut HandedBoard); 11] = [
            |board| board.terminals = 1,
            |board| board.terminals = 65,
            |board| board.relays = 33,
            |board| board.buttons = 33,
            |board| board.count = 257,
            |board| board.terminals = 2,
            |board| board.parts[0].ends = (2, 2),
            |board| board.parts[0].ends = (3, 1),
            |board| board.buttons = 0,
            |board| board.relays = 0,
            |board| board.relays = 2,
        ];
        assert!(h1().accepted().is_ok());
        for change in broken {
            let mut board = h1();
            change(&mut board);
            assert_eq!(board.accepted(), Err(15));
        }
    }

    #[test]
    fn windings_are_one_of_4_or_one_each_of_5_and_6() {
        let (regular, drawing, dropping) = (
            Kind::RegularWinding(0),
            Kind::DrawingWinding(0),
            Kind::DroppingWinding(0),
        );
        let fine: [&[Kind]; 3] = [&[regular], &[drawing, dropping], &[dropping, drawing]];
        for windings in fine {
            assert!(wound(windings).accepted().is_ok());
        }
        let broken: [&[Kind]; 8] = [
            &[],
            &[regular, regular],
            &[drawing],
            &[dropping],
            &[regular, drawing],
            &[regular, drawing, dropping],
            &[drawing, drawing],
            &[drawing, dropping, dropping],
        ];
        for windings in broken {
            assert_eq!(wound(windings).accepted(), Err(15));
        }
    }

    #[test]
    fn parts_beyond_the_count_do_not_matter() {
        for beyond in [Kind::Button(9), Kind::Mark(0), Kind::Mark(9)] {
            let mut board = h1();
            board.parts.push(part(beyond, (9, 9)));
            assert!(board.accepted().is_ok());
            board.start = 1;
            assert_eq!(board.accepted(), Err(15));
        }
    }

    #[test]
    fn a_start_is_the_one_that_the_marks_give() {
        for (start, relays) in [
            (0, &[][..]),
            (1, &[0]),
            (5, &[0, 2]),
            (5, &[2, 0]),
            (1 << 31, &[31]),
            (0xc000_0000, &[31, 30]),
        ] {
            let board = marked(start, relays.iter().copied());
            let fresh = State::fresh(&board.accepted().unwrap());
            assert_eq!(fresh.drawn_sum(), start);
            for bit in 0..64 {
                let other = start ^ (1 << bit);
                let board = marked(other, relays.iter().copied());
                assert_eq!(board.accepted(), Err(15));
            }
        }
        assert!(marked(0xffff_ffff, 0..32).accepted().is_ok());
        assert_eq!(marked(0xffff_ffff, 0..31).accepted(), Err(15));
        assert_eq!(marked(u64::MAX, 0..32).accepted(), Err(15));
    }

    #[test]
    fn a_mark_doubled_or_of_a_relay_that_is_not_there_is_refused_by_15() {
        for start in [0, 1, 2, 3, 1 << 32, u64::MAX] {
            for relays in [&[0, 0][..], &[0, 1, 0], &[1, 0, 0], &[32], &[0, 255]] {
                let board = marked(start, relays.iter().copied());
                assert_eq!(board.accepted(), Err(15));
            }
        }
    }

    #[test]
    fn the_ends_of_a_mark_mean_nothing() {
        for ends in [NO_ENDS, (2, 1), (2, 2), (0, 3), (255, 0), (255, 255)] {
            let mut board = h1();
            board.parts.insert(0, part(Kind::Mark(0), ends));
            (board.count, board.start) = (3, 1);
            assert_eq!(
                board.accepted().unwrap().parts[0],
                part(Kind::Mark(0), NO_ENDS)
            );
            let pushed = HandedState {
                drawn: 0,
                pushed: 1,
            };
            for state in [FRESH, pushed] {
                let asked = (0, false);
                let judged = judge_call(&board, state, asked, MUCH);
                assert_eq!(judged, judge_call(&h1(), state, asked, MUCH));
                let told = tell_call(&board, state, asked);
                assert_eq!(told, tell_call(&h1(), state, asked));
            }
        }
    }

    #[test]
    fn a_mark_is_no_winding() {
        let mut board = wound(&[Kind::Mark(0)]);
        board.start = 1;
        assert_eq!(board.accepted(), Err(15));
    }

    #[test]
    fn a_state_is_handed_in_and_back() {
        let board = marked(0, []).accepted().unwrap();
        for (drawn, pushed) in [(0, 0), (1, 2), (0xffff_ffff, 0), (5, 0xffff_ffff)] {
            let handed = HandedState { drawn, pushed };
            assert_eq!(HandedState::of(&handed.accepted(&board).unwrap()), handed);
        }
        for (drawn, pushed) in [(1 << 32, 0), (0, 1 << 32), (1 << 63, 1 << 63)] {
            assert_eq!(HandedState { drawn, pushed }.accepted(&board), Err(14));
        }
    }

    #[test]
    fn calls_refuse_in_order() {
        let mut broken = h1();
        broken.relays = 2;
        let judged = |board: &HandedBoard, state, asked| judge_call(board, state, asked, MUCH);
        assert_eq!(judged(&broken, BEYOND, (7, true)), Err(15));
        assert_eq!(judged(&h1(), BEYOND, (7, true)), Err(14));
        assert_eq!(judged(&h1(), FRESH, (7, false)), Err(11));
        assert_eq!(judged(&h1(), FRESH, (1, false)), Err(11));
        assert_eq!(judged(&h1(), FRESH, (0, true)), Err(11));
        for (board, state, asked, number) in [
            (&broken, BEYOND, (7, true), 15),
            (&h1(), BEYOND, (7, true), 14),
            (&h1(), FRESH, (7, false), 11),
            (&h1(), FRESH, (1, false), 11),
            (&h1(), FRESH, (0, true), 11),
        ] {
            assert_eq!(tell_call(board, state, asked), Err(number));
            for x in [0, 3, u32::MAX] {
                assert_eq!(check_call(board, state, asked, x), Err(number));
            }
        }
        assert_eq!(move_call(&broken, BEYOND, 7), (Err(15), BEYOND));
        assert_eq!(move_call(&h1(), BEYOND, 7), (Err(14), BEYOND));
        assert_eq!(move_call(&h1(), FRESH, 1), (Err(11), FRESH));
        for (board, state, length, number) in [
            (&broken, BEYOND, 65_537, 15),
            (&h1(), BEYOND, 65_537, 14),
            (&h1(), FRESH, 65_537, 13),
        ] {
            let mut log = vec![77; length];
            let refused = Ran {
                word: Err(number),
                moves: 0,
                state,
                relay: 255,
                before: 0,
                between: 0,
            };
            assert_eq!(run_call(board, state, &mut log), refused);
            assert_eq!(log, vec![77; length]);
        }
    }

    #[test]
    fn a_relay_far_beyond_the_board_is_refused_by_11() {
        let powers = (8..32).map(|power| 1 << power);
        for relay in powers.chain([u32::MAX]) {
            for is_second in [false, true] {
                let judged = judge_call(&h1(), FRESH, (relay, is_second), MUCH);
                assert_eq!(judged, Err(11));
            }
            assert_eq!(move_call(&h1(), FRESH, relay), (Err(11), FRESH));
        }
    }

    #[test]
    fn a_terminal_not_below_t_is_refused_by_19() {
        let checked = |board: &HandedBoard, x| check_call(board, FRESH, (0, false), x);
        let powers = (0..32).map(|power| 1 << power);
        for x in powers.chain([3, u32::MAX]).filter(|&x| x >= 3) {
            assert_eq!(checked(&h1(), x), Err(19));
        }
        let whole = marked(0, []);
        assert_eq!(checked(&whole, 1), Ok(false));
        assert_eq!(checked(&whole, 2), Err(19));
        let mut highest = h1();
        highest.terminals = 64;
        assert_eq!(checked(&highest, 63), Ok(false));
        assert_eq!(checked(&highest, 64), Err(19));
    }

    #[test]
    fn h1_judged_moved_and_run() {
        let pushed = HandedState {
            drawn: 0,
            pushed: 1,
        };
        let drawn = HandedState {
            drawn: 1,
            pushed: 1,
        };
        let judgement = judge_call(&h1(), pushed, (0, false), 3).unwrap();
        assert_eq!((judgement.verdict, judgement.effort), (Verdict::Live, 3));
        assert_eq!(judgement.chain[..4], [0, 2, 1, 0]);
        assert_eq!(tell_call(&h1(), pushed, (0, false)), Ok(Told::Live));
        assert_eq!(tell_call(&h1(), FRESH, (0, false)), Ok(Told::Dead(1)));
        assert_eq!(check_call(&h1(), FRESH, (0, false), 1), Ok(true));
        assert_eq!(check_call(&h1(), pushed, (0, false), 1), Ok(false));
        let mut log = vec![77; 65_536];
        let idle = Ran {
            word: Ok(Word::Idle),
            moves: 1,
            state: drawn,
            relay: 255,
            before: 0,
            between: 0,
        };
        assert_eq!(move_call(&h1(), pushed, 0), (Ok(Answer::Drew), drawn));
        assert_eq!(run_call(&h1(), pushed, &mut log), idle);
        assert_eq!(log[..2], [128, 77]);
    }

    #[test]
    fn a_buzzer_run_and_refused() {
        // H3: the lower contact of relay 0 instead of the button
        let mut h3 = h1();
        h3.parts[0].kind = Kind::LowerContact(0);
        let buzz = Ran {
            word: Ok(Word::Buzz),
            moves: 2,
            state: FRESH,
            relay: 255,
            before: 0,
            between: 2,
        };
        for length in [2, 3, 5, 65_536] {
            let mut log = vec![77; length];
            assert_eq!(run_call(&h3, FRESH, &mut log), buzz);
            assert_eq!(log[..2], [128, 0]);
            assert!(log[2..].iter().all(|&byte| byte == 77));
        }
        let mut log = vec![77; 65_537];
        let refused = Ran {
            word: Err(13),
            moves: 0,
            between: 0,
            ..buzz
        };
        assert_eq!(run_call(&h3, FRESH, &mut log), refused);
        assert!(log.iter().all(|&byte| byte == 77));
    }

    #[test]
    fn reports_refuse_in_order() {
        let refused = |number| (Some(number), Report::default());
        let with = |relays, buttons| HandedBoard {
            relays,
            buttons,
            ..h1()
        };
        // with two relays the second lacks its winding
        for buttons in [1, 12, 13, 32, 33] {
            for length in [0, 65_536, 65_537, u32::MAX] {
                assert_eq!(report_call(&with(2, buttons), length), refused(15));
            }
        }
        for buttons in [0, 33] {
            assert_eq!(report_call(&with(1, buttons), 65_537), refused(15));
        }
        for buttons in [1, 12, 13, 32] {
            for length in [65_537, 65_538, 1 << 17, 1 << 24, u32::MAX] {
                assert_eq!(report_call(&with(1, buttons), length), refused(13));
            }
        }
        for buttons in [13, 14, 31, 32] {
            for length in [0, 1, 65_536] {
                assert_eq!(report_call(&with(1, buttons), length), refused(20));
            }
        }
    }

    #[test]
    fn a_report_on_h1() {
        let reported = |length| {
            let (refused, report) = report_call(&h1(), length);
            assert_eq!(refused, None);
            report.figures()
        };
        // pushed it draws, if there is room
        assert_eq!(reported(0), [2, 1, 0, 0, 1, 0, 0, 0]);
        for length in [1, 2, 65_536] {
            assert_eq!(reported(length), [2, 2, 0, 0, 0, 1, 1, 1]);
        }
    }
}
