//! The report on all settings of a board's buttons.
//!
//! Renders request A10. The settings are run one after another, from 0 up, each
//! from the start state, and what each run ended with is added to the figures.

use crate::board::{Board, State};
use crate::runs::{run, RunAnswer, Word};

/// Which buttons are pushed: the sum of 2 to the number of each.
pub type Setting = usize;

/// How many settings there are, how many of their runs ended with each word,
/// the moves of all runs, the most moves of a run, and the first setting whose
/// run made so many.
#[derive(Clone, Copy, Debug, Default, PartialEq, Eq)]
pub struct Report {
    pub settings: usize,
    pub idle: usize,
    pub buzz: usize,
    pub conflict: usize,
    pub spent: usize,
    pub moves: usize,
    pub most: usize,
    pub first: Setting,
}

impl Report {
    /// The eight figures in the order of the request.
    pub fn figures(&self) -> [usize; 8] {
        [
            self.settings,
            self.idle,
            self.buzz,
            self.conflict,
            self.spent,
            self.moves,
            self.most,
            self.first,
        ]
    }

    /// Adds how the run of a setting ended; those below it were added before.
    fn add(&mut self, setting: Setting, answer: &RunAnswer) {
        self.settings += 1;
        match answer.word {
            Word::Idle => self.idle += 1,
            Word::Buzz => self.buzz += 1,
            Word::Conflict => self.conflict += 1,
            Word::Spent => self.spent += 1,
        }
        self.moves += answer.moves;
        if answer.moves > self.most {
            (self.most, self.first) = (answer.moves, setting);
        }
    }
}

/// Runs each setting of the board's buttons with a log of this length. One log
/// is lent to all runs: none looks at what it holds.
pub fn report(board: &Board, length: usize) -> Report {
    let mut log = vec![0; length];
    let mut report = Report::default();
    for setting in 0..1 << board.buttons {
        let answer = run(board, state_of(board, setting), &mut log);
        report.add(setting, &answer);
    }
    report
}

/// The start state, with exactly the buttons of this setting pushed.
fn state_of(board: &Board, setting: Setting) -> State {
    let pushed = (0..board.buttons).filter(|button| setting >> button & 1 == 1);
    pushed.fold(State::fresh(board), State::push)
}

#[cfg(test)]
mod tests {
    use super::*;
    use crate::board::{Kind, Part, NO_ENDS};
    use crate::runs::NO_RELAY;

    /// How a run with this word and so many moves ended.
    fn ended(word: Word, moves: usize) -> RunAnswer {
        RunAnswer {
            word,
            moves,
            state: State::empty(),
            relay: NO_RELAY,
            before: 0,
            between: 0,
        }
    }

    /// The figures of settings whose runs ended so, from setting 0 up.
    fn added(answers: &[(Word, usize)]) -> [usize; 8] {
        let mut report = Report::default();
        for (setting, &(word, moves)) in answers.iter().enumerate() {
            report.add(setting, &ended(word, moves));
        }
        report.figures()
    }

    #[test]
    fn moves_are_added_whatever_the_word() {
        let (idle, buzz) = ((Word::Idle, 1), (Word::Buzz, 20));
        let (conflict, spent) = ((Word::Conflict, 300), (Word::Spent, 4_000));
        assert_eq!(added(&[idle]), [1, 1, 0, 0, 0, 1, 1, 0]);
        assert_eq!(added(&[buzz]), [1, 0, 1, 0, 0, 20, 20, 0]);
        assert_eq!(added(&[conflict]), [1, 0, 0, 1, 0, 300, 300, 0]);
        assert_eq!(added(&[spent]), [1, 0, 0, 0, 1, 4_000, 4_000, 0]);
        let all = [idle, idle, idle, conflict, buzz, buzz, spent, conflict];
        assert_eq!(added(&all), [8, 3, 2, 2, 1, 4_643, 4_000, 6]);
    }

    #[test]
    fn of_settings_with_the_most_moves_the_first_is_told() {
        let idle = |moves: &[usize]| {
            let answers: Vec<_> = moves.iter().map(|&moves| (Word::Idle, moves)).collect();
            let [.., total, most, first] = added(&answers);
            (total, most, first)
        };
        assert_eq!(idle(&[0, 0, 0, 0]), (0, 0, 0));
        assert_eq!(idle(&[3, 3, 3, 3]), (12, 3, 0));
        assert_eq!(idle(&[0, 2, 2, 1]), (5, 2, 1));
        assert_eq!(idle(&[1, 0, 2, 2]), (5, 2, 2));
        assert_eq!(idle(&[1, 2, 3, 4]), (10, 4, 3));
        assert_eq!(idle(&[4, 3, 2, 1]), (10, 4, 0));
    }

    #[test]
    fn without_a_setting_all_is_zero() {
        assert_eq!(added(&[]), [0; 8]);
    }

    #[test]
    fn a_setting_pushes_its_buttons_and_draws_what_is_marked() {
        let mark = |relay| Part {
            ends: NO_ENDS,
            kind: Kind::Mark(relay),
        };
        let board = Board {
            terminals: 2,
            relays: 3,
            buttons: 12,
            parts: vec![mark(2), mark(0)],
        };
        let start = State::empty().draw(0).draw(2);
        assert_eq!(state_of(&board, 0), start);
        assert_eq!(state_of(&board, 1), start.push(0));
        assert_eq!(state_of(&board, 6), start.push(1).push(2));
        assert_eq!(state_of(&board, 2_048), start.push(11));
        let all = (0..12).fold(start, State::push);
        assert_eq!(state_of(&board, 4_095), all);
    }
}
