//! Request A10: reports on all settings of a board's buttons. On boards whose
//! figures are worked out by hand, with logs around the most moves, refused in
//! order, and against a run of each setting by itself.

use second::board::{Ends, Kind, Part, MINUS, NO_ENDS, PLUS};
use second::calls::{report_call, run_call, HandedBoard, HandedState};
use second::report::Report;
use second::runs::Word;

/// The longest log.
const LONGEST: u32 = 65_536;

fn part(kind: Kind, ends: Ends) -> Part {
    Part { ends, kind }
}

/// A board without marks.
fn board(terminals: usize, relays: usize, buttons: usize, parts: &[(Kind, Ends)]) -> HandedBoard {
    HandedBoard {
        terminals,
        relays,
        buttons,
        count: parts.len(),
        start: 0,
        parts: parts.iter().map(|&(kind, ends)| part(kind, ends)).collect(),
    }
}

/// The board with a mark more, of this relay.
fn marked(mut board: HandedBoard, relay: usize) -> HandedBoard {
    board.parts.push(part(Kind::Mark(relay), NO_ENDS));
    board.count += 1;
    board.start += 1 << relay;
    board
}

/// The board with so many buttons instead.
fn with_buttons(board: HandedBoard, buttons: usize) -> HandedBoard {
    HandedBoard { buttons, ..board }
}

/// Settings, idle, buzz, conflict, spent, all moves, the most moves, and the
/// first setting that has them.
type Figures = [usize; 8];

/// The figures of a report that is not refused.
fn figures(board: &HandedBoard, length: u32) -> Figures {
    let (refused, report) = report_call(board, length);
    assert_eq!(refused, None);
    report.figures()
}

/// Asserts these figures with each log of at least this length.
fn assert_from(board: &HandedBoard, length: u32, expected: Figures) {
    for length in [length, length + 1, 2 * length + 5, 4_096, LONGEST] {
        assert_eq!(figures(board, length), expected);
    }
    assert_refused(board, LONGEST + 1, 13);
}

fn assert_refused(board: &HandedBoard, length: u32, number: u8) {
    let zeros = Report::default();
    assert_eq!(zeros.figures(), [0; 8]);
    assert_eq!(report_call(board, length), (Some(number), zeros));
}

/// No relay, so many buttons, no part. With no button it is H0.
fn h0(buttons: usize) -> HandedBoard {
    board(2, 0, buttons, &[])
}

/// Button 0 on 0-2, the regular winding of relay 0 on 2-1.
fn h1() -> HandedBoard {
    let parts = [(Kind::Button(0), (0, 2)), (Kind::RegularWinding(0), (2, 1))];
    board(3, 1, 1, &parts)
}

/// The same with an upper contact of the relay beside the button.
fn h2() -> HandedBoard {
    let parts = [
        (Kind::Button(0), (0, 2)),
        (Kind::UpperContact(0), (0, 2)),
        (Kind::RegularWinding(0), (2, 1)),
    ];
    board(3, 1, 1, &parts)
}

/// The lower contact of relay 0 on 0-2, its winding on 2-1.
fn h3() -> HandedBoard {
    let parts = [
        (Kind::LowerContact(0), (0, 2)),
        (Kind::RegularWinding(0), (2, 1)),
    ];
    board(3, 1, 0, &parts)
}

/// Buttons 0 on 0-2 and 1 on 0-3, the drawing winding of relay 0 on 2-1, its
/// dropping winding on 3-1.
fn h5() -> HandedBoard {
    let parts = [
        (Kind::Button(0), (0, 2)),
        (Kind::Button(1), (0, 3)),
        (Kind::DrawingWinding(0), (2, 1)),
        (Kind::DroppingWinding(0), (3, 1)),
    ];
    board(4, 1, 2, &parts)
}

#[test]
fn without_relays_each_setting_is_idle() {
    for buttons in 0..=12 {
        let settings = 1 << buttons;
        let idle = [settings, settings, 0, 0, 0, 0, 0, 0];
        for length in [0, 1, LONGEST] {
            assert_eq!(figures(&h0(buttons), length), idle);
        }
    }
}

#[test]
fn a_board_without_buttons_has_one_setting() {
    // a relay on 0-1 draws; a wire beside it shunts it
    let fed = [(Kind::RegularWinding(0), (0, 1)), (Kind::Wire, (1, 0))];
    let alone = board(2, 1, 0, &fed[..1]);
    assert_eq!(figures(&alone, 0), [1, 0, 0, 0, 1, 0, 0, 0]);
    assert_from(&alone, 1, [1, 1, 0, 0, 0, 1, 1, 0]);
    assert_from(&board(2, 1, 0, &fed), 0, [1, 1, 0, 0, 0, 0, 0, 0]);
    // with a mark the first has nothing to do, and the other drops
    assert_from(&marked(alone, 0), 0, [1, 1, 0, 0, 0, 0, 0, 0]);
    let shunted = marked(board(2, 1, 0, &fed), 0);
    assert_eq!(figures(&shunted, 0), [1, 0, 0, 0, 1, 0, 0, 0]);
    assert_from(&shunted, 1, [1, 1, 0, 0, 0, 1, 1, 0]);
}

#[test]
fn h3_buzzes_whatever_is_pushed() {
    for h3 in [h3(), marked(h3(), 0)] {
        assert_eq!(figures(&h3, 0), [1, 0, 0, 0, 1, 0, 0, 0]);
        assert_eq!(figures(&h3, 1), [1, 0, 0, 0, 1, 1, 1, 0]);
        assert_from(&h3, 2, [1, 0, 1, 0, 0, 2, 2, 0]);
        // buttons without a part have settings too
        let wide = with_buttons(h3, 3);
        assert_eq!(figures(&wide, 0), [8, 0, 0, 0, 8, 0, 0, 0]);
        assert_eq!(figures(&wide, 1), [8, 0, 0, 0, 8, 8, 1, 0]);
        assert_from(&wide, 2, [8, 0, 8, 0, 0, 16, 2, 0]);
    }
}

#[test]
fn h1_draws_when_it_is_pushed() {
    assert_eq!(figures(&h1(), 0), [2, 1, 0, 0, 1, 0, 0, 0]);
    assert_from(&h1(), 1, [2, 2, 0, 0, 0, 1, 1, 1]);
    // drawn at the start it drops when it is not
    let marked = marked(h1(), 0);
    assert_eq!(figures(&marked, 0), [2, 1, 0, 0, 1, 0, 0, 0]);
    assert_from(&marked, 1, [2, 2, 0, 0, 0, 1, 1, 0]);
}

/// Neither pushed: rests. Button 0: draws. Button 1: rests dropped. Both:
/// conflict.
#[test]
fn h5_at_its_four_settings() {
    assert_eq!(figures(&h5(), 0), [4, 2, 0, 1, 1, 0, 0, 0]);
    assert_from(&h5(), 1, [4, 3, 0, 1, 0, 1, 1, 1]);
}

/// Neither pushed: rests drawn. Button 0: rests. Button 1: drops. Both:
/// conflict.
#[test]
fn h5_drawn_at_the_start() {
    let marked = marked(h5(), 0);
    assert_eq!(figures(&marked, 0), [4, 2, 0, 1, 1, 0, 0, 0]);
    assert_from(&marked, 1, [4, 3, 0, 1, 0, 1, 1, 2]);
}

#[test]
fn two_buttons_in_a_row_beside_each_other_and_across() {
    let row = [
        (Kind::Button(0), (0, 2)),
        (Kind::Button(1), (2, 3)),
        (Kind::RegularWinding(0), (3, 1)),
    ];
    assert_from(&board(4, 1, 2, &row), 1, [4, 4, 0, 0, 0, 1, 1, 3]);
    let beside = [
        (Kind::Button(1), (0, 2)),
        (Kind::Button(0), (2, 0)),
        (Kind::RegularWinding(0), (2, 1)),
    ];
    assert_from(&board(3, 1, 2, &beside), 1, [4, 4, 0, 0, 0, 3, 1, 1]);
    // button 1 shunts the winding
    let across = [
        (Kind::Button(0), (0, 2)),
        (Kind::Button(1), (2, 1)),
        (Kind::RegularWinding(0), (2, 1)),
    ];
    let across = board(3, 1, 2, &across);
    assert_from(&across, 1, [4, 4, 0, 0, 0, 1, 1, 1]);
    // drawn at the start it drops, but where button 0 alone holds it
    assert_from(&marked(across, 0), 1, [4, 4, 0, 0, 0, 3, 1, 0]);
}

#[test]
fn the_parts_of_one_button_move_together() {
    // button 2 has two parts in a row, button 0 has none, button 1 shunts
    let parts = [
        (Kind::Button(2), (0, 2)),
        (Kind::Button(2), (2, 3)),
        (Kind::RegularWinding(0), (3, 1)),
        (Kind::Button(1), (3, 1)),
    ];
    // settings 4 and 5 draw
    let board = board(4, 1, 3, &parts);
    assert_eq!(figures(&board, 0), [8, 6, 0, 0, 2, 0, 0, 0]);
    assert_from(&board, 1, [8, 8, 0, 0, 0, 2, 1, 4]);
}

#[test]
fn each_setting_begins_from_the_start_state() {
    // the relay of H2 holds itself: it draws at 1 and, dropped again, at 3
    let held = with_buttons(h2(), 2);
    assert_from(&held, 1, [4, 4, 0, 0, 0, 2, 1, 1]);
    // behind button 0 and its own upper contact it can only hold: marked, it
    // drops at 0 and, drawn again, at 2
    let parts = [
        (Kind::Button(0), (0, 3)),
        (Kind::UpperContact(0), (3, 2)),
        (Kind::RegularWinding(0), (2, 1)),
    ];
    let holding = board(4, 1, 2, &parts);
    assert_from(&holding, 0, [4, 4, 0, 0, 0, 0, 0, 0]);
    assert_from(&marked(holding, 0), 1, [4, 4, 0, 0, 0, 2, 1, 0]);
}

#[test]
fn no_run_comes_before_the_buttons_are_set() {
    // released it draws; pushed it is shunted, and has not been drawn before
    let parts = [
        (Kind::Wire, (0, 2)),
        (Kind::RegularWinding(0), (2, 1)),
        (Kind::Button(0), (2, 1)),
    ];
    assert_from(&board(3, 1, 1, &parts), 1, [2, 2, 0, 0, 0, 1, 1, 0]);
}

#[test]
fn a_buzzer_at_some_settings() {
    // the button feeds H3 beside its contact: pushed, it draws and rests
    let parts = [
        (Kind::LowerContact(0), (0, 2)),
        (Kind::RegularWinding(0), (2, 1)),
        (Kind::Button(0), (0, 2)),
    ];
    let stopped = board(3, 1, 1, &parts);
    assert_eq!(figures(&stopped, 0), [2, 0, 0, 0, 2, 0, 0, 0]);
    assert_eq!(figures(&stopped, 1), [2, 1, 0, 0, 1, 2, 1, 0]);
    assert_from(&stopped, 2, [2, 1, 1, 0, 0, 3, 2, 0]);
    // drawn at the start, and pushed, it has nothing to do
    let drawn = marked(stopped, 0);
    assert_eq!(figures(&drawn, 0), [2, 1, 0, 0, 1, 0, 0, 0]);
    assert_eq!(figures(&drawn, 1), [2, 1, 0, 0, 1, 1, 1, 0]);
    assert_from(&drawn, 2, [2, 1, 1, 0, 0, 2, 2, 0]);
}

#[test]
fn the_moves_before_a_buzz_are_counted_too() {
    // relay 0 behind button 1; relay 1 is H3 behind button 0. At 1 it buzzes
    // after 2 moves, at 2 relay 0 draws, at 3 one comes before the other
    let parts = [
        (Kind::Button(1), (0, 2)),
        (Kind::RegularWinding(0), (2, 1)),
        (Kind::Button(0), (0, 3)),
        (Kind::LowerContact(1), (3, 4)),
        (Kind::RegularWinding(1), (4, 1)),
    ];
    let led = board(5, 2, 2, &parts);
    assert_eq!(figures(&led, 0), [4, 1, 0, 0, 3, 0, 0, 0]);
    assert_eq!(figures(&led, 1), [4, 2, 0, 0, 2, 3, 1, 1]);
    assert_eq!(figures(&led, 2), [4, 2, 1, 0, 1, 5, 2, 1]);
    assert_from(&led, 3, [4, 2, 2, 0, 0, 6, 3, 3]);
}

#[test]
fn a_conflict_at_some_settings() {
    // relay 0 behind button 0; both windings of relay 1 behind its contact
    let parts = [
        (Kind::Button(0), (0, 2)),
        (Kind::RegularWinding(0), (2, 1)),
        (Kind::UpperContact(0), (0, 3)),
        (Kind::DrawingWinding(1), (3, 1)),
        (Kind::DroppingWinding(1), (1, 3)),
    ];
    let late = board(4, 2, 1, &parts);
    assert_eq!(figures(&late, 0), [2, 1, 0, 0, 1, 0, 0, 0]);
    assert_from(&late, 1, [2, 1, 0, 1, 0, 1, 1, 1]);
    // relay 1 drawn at the start changes nothing
    let drawn = marked(late.clone(), 1);
    assert_from(&drawn, 1, [2, 1, 0, 1, 0, 1, 1, 1]);
    // with relay 0 drawn: released it drops, pushed there is a conflict at once
    let drawn = marked(late, 0);
    assert_eq!(figures(&drawn, 0), [2, 0, 0, 1, 1, 0, 0, 0]);
    assert_from(&drawn, 1, [2, 1, 0, 1, 0, 1, 1, 0]);
}

/// Three buttons and five relays, for all four words. Relay 0 is H3 behind
/// button 0, and buzzes at each odd setting after 2 moves, as it comes first.
/// Relay 1 is behind button 1, and relays 3 and 4 follow it: 3 moves at setting
/// 2. Both windings of relay 2 are behind button 2 and the upper contact of
/// relay 1: at setting 6 a conflict after 1 move. Settings 0 and 4 are idle.
fn of_all_words() -> HandedBoard {
    let parts = [
        (Kind::Button(0), (0, 2)),
        (Kind::LowerContact(0), (2, 3)),
        (Kind::RegularWinding(0), (3, 1)),
        (Kind::Button(1), (0, 4)),
        (Kind::RegularWinding(1), (4, 1)),
        (Kind::Button(2), (0, 5)),
        (Kind::UpperContact(1), (5, 6)),
        (Kind::DrawingWinding(2), (6, 1)),
        (Kind::DroppingWinding(2), (6, 1)),
        (Kind::UpperContact(1), (0, 7)),
        (Kind::RegularWinding(3), (7, 1)),
        (Kind::UpperContact(3), (0, 8)),
        (Kind::RegularWinding(4), (8, 1)),
    ];
    board(9, 5, 3, &parts)
}

#[test]
fn three_buttons_and_all_words() {
    let board = of_all_words();
    assert_eq!(figures(&board, 0), [8, 2, 0, 0, 6, 0, 0, 0]);
    assert_eq!(figures(&board, 1), [8, 2, 0, 1, 5, 6, 1, 1]);
    assert_eq!(figures(&board, 2), [8, 2, 4, 1, 1, 11, 2, 1]);
    assert_from(&board, 3, [8, 3, 4, 1, 0, 12, 3, 2]);
}

#[test]
fn three_buttons_and_all_words_with_relays_drawn_at_the_start() {
    // relay 4 marked: at 0 and 4 it drops; at 2 relays 1 and 3 come first, and
    // it rests drawn; all else is as before
    let last = marked(of_all_words(), 4);
    assert_eq!(figures(&last, 0), [8, 0, 0, 0, 8, 0, 0, 0]);
    assert_eq!(figures(&last, 1), [8, 2, 0, 1, 5, 8, 1, 0]);
    assert_from(&last, 2, [8, 3, 4, 1, 0, 13, 2, 1]);
    // relay 1 marked: at 0 it drops, and at 4 too, before relay 2 is looked at;
    // at 2 relays 3 and 4 follow it; at 6 there is a conflict at once
    let ruler = marked(of_all_words(), 1);
    assert_eq!(figures(&ruler, 0), [8, 0, 0, 1, 7, 0, 0, 0]);
    assert_eq!(figures(&ruler, 1), [8, 2, 0, 1, 5, 7, 1, 0]);
    assert_from(&ruler, 2, [8, 3, 4, 1, 0, 12, 2, 1]);
}

/// So many buttons, each before the winding of a relay of its own.
fn each_its_own(buttons: usize) -> HandedBoard {
    let parts: Vec<_> = (0..buttons)
        .flat_map(|number| {
            let at = 2 + number;
            let winding = (Kind::RegularWinding(number), (at, 1));
            [(Kind::Button(number), (0, at)), winding]
        })
        .collect();
    board(2 + buttons, buttons, buttons, &parts)
}

/// A relay moves where it is pushed and not marked, or marked and not pushed.
#[test]
fn each_set_of_marks_before_each_setting() {
    for marks in 0..8 {
        let relays = (0..3).filter(|relay| marks >> relay & 1 == 1);
        let board = relays.fold(each_its_own(3), marked);
        assert_from(&board, 3, [8, 8, 0, 0, 0, 12, 3, 7 - marks]);
        // two moves or more: these differ from the marks
        let first = [3, 5, 6, 7].map(|moved| moved ^ marks).into_iter().min();
        let two = [8, 7, 0, 0, 1, 11, 2, first.unwrap()];
        assert_eq!(figures(&board, 2), two);
        let first = usize::from(marks == 0);
        assert_eq!(figures(&board, 1), [8, 4, 0, 0, 4, 7, 1, first]);
        assert_eq!(figures(&board, 0), [8, 1, 0, 0, 7, 0, 0, 0]);
    }
}

/// At each setting as many relays draw as buttons are pushed. Of the 4,096
/// settings 1, 12, 66, 220, 495 and 792 have none to five pushed.
#[test]
fn twelve_buttons() {
    let board = each_its_own(12);
    assert_eq!(figures(&board, 0), [4_096, 1, 0, 0, 4_095, 0, 0, 0]);
    assert_eq!(figures(&board, 1), [4_096, 13, 0, 0, 4_083, 4_095, 1, 1]);
    let five = [4_096, 1_586, 0, 0, 2_510, 6_744 + 12_550, 5, 31];
    assert_eq!(figures(&board, 5), five);
    let eleven = [4_096, 4_095, 0, 0, 1, 24_575, 11, 2_047];
    assert_eq!(figures(&board, 11), eleven);
    let all = [4_096, 4_096, 0, 0, 0, 24_576, 12, 4_095];
    for length in [12, 13, LONGEST] {
        assert_eq!(figures(&board, length), all);
    }
    assert_refused(&board, LONGEST + 1, 13);
}

#[test]
fn twelve_buttons_in_a_row() {
    let mut parts: Vec<_> = (1..12)
        .map(|button| (Kind::Button(button), (1 + button, 2 + button)))
        .collect();
    parts.push((Kind::Button(0), (0, 2)));
    parts.push((Kind::RegularWinding(0), (13, 1)));
    let row = board(14, 1, 12, &parts);
    let all = [4_096, 4_096, 0, 0, 0, 1, 1, 4_095];
    assert_eq!(figures(&row, LONGEST), all);
    assert_eq!(figures(&row, 0), [4_096, 4_095, 0, 0, 1, 0, 0, 0]);
}

#[test]
fn more_than_twelve_buttons_are_refused_by_20() {
    for buttons in [13, 14, 16, 24, 31, 32] {
        for length in [0, 1, LONGEST] {
            assert_refused(&h0(buttons), length, 20);
            assert_refused(&with_buttons(h5(), buttons), length, 20);
        }
    }
    assert_refused(&each_its_own(13), 100, 20);
    assert_eq!(figures(&with_buttons(h5(), 12), 1)[..2], [4_096, 3_072]);
}

#[test]
fn refusals_come_in_order() {
    // an end of its first part is not below T
    let broken = |buttons| {
        let mut board = with_buttons(h5(), buttons);
        board.parts[0].ends.1 = 4;
        board
    };
    for buttons in [2, 12, 13, 32, 33] {
        for length in [0, LONGEST, LONGEST + 1, u32::MAX] {
            assert_refused(&broken(buttons), length, 15);
        }
    }
    for buttons in [2, 12, 13, 32] {
        for length in [LONGEST + 1, 2 * LONGEST, 1 << 24, u32::MAX] {
            assert_refused(&with_buttons(h5(), buttons), length, 13);
        }
    }
    assert_refused(&with_buttons(h5(), 13), LONGEST, 20);
    // 15 is also for counts, and for a start that the marks do not give
    for length in [0, LONGEST + 1] {
        assert_refused(&with_buttons(h5(), 1), length, 15);
        assert_refused(&with_buttons(h5(), 33), length, 15);
        for start in [1, 2, 1 << 32] {
            let unmarked = HandedBoard { start, ..h5() };
            assert_refused(&unmarked, length, 15);
            assert_refused(&with_buttons(unmarked, 13), length, 15);
        }
        let start_lost = HandedBoard {
            start: 0,
            ..marked(h5(), 0)
        };
        assert_refused(&start_lost, length, 15);
    }
}

/// A binary counter, as in `buzzers.rs`, whose last relay, which feeds itself
/// by its lower contact, is behind button 0.
fn counter(stages: usize) -> HandedBoard {
    let last = 2 * stages;
    let mut parts = vec![
        (Kind::Button(0), (0, 3)),
        (Kind::LowerContact(last), (3, 2)),
        (Kind::RegularWinding(last), (2, 1)),
    ];
    for stage in 0..stages {
        let (a, m) = (2 * stage, 2 * stage + 1);
        let ruler = if stage == 0 { last } else { a - 2 };
        let [x, y, wa, wm] = [4, 5, 6, 7].map(|terminal| terminal + 4 * stage);
        parts.extend([
            (Kind::UpperContact(ruler), (0, x)),
            (Kind::LowerContact(ruler), (0, y)),
            (Kind::LowerContact(a), (x, wm)),
            (Kind::UpperContact(a), (x, wa)),
            (Kind::UpperContact(m), (y, wm)),
            (Kind::LowerContact(ruler), (wm, wa)),
            (Kind::RegularWinding(a), (wa, 1)),
            (Kind::RegularWinding(m), (wm, 1)),
        ]);
    }
    board(4 + 4 * stages, last + 1, 1, &parts)
}

/// With n stages it is 6 x 2^n - 4 moves until all is dropped again.
#[test]
fn logs_around_the_end_of_a_long_run() {
    let board = counter(6);
    assert_eq!(figures(&board, 0), [2, 1, 0, 0, 1, 0, 0, 0]);
    assert_eq!(figures(&board, 1), [2, 1, 0, 0, 1, 1, 1, 1]);
    assert_eq!(figures(&board, 379), [2, 1, 0, 0, 1, 379, 379, 1]);
    assert_from(&board, 380, [2, 1, 1, 0, 0, 380, 380, 1]);
    // ten stages: longer than the log of a session
    let (board, whole) = (counter(10), [2, 1, 1, 0, 0, 6_140, 6_140, 1]);
    assert_eq!(figures(&board, 6_139), [2, 1, 0, 0, 1, 6_139, 6_139, 1]);
    assert_eq!(figures(&board, 6_140), whole);
    assert_eq!(figures(&board, LONGEST), whole);
}

#[test]
#[ignore = "takes some seconds"]
fn a_report_that_spends_the_longest_log() {
    let spent = [2, 1, 0, 0, 1, 65_536, 65_536, 1];
    assert_eq!(figures(&counter(14), LONGEST), spent);
}

/// The figures by a run of each setting by itself, over a log of its own.
fn by_single_runs(board: &HandedBoard, length: u32) -> Figures {
    let run = |pushed| {
        let drawn = board.start;
        let mut log = vec![77; length as usize];
        let ran = run_call(board, HandedState { drawn, pushed }, &mut log);
        (ran.word.unwrap(), ran.moves)
    };
    let runs: Vec<(Word, usize)> = (0..1 << board.buttons).map(run).collect();
    let ended = |word| runs.iter().filter(|run| run.0 == word).count();
    let moves: Vec<usize> = runs.iter().map(|run| run.1).collect();
    let most = *moves.iter().max().unwrap();
    [
        runs.len(),
        ended(Word::Idle),
        ended(Word::Buzz),
        ended(Word::Conflict),
        ended(Word::Spent),
        moves.iter().sum(),
        most,
        moves.iter().position(|&moves| moves == most).unwrap(),
    ]
}

/// Dice that fall the same each time, for numbers below `sides`.
fn dice(seed: u32) -> impl FnMut(usize) -> usize {
    let mut dice = seed;
    move |sides| {
        dice = dice.wrapping_mul(1_664_525).wrapping_add(1_013_904_223);
        (dice >> 16) as usize % sides
    }
}

/// A board of up to five relays, each regular or steel and with a mark or not,
/// and up to four buttons. Most windings hang on minus and each button on plus,
/// and up to nine more contacts, buttons and wires anywhere.
fn any_board(roll: &mut impl FnMut(usize) -> usize) -> HandedBoard {
    let (terminals, relays, buttons) = (5 + roll(3), 1 + roll(5), roll(5));
    let mut parts = Vec::new();
    let mut add = |kind, from, to| parts.push((kind, (from, to)));
    for relay in 0..relays {
        let mut end = || 2 + roll(terminals - 2);
        let (first, second) = (end(), end());
        match roll(3) {
            0 => {
                add(Kind::DrawingWinding(relay), first, MINUS);
                add(Kind::DroppingWinding(relay), second, MINUS);
            }
            1 if first != second => add(Kind::RegularWinding(relay), first, second),
            _ => add(Kind::RegularWinding(relay), first, MINUS),
        }
    }
    for button in 0..buttons {
        add(Kind::Button(button), PLUS, 2 + roll(terminals - 2));
    }
    for _ in 0..roll(10) {
        let kind = match roll(9) {
            0 => Kind::Wire,
            1 if buttons > 0 => Kind::Button(roll(buttons)),
            1..=4 => Kind::UpperContact(roll(relays)),
            _ => Kind::LowerContact(roll(relays)),
        };
        let from = 2 + roll(terminals - 2);
        add(kind, from, (from + 1 + roll(terminals - 1)) % terminals);
    }
    let unmarked = board(terminals, relays, buttons, &parts);
    let starts: Vec<usize> = (0..relays).filter(|_| roll(6) == 0).collect();
    starts.into_iter().fold(unmarked, marked)
}

#[test]
fn figures_are_those_of_single_runs() {
    let mut roll = dice(11);
    let (mut sums, mut firsts) = ([0; 8], [0; 16]);
    for _ in 0..1_500 {
        let board = any_board(&mut roll);
        let all = 1 << board.relays;
        for length in [0, 1, 2, roll(all) as u32, all as u32] {
            let reported = figures(&board, length);
            assert_eq!(reported, by_single_runs(&board, length));
            let [settings, idle, buzz, conflict, spent, _, most, first] = reported;
            assert_eq!(settings, 1 << board.buttons);
            assert_eq!(idle + buzz + conflict + spent, settings);
            assert!(most <= length as usize && first < settings);
            // with n relays a log of 2^n is never spent
            assert!((length as usize) < all || spent == 0);
            for (sum, figure) in sums.iter_mut().zip(reported) {
                *sum += figure;
            }
            firsts[first] += 1;
        }
    }
    assert!(sums.iter().all(|&sum| sum > 1_000));
    assert!([0, 1, 2, 3, 4, 8].iter().all(|&first| firsts[first] > 20));
}

#[test]
fn figures_of_the_boards_here_are_those_of_single_runs() {
    let boards = [h0(2), h1(), h2(), h3(), h5(), of_all_words(), counter(3)];
    for board in boards {
        for length in [0, 1, 2, 3, 43, 44, 45] {
            assert_eq!(figures(&board, length), by_single_runs(&board, length));
        }
    }
}

/// A board of 12 buttons, 32 relays, 64 terminals and 256 parts. Each terminal
/// of a ring of 30 is joined to the next six, and plus feeds twelve of them.
/// From each of these a button leads to one of relays 20 to 31, and each lower
/// relay is fed by the upper contact of the next.
fn large() -> HandedBoard {
    let (ring, first) = (34, 20);
    let mut parts = Vec::new();
    for at in 0..30 {
        let next = (1..7).map(|by| (ring + at, ring + (at + by) % 30));
        parts.extend(next.map(|ends| (Kind::Wire, ends)));
    }
    for button in 0..12 {
        let (from, to) = (ring + 2 * button, 2 + first + button);
        parts.push((Kind::Wire, (0, from)));
        parts.push((Kind::Button(button), (from, to)));
    }
    for relay in 0..32 {
        parts.push((Kind::RegularWinding(relay), (2 + relay, 1)));
        if relay < first {
            parts.push((Kind::UpperContact(relay + 1), (0, 2 + relay)));
        }
    }
    let board = board(64, 32, 12, &parts);
    assert_eq!(board.count, 256);
    board
}

/// Each pushed button makes a move, 24,576 in all, and button 0, which is
/// pushed at 2,048 settings, 20 more.
#[test]
#[ignore = "takes some seconds"]
fn a_report_on_a_large_board() {
    let all = [4_096, 4_096, 0, 0, 0, 65_536, 32, 4_095];
    assert_eq!(figures(&large(), LONGEST), all);
}
