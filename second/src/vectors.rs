//! Tests over several modules: "Boards to try" as requests A4 and A6 to A8
//! amended them, "Slips to rule out" and the sessions of the rule book, the
//! figure of document 000, the marks of request A2, and a few more.

use crate::board::{Board, Ends, Kind, State, Windings};
use crate::file::read_board;
use crate::judge::{judge, judge_by_chains, Judgement, Verdict};
use crate::moves::{move_relay, Answer};
use crate::number::Reader;
use crate::runs::{run, RunAnswer, Word};
use crate::session::session;
use crate::tell::{divides, tell, Told};

const MUCH: u32 = u32::MAX;

const H1: &[u8] = &[3, 1, 1, 2, 3, 0, 2, 0, 4, 2, 1, 0];
const H2: &[u8] = &[
    3, 1, 1, 3, 3, 0, 2, 0, 1, 0, 2, 0, 4, 2, 1, 0, 0x64, 0x01, 0x00,
];
const H3: &[u8] = &[3, 1, 0, 2, 2, 0, 2, 0, 4, 2, 1, 0];
const H4: &[u8] = &[5, 1, 0, 4, 0, 0, 2, 0, 2, 3, 0, 4, 2, 4, 3, 4, 0];
const H4_ADDED: &[u8] = &[5, 1, 0, 5, 0, 0, 2, 0, 2, 3, 0, 4, 2, 4, 3, 4, 0, 0, 2, 1];
const H5: &[u8] = &[4, 1, 2, 4, 3, 0, 2, 0, 3, 0, 3, 1, 5, 2, 1, 0, 6, 3, 1, 0];
const H6: &[u8] = &[3, 1, 0, 3, 0, 0, 2, 0, 2, 1, 4, 2, 1, 0];

/// Both H4 boards with the winding of relay 1 instead of the wire 4-2, so that
/// the winding of relay 0 is no longer shunted.
const H4_WOUND: &[u8] = &[5, 2, 0, 4, 0, 0, 2, 0, 2, 3, 4, 4, 2, 1, 4, 3, 4, 0];
const H4_WOUND_ADDED: &[u8] = &[
    5, 2, 0, 5, 0, 0, 2, 0, 2, 3, 4, 4, 2, 1, 4, 3, 4, 0, 0, 2, 1,
];

/// The circuit c0 of document 000, section 6.1 (figure 3). Its connectors are,
/// from terminal 2 up: B.11 B.12 R1.01 R1.02 R1.11 R1.12 R1.21 R1.22 R2.01
/// R2.02. Parts 0 to 4 are R1, R2, C1, C2 and B; then come the wires W1 to W8.
const FIGURE: &[u8] = &[
    12, 2, 1, 13, 4, 4, 5, 0, 4, 10, 11, 1, 1, 6, 7, 0, 1, 8, 9, 0, 3, 2, 3, 0, 0, 0, 2, 0, 0, 8,
    0, 2, 6, 0, 3, 4, 0, 3, 7, 0, 9, 10, 0, 5, 1, 0, 11, 1,
];

fn board(bytes: &[u8]) -> Board {
    read_board(&mut Reader::open(bytes).unwrap()).unwrap()
}

/// The fresh state of a board without a mark.
fn fresh() -> State {
    State::empty()
}

/// The ends of the first and, for a steel relay, the second winding.
fn ends(board: &Board, relay: usize) -> (Ends, Option<Ends>) {
    match board.windings(relay).unwrap() {
        Windings::Regular(ends) => (ends, None),
        Windings::Steel { drawing, dropping } => (drawing, Some(dropping)),
    }
}

fn judge_first(bytes: &[u8], state: State, w: u32) -> Judgement {
    let board = board(bytes);
    judge(&board, &state, ends(&board, 0).0, w)
}

fn judge_second(bytes: &[u8], state: State, w: u32) -> Judgement {
    let board = board(bytes);
    judge(&board, &state, ends(&board, 0).1.unwrap(), w)
}

fn tell_first(bytes: &[u8], state: State) -> Told {
    let board = board(bytes);
    tell(&board, &state, ends(&board, 0).0)
}

/// The terminals that divide the first winding of relay 0.
fn dividing(bytes: &[u8], state: State) -> Vec<usize> {
    let board = board(bytes);
    let is_dividing = |&x: &usize| divides(&board, &state, ends(&board, 0).0, x);
    (0..board.terminals).filter(is_dividing).collect()
}

fn live(effort: u32, chain: &[u8]) -> Judgement {
    let mut places = [0; 64];
    places[..chain.len()].copy_from_slice(chain);
    Judgement {
        verdict: Verdict::Live,
        effort,
        length: chain.len(),
        chain: places,
    }
}

fn without_chain(verdict: Verdict, effort: u32) -> Judgement {
    Judgement {
        verdict,
        ..live(effort, &[])
    }
}

fn dead(effort: u32) -> Judgement {
    without_chain(Verdict::Dead, effort)
}

fn undecided(w: u32) -> Judgement {
    without_chain(Verdict::Undecided, w)
}

/// The judgement at every allowance follows from the one with a great one.
fn assert_turns_at_effort(bytes: &[u8], state: State, expected: Judgement) {
    let effort = expected.effort;
    for w in 0..effort {
        assert_eq!(judge_first(bytes, state, w), undecided(w));
    }
    for w in [effort, effort + 1, 2_097_151, MUCH] {
        assert_eq!(judge_first(bytes, state, w), expected);
    }
}

/// Runs with a log of `length`; the answer's parts and the log, where the
/// bytes lent held 77.
fn run_logged(bytes: &[u8], state: State, length: usize) -> (RunAnswer, Vec<u8>) {
    let mut log = vec![77; length];
    let answer = run(&board(bytes), state, &mut log);
    (answer, log)
}

fn answer(word: Word, moves: usize, state: State, relay: u8) -> RunAnswer {
    RunAnswer {
        word,
        moves,
        state,
        relay,
        before: 0,
        between: 0,
    }
}

fn buzz(before: usize, between: usize, state: State) -> RunAnswer {
    RunAnswer {
        before,
        between,
        ..answer(Word::Buzz, before + between, state, 255)
    }
}

#[test]
fn h0_is_idle() {
    let h0 = &[2, 0, 0, 0];
    let idle = answer(Word::Idle, 0, fresh(), 255);
    assert_eq!(run_logged(h0, fresh(), 2), (idle, vec![77, 77]));
    assert_eq!(run_logged(h0, fresh(), 0), (idle, vec![]));
}

#[test]
fn h1_is_dead_unpushed_and_live_pushed() {
    assert_turns_at_effort(H1, fresh(), dead(1));
    assert_turns_at_effort(H1, fresh().push(0), live(3, &[0, 2, 1]));
    assert_eq!(judge_first(H1, fresh().push(0), 2), undecided(2));
    // without plus the end 1, which is a pole, remains; without 1 the end 2
    // reaches nothing
    assert_eq!(tell_first(H1, fresh()), Told::Dead(1));
    assert_eq!(dividing(H1, fresh()), [1]);
    assert_eq!(tell_first(H1, fresh().push(0)), Told::Live);
    assert_eq!(dividing(H1, fresh().push(0)), []);
}

#[test]
fn h2_prints_exactly_these_lines() {
    assert_eq!(session(H2), "0 idle 0 0\n1 idle 1 1\n2 idle 0 1\n");
}

#[test]
fn h3_is_a_buzzer() {
    let met = buzz(0, 2, fresh());
    let log = vec![128, 0, 77, 77, 77];
    assert_eq!(run_logged(H3, fresh(), 5), (met, log));
    assert_eq!(run_logged(H3, fresh(), 2), (met, vec![128, 0]));
    let spent = answer(Word::Spent, 1, fresh().draw(0), 0);
    assert_eq!(run_logged(H3, fresh(), 1), (spent, vec![128]));
    let unmoved = answer(Word::Spent, 0, fresh(), 0);
    assert_eq!(run_logged(H3, fresh(), 0), (unmoved, vec![]));
    let from_drawn = buzz(0, 2, fresh().draw(0));
    assert_eq!(
        run_logged(H3, fresh().draw(0), 2),
        (from_drawn, vec![0, 128])
    );
}

#[test]
fn h3_as_a_session() {
    assert_eq!(session(&[H3, &[100]].concat()), "0 buzz 2 0\n");
}

#[test]
fn both_h4_boards_are_shunted() {
    for bytes in [H4, H4_ADDED] {
        assert_turns_at_effort(bytes, fresh(), dead(0));
        assert_eq!(tell_first(bytes, fresh()), Told::Shunted);
        let dropped = answer(Word::Idle, 1, fresh(), 255);
        assert_eq!(
            run_logged(bytes, fresh().draw(0), 2),
            (dropped, vec![0, 77])
        );
    }
}

#[test]
fn h4_with_a_winding_for_a_wire_is_dead_though_both_ends_are_reached() {
    assert_turns_at_effort(H4_WOUND, fresh(), dead(6));
    assert_eq!(judge_first(H4_WOUND, fresh(), 5), undecided(5));
    assert_turns_at_effort(H4_WOUND_ADDED, fresh(), dead(7));
    assert_eq!(tell_first(H4_WOUND, fresh()), Told::Dead(0));
    assert_eq!(tell_first(H4_WOUND_ADDED, fresh()), Told::Dead(2));
}

#[test]
fn terminals_divide_the_h4_boards_shunted_or_not() {
    for bytes in [H4, H4_WOUND] {
        assert_eq!(dividing(bytes, fresh()), [0, 2]);
    }
    for bytes in [H4_ADDED, H4_WOUND_ADDED] {
        assert_eq!(dividing(bytes, fresh()), [2]);
    }
}

#[test]
fn h5_with_both_pushed_is_a_conflict() {
    let both = fresh().push(0).push(1);
    assert_eq!(judge_first(H5, both, MUCH), live(3, &[0, 2, 1]));
    assert_eq!(judge_second(H5, both, MUCH), live(5, &[0, 3, 1]));
    for state in [both, both.draw(0)] {
        let h5 = board(H5);
        assert_eq!(move_relay(&h5, state, 0), (Answer::Conflict, state));
        let conflict = answer(Word::Conflict, 0, state, 0);
        assert_eq!(run_logged(H5, state, 0), (conflict, vec![]));
        assert_eq!(run_logged(H5, state, 1), (conflict, vec![77]));
    }
}

#[test]
fn h5_draws_and_keeps_its_state_without_current() {
    let h5 = board(H5);
    let pushed = fresh().push(0);
    let drawn = pushed.draw(0);
    assert_eq!(move_relay(&h5, pushed, 0), (Answer::Drew, drawn));
    assert_eq!(move_relay(&h5, drawn, 0), (Answer::Rests, drawn));
    let left = drawn.release(0);
    assert_eq!(move_relay(&h5, left, 0), (Answer::Rests, left));
    let dropping = left.push(1);
    let dropped = dropping.drop(0);
    assert_eq!(move_relay(&h5, dropping, 0), (Answer::Dropped, dropped));
    assert_eq!(move_relay(&h5, dropped, 0), (Answer::Rests, dropped));
}

#[test]
fn h5_as_a_session() {
    let events = [100, 1, 0, 3, 1, 2, 0];
    let lines = "0 idle 0 0\n1 idle 1 1\n2 idle 0 1\n3 idle 1 0\n\
                 4 conflict 0 0\n5 idle 1 1\n6 idle 0 1\n";
    assert_eq!(session(&[H5, &events].concat()), lines);
}

#[test]
fn h6_is_shunted_by_a_wire() {
    assert_turns_at_effort(H6, fresh(), dead(0));
    assert_eq!(tell_first(H6, fresh()), Told::Shunted);
    assert_eq!(dividing(H6, fresh()), []);
    let idle = answer(Word::Idle, 0, fresh(), 255);
    assert_eq!(run_logged(H6, fresh(), 1), (idle, vec![77]));
    let dropped = (Answer::Dropped, fresh());
    assert_eq!(move_relay(&board(H6), fresh().draw(0), 0), dropped);
}

#[test]
fn terminals_are_left_again_on_the_way_back_and_windings_crossed_both_ways() {
    // wires 0-2 and 2-1, winding 0-3 of relay 1, winding 2-3 or 3-2; chains 0,
    // 02, 021, 023, 03, 032 and 0321, where 2 and 3 were met before the last two
    for (a, b) in [(2, 3), (3, 2)] {
        let bytes = [4, 2, 0, 4, 0, 0, 2, 4, 0, 3, 1, 0, 2, 1, 4, a, b, 0];
        assert_turns_at_effort(&bytes, fresh(), live(7, &[0, 3, 2, 1]));
    }
}

#[test]
fn a_winding_from_plus_to_minus() {
    for (a, b) in [(0, 1), (1, 0)] {
        let bytes = [2, 1, 0, 1, 4, a, b, 0];
        assert_turns_at_effort(&bytes, fresh(), live(2, &[0, 1]));
        assert_eq!(tell_first(&bytes, fresh()), Told::Live);
        assert_eq!(dividing(&bytes, fresh()), []);
    }
}

#[test]
fn a_full_log_does_not_hide_that_a_run_is_idle() {
    let h2 = &H2[..16];
    let drawn = fresh().push(0).draw(0);
    let idle = answer(Word::Idle, 1, drawn, 255);
    assert_eq!(run_logged(h2, fresh().push(0), 1), (idle, vec![128]));
    let already = answer(Word::Idle, 0, drawn, 255);
    assert_eq!(run_logged(h2, drawn, 0), (already, vec![]));
}

#[test]
fn a_run_looks_again_from_the_first_relay() {
    // relay 1 on 0-1 draws at once; relay 0 on 2-1 follows over the upper
    // contact of 1 on 0-2; relay 2 on 3-1 over the upper contact of 0 on 0-3
    // and a later relay never comes before an earlier one
    let bytes = [
        4, 3, 0, 5, 1, 0, 2, 1, 1, 0, 3, 0, 4, 2, 1, 0, 4, 0, 1, 1, 4, 3, 1, 2,
    ];
    let all = answer(Word::Idle, 3, fresh().draw(0).draw(1).draw(2), 255);
    let log = vec![129, 128, 130, 77];
    assert_eq!(run_logged(&bytes, fresh(), 4), (all, log));
    let two = answer(Word::Spent, 2, fresh().draw(0).draw(1), 2);
    assert_eq!(run_logged(&bytes, fresh(), 2), (two, vec![129, 128]));
}

#[test]
fn a_session_goes_on_after_buzz() {
    // H3 with one button that has no part: two moves leave the relay as it was,
    // and so the next events do the same, as what came before is another run
    let bytes = [3, 1, 1, 2, 2, 0, 2, 0, 4, 2, 1, 0, 100, 1, 1, 0];
    let lines = "0 buzz 2 0\n1 buzz 2 0\n2 refused 12\n3 buzz 2 0\n";
    assert_eq!(session(&bytes), lines);
}

#[test]
fn h5_with_both_pushed_is_in_conflict_at_every_w() {
    let lines = "0 idle 0 0\n1 idle 1 1\n2 conflict 0 1\n";
    for w in [&[0][..], &[4], &[5], &[0xff, 0xff, 0xff, 0xff, 0x0f]] {
        assert_eq!(session(&[H5, w, &[1, 3]].concat()), lines);
    }
}

#[test]
fn the_figure_of_document_000_moves_as_it_says() {
    let lines = "0 idle 0 0\n1 idle 2 3\n2 idle 0 3\n";
    assert_eq!(session(&[FIGURE, &[100, 1, 0]].concat()), lines);
    let idle = answer(Word::Idle, 2, fresh().push(0).draw(0).draw(1), 255);
    let run = run_logged(FIGURE, fresh().push(0), 3);
    assert_eq!(run, (idle, vec![128, 129, 77]));
}

/// Document 000 says of every part whether it carries current. Request A4 speaks
/// of windings alone, so wires are judged here by the chains.
#[test]
fn the_live_wires_of_document_000() {
    let figure = board(FIGURE);
    let live_wires = |state: State| -> Vec<usize> {
        let wires = figure.parts.iter().filter(|part| part.kind == Kind::Wire);
        let verdict = |ends| judge_by_chains(&figure, &state, ends, MUCH).verdict;
        let is_live = |ends| verdict(ends) == Verdict::Live;
        let numbered = wires.enumerate().map(|(place, part)| (place + 1, part));
        let carrying = numbered.filter(|(_, part)| is_live(part.ends));
        carrying.map(|(number, _)| number).collect()
    };
    let c1 = fresh().push(0);
    assert_eq!(live_wires(fresh()), vec![]);
    assert_eq!(live_wires(c1), vec![1, 4, 7]);
    assert_eq!(live_wires(c1.draw(0)), (1..=8).collect::<Vec<_>>());
    assert_eq!(live_wires(c1.draw(0).draw(1)), (1..=8).collect::<Vec<_>>());
}

#[test]
fn a_chain_may_cross_both_windings_of_a_steel_relay() {
    // drawing winding 0-2, dropping winding 2-1
    let bytes = [3, 1, 0, 2, 5, 0, 2, 0, 6, 2, 1, 0];
    assert_eq!(judge_first(&bytes, fresh(), 3), live(3, &[0, 2, 1]));
    assert_eq!(judge_second(&bytes, fresh(), 3), live(3, &[0, 2, 1]));
    assert_eq!(session(&[&bytes[..], &[3]].concat()), "0 conflict 0 0\n");
}

#[test]
fn the_greatest_w_of_a_file_is_accepted() {
    for w in [&[0xff, 0xff, 0x7f][..], &[0xff, 0xff, 0xff, 0xff, 0x0f]] {
        assert_eq!(session(&[&[2, 0, 0, 0], w].concat()), "0 idle 0 0\n");
        let lines = "0 idle 0 0\n1 idle 1 1\n2 idle 1 0\n";
        assert_eq!(session(&[H1, w, &[1, 0]].concat()), lines);
    }
}

#[test]
fn refusals_of_a_bad_board_in_a_session() {
    let after_w = |bytes: &[u8]| session(&[bytes, &[100, 1]].concat());
    assert_eq!(session(&[]), "refused 1 0\n");
    assert_eq!(session(&[0x80, 0x00]), "refused 2 0\n");
    assert_eq!(session(&[0x80, 0x80]), "refused 1 2\n");
    assert_eq!(session(&[0x80, 0x80, 0x80]), "refused 1 3\n");
    assert_eq!(session(&[0x80; 5]), "refused 2 0\n");
    assert_eq!(after_w(&[1, 0, 0, 0]), "refused 3 0\n");
    assert_eq!(after_w(&[65, 0, 0, 0]), "refused 3 0\n");
    assert_eq!(after_w(&[3, 0, 0, 1, 8, 0, 1]), "refused 4 4\n");
    assert_eq!(after_w(&[3, 0, 0, 1, 0, 0, 3]), "refused 5 6\n");
    assert_eq!(after_w(&[3, 0, 0, 1, 0, 2, 2]), "refused 6 6\n");
    assert_eq!(after_w(&[3, 1, 0, 1, 4, 0, 1, 1]), "refused 7 7\n");
    let twice = [3, 1, 0, 2, 4, 0, 1, 0, 4, 0, 1, 0];
    assert_eq!(after_w(&twice), "refused 8 11\n");
    assert_eq!(after_w(&[3, 1, 0, 1, 0, 0, 1]), "refused 9 7\n");
    assert_eq!(after_w(&[3, 1, 0, 2, 7, 0, 7, 0]), "refused 17 7\n");
}

#[test]
fn only_the_form_of_w_is_refused() {
    assert_eq!(session(H1), "refused 1 12\n");
    assert_eq!(session(&[H1, &[0x80]].concat()), "refused 1 13\n");
    assert_eq!(session(&[H1, &[0x80, 0x00, 1]].concat()), "refused 2 12\n");
    assert_eq!(session(&[2, 1, 0, 0, 0x80, 0x00]), "refused 9 4\n");
}

#[test]
fn a_bad_event_ends_the_session_and_earlier_lines_stand() {
    let with_events = |events: &[u8]| session(&[H1, &[100, 1], events].concat());
    let lines = "0 idle 0 0\n1 idle 1 1\n";
    assert_eq!(with_events(&[]), lines);
    let refusals = [
        (&[0x80][..], "refused 1 15\n"),
        (&[0x80, 0x80], "refused 1 16\n"),
        (&[0x81, 0x00, 0], "refused 2 14\n"),
        (&[0x80, 0x80, 0x80], "refused 1 17\n"),
        (&[0x80, 0x80, 0x80, 0x80, 0x80], "refused 2 14\n"),
        (&[2, 0], "refused 7 14\n"),
        (&[3, 0], "refused 7 14\n"),
        (&[0xff, 0xff, 0x7f], "refused 7 14\n"),
        (&[0xff, 0xff, 0xff, 0xff, 0x0f], "refused 7 14\n"),
    ];
    for (events, refused) in refusals {
        assert_eq!(with_events(events), format!("{lines}{refused}"));
    }
}

#[test]
fn an_event_refused_by_12_is_counted_and_the_session_goes_on() {
    let lines = "0 idle 0 0\n1 refused 12\n2 idle 1 1\n3 refused 12\n\
                 4 idle 1 0\n5 refused 12\nrefused 7 18\n";
    assert_eq!(session(&[H1, &[100, 0, 1, 1, 0, 0, 2]].concat()), lines);
}

#[test]
fn ten_counts_the_whole_session_and_comes_first() {
    let mut bytes = vec![2, 0, 1, 0, 1];
    bytes.resize(65_536, 0);
    let lines = session(&bytes);
    assert!(lines.starts_with("0 idle 0 0\n1 refused 12\n"));
    assert!(lines.ends_with("\n65531 refused 12\n"));
    bytes.push(0);
    assert_eq!(session(&bytes), "refused 10 0\n");
    assert_eq!(session(&[0x80; 65_537]), "refused 10 0\n");
}

/// The bytes of a board of fewer than 127 parts with one part more, a mark of
/// this relay, before the others.
fn with_mark(bytes: &[u8], relay: u8) -> Vec<u8> {
    let (counts, parts) = bytes.split_at(4);
    let [terminals, relays, buttons, count] = counts.try_into().unwrap();
    let head = [terminals, relays, buttons, count + 1, 7, relay];
    [&head[..], parts].concat()
}

#[test]
fn a_fresh_state_has_exactly_the_marked_relays_drawn() {
    for bytes in [&[2, 0, 0, 0][..], H1, &H2[..16], H3, H4, H5, H6, FIGURE] {
        assert_eq!(State::fresh(&board(bytes)), fresh());
    }
    for bytes in [H1, H5] {
        assert_eq!(State::fresh(&board(&with_mark(bytes, 0))), fresh().draw(0));
    }
    for (relays, state) in [
        (&[0][..], fresh().draw(0)),
        (&[1], fresh().draw(1)),
        (&[1, 0], fresh().draw(0).draw(1)),
    ] {
        let marks = relays
            .iter()
            .fold(FIGURE.to_vec(), |bytes, &relay| with_mark(&bytes, relay));
        assert_eq!(State::fresh(&board(&marks)), state);
    }
}

#[test]
fn a_mark_changes_no_judgement_and_no_run() {
    for bytes in [H1, H3, H4, H4_ADDED, H4_WOUND, H5, H6, FIGURE] {
        let marked = with_mark(bytes, 0);
        for state in [
            fresh(),
            fresh().draw(0),
            fresh().push(0),
            fresh().draw(0).push(0),
        ] {
            for w in [0, 1, 2, 3, 4, 5, 6, 7, MUCH] {
                assert_eq!(judge_first(&marked, state, w), judge_first(bytes, state, w));
            }
            assert_eq!(tell_first(&marked, state), tell_first(bytes, state));
            assert_eq!(run_logged(&marked, state, 5), run_logged(bytes, state, 5));
        }
    }
}

#[test]
fn the_highest_relay_and_button() {
    // 32 regular relays on 2-1, button 31 on 0-2
    let mut bytes = vec![3, 32, 32, 33, 3, 0, 2, 31];
    bytes.extend((0..32).flat_map(|relay| [4, 2, 1, relay]));
    bytes.extend([100, 63, 62]);
    let lines = "0 idle 0 0\n1 idle 32 4294967295\n2 idle 32 0\n";
    assert_eq!(session(&bytes), lines);
}

#[test]
fn a_dense_board_stays_within_its_allowance() {
    // 22 terminals besides 0 and 1, each joined to each, and none to 1
    let pairs = (2..24).flat_map(|a| (2..a).map(move |b| [0, a, b]));
    let parts: Vec<u8> = pairs.flatten().collect();
    let count = (parts.len() / 3 + 2) as u8;
    let head = [26, 1, 0, count % 128 + 128, count / 128];
    let bytes = [&head[..], &parts, &[0, 0, 2, 4, 24, 25, 0]].concat();
    let great = 2_097_151;
    assert_eq!(judge_first(&bytes, fresh(), great), undecided(great));
    // its winding is by itself, so that each terminal divides it
    assert_eq!(tell_first(&bytes, fresh()), Told::Dead(0));
    assert_eq!(dividing(&bytes, fresh()), (0..26).collect::<Vec<_>>());
}
