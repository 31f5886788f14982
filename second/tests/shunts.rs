//! Request A4: which windings are shunted, that they are dead with effort 0 at
//! every allowance, that they still conduct for others, and what this makes of
//! moves, runs and sessions.

use second::board::{Board, Ends, State, Windings};
use second::cases::answers;
use second::file::read_board;
use second::judge::{judge, Judgement, Verdict};
use second::moves::{move_relay, Answer};
use second::number::Reader;
use second::session::session;
use second::tell::{tell, Told};

const ALLOWANCES: [u32; 7] = [0, 1, 2, 3, 100, 2_097_151, u32::MAX];

/// A board of so many terminals and relays, two buttons and these parts.
fn board(terminals: u8, relays: u8, parts: &[&[u8]]) -> Board {
    let bytes = file(terminals, relays, parts);
    read_board(&mut Reader::open(&bytes).unwrap()).unwrap()
}

/// The bytes of such a board.
fn file(terminals: u8, relays: u8, parts: &[&[u8]]) -> Vec<u8> {
    let head = [terminals, relays, 2, parts.len() as u8];
    [&head[..], &parts.concat()].concat()
}

fn none() -> State {
    State::empty()
}

/// The ends of a relay's regular or drawing winding.
fn first(board: &Board, relay: usize) -> Ends {
    match board.windings(relay).unwrap() {
        Windings::Regular(ends) | Windings::Steel { drawing: ends, .. } => ends,
    }
}

fn judgement(verdict: Verdict, effort: u32, shown: &[u8]) -> Judgement {
    let mut chain = [0; 64];
    chain[..shown.len()].copy_from_slice(shown);
    Judgement {
        verdict,
        effort,
        length: shown.len(),
        chain,
    }
}

/// Asserts that the relay's first winding is told to be shunted, and by chains
/// is dead, with effort 0 and none shown, at every allowance.
fn assert_shunted(board: &Board, state: State, relay: usize) {
    assert_eq!(tell(board, &state, first(board, relay)), Told::Shunted);
    for w in ALLOWANCES {
        let judged = judge(board, &state, first(board, relay), w);
        assert_eq!(judged, judgement(Verdict::Dead, 0, &[]));
    }
}

/// Asserts that the relay's first winding has this effort: live with the chain
/// if one is shown, else dead; and undecided below it. Without an allowance it
/// is told live or dead as well.
fn assert_not_shunted(board: &Board, state: State, relay: usize, effort: u32, shown: &[u8]) {
    let verdict = match shown {
        [] => Verdict::Dead,
        _ => Verdict::Live,
    };
    match tell(board, &state, first(board, relay)) {
        Told::Live => assert_eq!(verdict, Verdict::Live),
        Told::Dead(_) => assert_eq!(verdict, Verdict::Dead),
        Told::Shunted => panic!("shunted"),
    }
    let judged = |w| judge(board, &state, first(board, relay), w);
    for w in 0..effort {
        assert_eq!(judged(w), judgement(Verdict::Undecided, w, &[]));
    }
    for w in [effort, effort + 1, u32::MAX] {
        assert_eq!(judged(w), judgement(verdict, effort, shown));
    }
}

#[test]
fn by_one_wire_whichever_way_round() {
    for wire in [&[0, 2, 1], &[0, 1, 2]] {
        for winding in [&[4, 2, 1, 0], &[4, 1, 2, 0]] {
            let fed = board(3, 1, &[&[0, 0, 2], wire, winding]);
            assert_shunted(&fed, none(), 0);
            assert_shunted(&board(3, 1, &[winding, wire]), none(), 0);
            let alone = board(3, 1, &[&[0, 0, 2], winding]);
            assert_not_shunted(&alone, none(), 0, 3, &[0, 2, 1]);
        }
    }
    let poles = board(2, 1, &[&[4, 0, 1, 0], &[0, 1, 0]]);
    assert_shunted(&poles, none(), 0);
}

#[test]
fn by_contacts_and_buttons_in_a_row() {
    // winding 2-1; from 2 to 1 over an upper contact of relay 1, a lower one of
    // relay 2, button 0 and a wire; relays 1 and 2 are wound elsewhere
    let row: &[&[u8]] = &[&[1, 2, 3, 1], &[2, 4, 3, 2], &[3, 4, 5, 0], &[0, 1, 5]];
    let wound: &[&[u8]] = &[&[0, 0, 2], &[4, 2, 1, 0], &[4, 6, 7, 1], &[4, 6, 7, 2]];
    for parts in [[row, wound].concat(), [wound, row].concat()] {
        let board = board(8, 3, &parts);
        let drawn = [
            none(),
            none().draw(1),
            none().draw(2),
            none().draw(1).draw(2),
        ];
        for (place, state) in drawn.into_iter().enumerate() {
            assert_not_shunted(&board, state, 0, 3, &[0, 2, 1]);
            assert_not_shunted(&board, state.push(1), 0, 3, &[0, 2, 1]);
            if place == 1 {
                assert_shunted(&board, state.push(0), 0);
                assert_shunted(&board, state.push(0).draw(0), 0);
            } else {
                assert_not_shunted(&board, state.push(0), 0, 3, &[0, 2, 1]);
            }
        }
    }
}

#[test]
fn over_plus() {
    // winding 2-3, fed at 2 and left by the winding 3-1; button 0 on 0-3
    let parts: &[&[u8]] = &[&[0, 0, 2], &[4, 2, 3, 0], &[4, 3, 1, 1], &[3, 0, 3, 0]];
    let board = board(4, 2, parts);
    assert_not_shunted(&board, none(), 0, 4, &[0, 2, 3, 1]);
    assert_shunted(&board, none().push(0), 0);
    assert_not_shunted(&board, none().push(0), 1, 4, &[0, 2, 3, 1]);
}

#[test]
fn over_minus() {
    // winding 2-3, fed by the winding 0-2; wire 3-1; button 0 on 2-1
    let parts: &[&[u8]] = &[&[4, 0, 2, 1], &[4, 2, 3, 0], &[0, 3, 1], &[3, 2, 1, 0]];
    let board = board(4, 2, parts);
    assert_not_shunted(&board, none(), 0, 4, &[0, 2, 3, 1]);
    assert_shunted(&board, none().push(0), 0);
    assert_not_shunted(&board, none().push(0), 1, 3, &[0, 2, 1]);
}

#[test]
fn over_both_poles_only_if_parts_link_them() {
    // wires 0-2 and 3-1, winding 2-3, button 0 on 0-1: without it the supply
    // stands between the poles, and that is no part
    let parts: &[&[u8]] = &[&[0, 0, 2], &[0, 3, 1], &[4, 2, 3, 0], &[3, 0, 1, 0]];
    let board = board(4, 1, parts);
    assert_not_shunted(&board, none(), 0, 4, &[0, 2, 3, 1]);
    assert_shunted(&board, none().push(0), 0);
}

#[test]
fn away_from_the_poles() {
    // nothing joins the ring of winding 2-3 and wires 3-4 and 4-2 to a pole
    let board = board(5, 1, &[&[4, 2, 3, 0], &[0, 3, 4], &[0, 4, 2]]);
    assert_shunted(&board, none(), 0);
}

#[test]
fn through_a_terminal_that_another_winding_hangs_on() {
    // wires 0-2, 2-4 and 4-3, winding 2-3; winding 4-1 of relay 1, whose first
    // chain crosses the shunted winding
    let parts: &[&[u8]] = &[&[0, 0, 2], &[0, 2, 4], &[0, 4, 3]];
    let wound: &[&[u8]] = &[&[4, 2, 3, 0], &[4, 4, 1, 1]];
    let board = board(5, 2, &[parts, wound].concat());
    assert_shunted(&board, none(), 0);
    assert_not_shunted(&board, none(), 1, 5, &[0, 2, 3, 4, 1]);
}

#[test]
fn not_by_a_path_that_only_a_winding_closes() {
    // wires 0-2, 3-1 and 2-4, winding 2-3; another winding on 4-3
    let parts: &[&[u8]] = &[&[0, 0, 2], &[0, 3, 1], &[0, 2, 4], &[4, 2, 3, 0]];
    let others: [&[&[u8]]; 3] = [
        &[&[4, 4, 3, 1]],
        &[&[5, 3, 4, 1], &[6, 5, 6, 1]],
        &[&[6, 4, 3, 1], &[5, 5, 6, 1]],
    ];
    for other in others {
        let parts = [parts, other].concat();
        let open = board(7, 2, &parts);
        assert_not_shunted(&open, none(), 0, 4, &[0, 2, 3, 1]);
        // with a wire beside the other winding both are shunted
        let closed = board(7, 2, &[&parts[..], &[&[0, 4, 3]]].concat());
        assert_shunted(&closed, none(), 0);
    }
    // and where relay 0 itself is steel, its own other winding closes nothing
    let own: &[&[u8]] = &[&[5, 2, 3, 0], &[6, 3, 4, 0]];
    let board = board(5, 1, &[&parts[..3], own].concat());
    assert_not_shunted(&board, none(), 0, 4, &[0, 2, 3, 1]);
}

#[test]
fn not_by_parallel_windings() {
    let parts: &[&[u8]] = &[&[0, 0, 2], &[4, 2, 1, 0], &[4, 1, 2, 1], &[4, 2, 1, 2]];
    let open = board(3, 3, parts);
    let closed = board(3, 3, &[parts, &[&[0, 2, 1]]].concat());
    for relay in 0..3 {
        assert_not_shunted(&open, none(), relay, 3, &[0, 2, 1]);
        assert_shunted(&closed, none(), relay);
    }
}

#[test]
fn not_by_parts_that_do_not_conduct_nor_by_marks() {
    // beside winding 2-1: an upper contact of its own relay, a lower one of
    // relay 1, a button, and a mark
    let beside: &[&[u8]] = &[&[1, 2, 1, 0], &[2, 2, 1, 1], &[3, 2, 1, 0], &[7, 0]];
    let parts: &[&[u8]] = &[&[0, 0, 2], &[4, 2, 1, 0], &[4, 3, 4, 1]];
    let board = board(5, 2, &[beside, parts].concat());
    let open = none().draw(1);
    assert_not_shunted(&board, open, 0, 3, &[0, 2, 1]);
    for state in [open.draw(0), open.drop(1), open.push(0)] {
        assert_shunted(&board, state, 0);
    }
}

#[test]
fn a_shunted_winding_still_conducts_for_others() {
    // wires 0-2, 2-5, 5-3 and 5-1; windings 3-4 and 4-5 of relays 1 and 2. The
    // winding of relay 0 is shunted on 2-3 and beside the wire 5-3 as well, but
    // only on 2-3 does it lead a chain over 3, 4 and 5
    let parts: &[&[u8]] = &[&[0, 0, 2], &[0, 2, 5], &[0, 5, 3], &[0, 5, 1]];
    let others: &[&[u8]] = &[&[4, 3, 4, 1], &[4, 4, 5, 2]];
    let with = |winding: &[u8]| board(6, 3, &[parts, others, &[winding]].concat());
    let crossed = with(&[4, 2, 3, 0]);
    assert_shunted(&crossed, none(), 0);
    for relay in [1, 2] {
        assert_not_shunted(&crossed, none(), relay, 6, &[0, 2, 3, 4, 5, 1]);
    }
    let beside = with(&[4, 5, 3, 0]);
    assert_shunted(&beside, none(), 0);
    for relay in [1, 2] {
        assert_not_shunted(&beside, none(), relay, 8, &[]);
    }
}

#[test]
fn a_shunt_settles_a_regular_relay() {
    let board = board(3, 1, &[&[0, 0, 2], &[4, 2, 1, 0], &[3, 2, 1, 0]]);
    let (dropped, drawn) = (none().push(0), none().push(0).draw(0));
    let rests = (Answer::Rests, dropped);
    assert_eq!(move_relay(&board, dropped, 0), rests);
    let drops = (Answer::Dropped, dropped);
    assert_eq!(move_relay(&board, drawn, 0), drops);
}

#[test]
fn a_steel_relay_is_moved_by_the_winding_that_is_not_shunted() {
    // drawing winding 2-1 and dropping winding 3-1, each fed by the winding of
    // another relay and with a button beside it
    let feeds: &[&[u8]] = &[&[4, 0, 2, 1], &[4, 0, 3, 2], &[3, 2, 1, 0], &[3, 3, 1, 1]];
    let steel: &[&[u8]] = &[&[5, 2, 1, 0], &[6, 3, 1, 0]];
    let board = board(4, 3, &[feeds, steel].concat());
    let assert_moves = |state: State, answers| {
        let moved = |state| move_relay(&board, state, 0).0;
        assert_eq!((moved(state), moved(state.draw(0))), answers);
    };
    assert_moves(none(), (Answer::Conflict, Answer::Conflict));
    let shunted_drawing = none().push(0);
    assert_moves(shunted_drawing, (Answer::Rests, Answer::Dropped));
    let shunted_dropping = none().push(1);
    assert_moves(shunted_dropping, (Answer::Drew, Answer::Rests));
    let both = none().push(0).push(1);
    assert_moves(both, (Answer::Rests, Answer::Rests));
}

/// The lines of a session over such a board, with W 0 and these events.
fn lines(terminals: u8, relays: u8, parts: &[&[u8]], events: &[u8]) -> String {
    session(&[&file(terminals, relays, parts)[..], &[0], events].concat())
}

#[test]
fn a_session_in_which_a_button_shunts() {
    let parts: &[&[u8]] = &[&[0, 0, 2], &[4, 2, 1, 0], &[3, 2, 1, 0]];
    let moved = "0 idle 1 1\n1 idle 1 0\n2 idle 1 1\n";
    assert_eq!(lines(3, 1, parts, &[1, 0]), moved);
}

#[test]
fn sessions_of_h6() {
    // as it is, and with a mark; then with a relay more, which nothing shunts
    let h6: &[&[u8]] = &[&[0, 0, 2], &[0, 2, 1], &[4, 2, 1, 0]];
    assert_eq!(
        lines(3, 1, h6, &[1, 0]),
        "0 idle 0 0\n1 idle 0 0\n2 idle 0 0\n"
    );
    let marked = [h6, &[&[7, 0]]].concat();
    assert_eq!(lines(3, 1, &marked, &[]), "0 idle 1 0\n");
    let more = [&marked[..], &[&[4, 3, 1, 1]]].concat();
    assert_eq!(lines(4, 2, &more, &[]), "0 idle 1 0\n");
}

#[test]
fn a_relay_that_shunts_itself_never_rests() {
    // its upper contact beside its winding; by button 0 it is shunted for good
    let parts: &[&[u8]] = &[&[0, 0, 2], &[4, 2, 1, 0], &[1, 2, 1, 0], &[3, 1, 2, 0]];
    let buzzes = "0 buzz 2 0\n1 idle 0 0\n2 buzz 2 0\n";
    assert_eq!(lines(3, 1, parts, &[1, 0]), buzzes);
}

#[test]
fn typed_judgements_and_their_refusals_which_come_first() {
    let h6 = "03 01 00 03  00 00 02  00 02 01  04 02 01 00";
    let judged = |asked: &str| answers(&format!("{h6} {asked} @")).unwrap();
    for w in ["00", "02", "03", "ffffffff0f"] {
        assert_eq!(judged(&format!("00 00 00 00 {w}")), "judged dead 0\n");
        assert_eq!(judged(&format!("01 00 00 00 {w}")), "judged dead 0\n");
        assert_eq!(judged(&format!("02 00 00 00 {w}")), "judged refused 14\n");
        assert_eq!(judged(&format!("00 01 00 00 {w}")), "judged refused 14\n");
        assert_eq!(judged(&format!("00 00 01 00 {w}")), "judged refused 11\n");
        assert_eq!(judged(&format!("00 00 00 01 {w}")), "judged refused 11\n");
    }
    // the dropping winding on 0-2 is shunted by a wire, the drawing one is not
    let steel = "03 01 00 03  00 00 02  05 02 01 00  06 00 02 00";
    let judged = |asked: &str| answers(&format!("{steel} 00 00 00 {asked} @")).unwrap();
    assert_eq!(judged("00 00"), "judged undecided 0\n");
    assert_eq!(judged("00 03"), "judged live 3 3: 0 2 1\n");
    assert_eq!(judged("01 00"), "judged dead 0\n");
    assert_eq!(judged("01 03"), "judged dead 0\n");
}

#[test]
fn typed_moves_and_runs_of_h6() {
    // its relay is drawn; the last board has T 2, which is 15
    let handed = "01 00 03 00  00 00 00 00 00  00 00 02 00  00 02 01 00  04 02 01 00";
    let drawn = "000001 000000 000000";
    let told = |text: String| answers(&text).unwrap();
    assert_eq!(
        told(format!("{drawn} 03 {handed} ^")),
        "moved dropped 0 0\n"
    );
    assert_eq!(
        told(format!("{drawn} 03 {handed} =")),
        "ran spent 0 1 0 0 0 0:\n"
    );
    assert_eq!(
        told(format!("{drawn} 02 {handed} ^")),
        "moved refused 15 1 0\n"
    );
}
