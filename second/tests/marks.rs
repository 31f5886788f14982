//! Request A2 over whole sessions: relays that start drawn, and what a mark is
//! refused for.

use second::cases::answers;
use second::session::session;

/// Parts that the boards here are made of, but for a few.
const WIRE: &[u8] = &[0, 0, 2];
const HOLDING_CONTACT: &[u8] = &[1, 0, 2, 0];
const LOWER_CONTACT: &[u8] = &[2, 0, 2, 0];
const BUTTON: &[u8] = &[3, 0, 2, 0];
const WINDING: &[u8] = &[4, 2, 1, 0];
const MARK: &[u8] = &[7, 0];

/// The lines of a session over three terminals, one relay and one button, with
/// these parts and, after W, these events.
fn lines(parts: &[&[u8]], events: &[u8]) -> String {
    let head = [3, 1, 1, parts.len() as u8];
    session(&[&head[..], &parts.concat(), &[100], events].concat())
}

/// The lines of a session over these counts and bytes, with W and a push.
fn after_w(board: &[u8]) -> String {
    session(&[board, &[100, 1]].concat())
}

#[test]
fn a_marked_relay_starts_drawn_wherever_its_mark_stands() {
    // H2, whose relay holds itself once it is drawn
    let unmarked = [BUTTON, HOLDING_CONTACT, WINDING];
    assert_eq!(lines(&unmarked, &[]), "0 idle 0 0\n");
    for place in 0..=unmarked.len() {
        let mut parts = unmarked.to_vec();
        parts.insert(place, MARK);
        let held = "0 idle 0 1\n1 idle 0 1\n2 idle 0 1\n";
        assert_eq!(lines(&parts, &[1, 0]), held);
    }
}

#[test]
fn a_marked_relay_without_current_drops_at_the_first_run() {
    let dropped = "0 idle 1 0\n1 idle 1 1\n2 idle 1 0\n";
    assert_eq!(lines(&[MARK, BUTTON, WINDING], &[1, 0]), dropped);
    assert_eq!(lines(&[WINDING, MARK], &[]), "0 idle 1 0\n");
}

#[test]
fn a_mark_acts_at_the_start_and_never_again() {
    // button 0 on 0-3, the relay's own upper contact on 3-2: it drops at the
    // first run, and no push can draw it
    let board = [&[4, 1, 1, 4, 3, 0, 3, 0, 1, 3, 2, 0], WINDING, MARK].concat();
    let dropped = session(&[&board[..], &[100, 1, 0]].concat());
    assert_eq!(dropped, "0 idle 1 0\n1 idle 0 0\n2 idle 0 0\n");
}

#[test]
fn a_mark_of_a_steel_relay() {
    // H5: drawn at the start it rests drawn, until its dropping winding is live
    let h5: &[u8] = &[3, 0, 2, 0, 3, 0, 3, 1, 5, 2, 1, 0, 6, 3, 1, 0];
    let events: &[u8] = &[100, 3, 2, 1];
    let lines = "0 idle 0 1\n1 idle 1 0\n2 idle 0 0\n3 idle 1 1\n";
    for parts in [[h5, MARK], [MARK, h5]] {
        let bytes = [&[4, 1, 2, 5][..], &parts.concat(), events].concat();
        assert_eq!(session(&bytes), lines);
    }
}

#[test]
fn runs_that_stop_leave_the_start_they_found() {
    let h3 = [LOWER_CONTACT, WINDING, MARK];
    assert_eq!(lines(&h3, &[]), "0 buzz 2 1\n");
    // both windings of a steel relay are live
    let conflict = [3, 1, 0, 3, 5, 0, 2, 0, 6, 2, 1, 0, 7, 0, 0];
    assert_eq!(session(&conflict), "0 conflict 0 1\n");
}

#[test]
fn a_mark_joins_and_conducts_nothing() {
    // the winding's effort is 3 with the mark and without it
    for parts in [&[WIRE, WINDING][..], &[WIRE, WINDING, MARK]] {
        let board = [&[3, 1, 0, parts.len() as u8][..], &parts.concat()].concat();
        let moves = 3 - parts.len();
        let line = session(&[&board[..], &[3]].concat());
        assert_eq!(line, format!("0 idle {moves} 1\n"));
        let digits: String = board.iter().map(|byte| format!("{byte:02x}")).collect();
        let judged = |w| answers(&format!("{digits} 00 00 00 00 {w:02x} @")).unwrap();
        assert_eq!(judged(2), "judged undecided 2\n");
        assert_eq!(judged(3), "judged live 3 3: 0 2 1\n");
    }
    assert_eq!(lines(&[WINDING, MARK], &[]), "0 idle 1 0\n");
}

#[test]
fn marks_count_in_c() {
    let board = |count| [&[3, 1, 1, count][..], WINDING, MARK].concat();
    assert_eq!(after_w(&board(2)), "0 idle 1 0\n1 idle 0 0\n");
    // not counted, the bytes of the mark are W 7 and a release
    let as_w = "0 idle 0 0\n1 refused 12\nrefused 7 10\n";
    assert_eq!(after_w(&board(1)), as_w);
    assert_eq!(after_w(&board(3)), "refused 4 10\n");
}

#[test]
fn each_set_of_marked_relays() {
    // four relays, each on its own terminal, fed and held by its upper contact
    let relays = 0..4;
    let mut board: Vec<u8> = vec![6, 4, 0, 0];
    for relay in relays.clone() {
        board.extend([1, 0, 2 + relay, relay, 4, 1, 2 + relay, relay]);
    }
    for set in 0..16_u8 {
        let marked: Vec<u8> = relays
            .clone()
            .filter(|relay| set >> relay & 1 == 1)
            .collect();
        let marks = marked.iter().rev().flat_map(|&relay| [7, relay]);
        let mut bytes = board.clone();
        bytes.extend(marks);
        bytes[3] = 8 + marked.len() as u8;
        assert_eq!(
            session(&[&bytes[..], &[100]].concat()),
            format!("0 idle 0 {set}\n")
        );
    }
}

#[test]
fn all_relays_marked_on_a_board_of_256_parts() {
    // 32 relays on 0-1, 32 marks and 192 wires
    let mut bytes = vec![3, 32, 0, 0x80, 0x02];
    bytes.extend((0..32).flat_map(|relay| [7, relay, 4, 0, 1, relay]));
    bytes.extend(WIRE.repeat(192));
    let w = [100];
    let all = session(&[&bytes[..], &w].concat());
    assert_eq!(all, "0 idle 0 4294967295\n");
    bytes[4] = 0x03;
    assert_eq!(session(&[&bytes[..], &w].concat()), "refused 3 3\n");
}

#[test]
fn a_relay_marked_twice_is_refused_by_17_at_its_relay_field() {
    let one = |parts: &[&[u8]]| lines(parts, &[]);
    assert_eq!(one(&[MARK, MARK]), "refused 17 7\n");
    assert_eq!(one(&[WINDING, MARK, MARK]), "refused 17 11\n");
    assert_eq!(one(&[MARK, WINDING, MARK]), "refused 17 11\n");
    assert_eq!(one(&[MARK, WINDING, MARK, &[99]]), "refused 17 11\n");
    let two = [3, 2, 0, 4, 4, 0, 1, 0, 4, 0, 1, 1, 7, 1, 7, 0];
    assert_eq!(after_w(&two[..]), "0 idle 0 3\nrefused 7 17\n");
}

#[test]
fn refusals_of_a_mark_come_in_order() {
    let ended = |bytes: &[u8]| session(&[&[3, 1, 0, 3][..], MARK, bytes].concat());
    assert_eq!(ended(&[8, 0x80]), "refused 4 6\n");
    assert_eq!(ended(&[7]), "refused 1 7\n");
    assert_eq!(ended(&[7, 0x80]), "refused 1 8\n");
    assert_eq!(ended(&[7, 0x80, 0x00]), "refused 2 7\n");
    assert_eq!(ended(&[7, 0x80, 0x02]), "refused 7 7\n");
    assert_eq!(ended(&[7, 1]), "refused 7 7\n");
    assert_eq!(ended(&[7, 0]), "refused 17 7\n");
    assert_eq!(after_w(&[3, 0, 1, 1, 7, 0]), "refused 7 5\n");
}

#[test]
fn a_mark_is_no_winding() {
    assert_eq!(after_w(&[3, 1, 1, 1, 7, 0]), "refused 9 6\n");
    let half_steel = [3, 1, 1, 2, 7, 0, 5, 0, 2, 0];
    assert_eq!(after_w(&half_steel), "refused 9 10\n");
    // a second winding is still 8, with a mark between the two
    let twice = [3, 1, 1, 3, 4, 0, 1, 0, 7, 0, 4, 0, 1, 0];
    assert_eq!(after_w(&twice), "refused 8 13\n");
}
