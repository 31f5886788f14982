//! Ladder boards, for which request A1 was made: they have more chains than a
//! number of three bytes can say. A winding that such a ladder shunts is dead
//! all the same with no allowance, by request A4. By request A6 a session lists
//! no chains.
//!
//! A ladder has two rails and a rung in each column, all of wire; plus feeds
//! one end of the first rung, and nothing else joins the ladder. Let c(n, k) be
//! the ways, each ended where one likes, from a fresh rung on when the rung and
//! those to come are n, and a tail of k terminals hangs on its far end. One may
//! stay; or cross, and then stay, or go into the tail (k ways), or to the next
//! rung, where no tail hangs; or go along to the next rung, whose tail is longer
//! by 1. So c(n, k) = 2 + k + c(n - 1, 0) + c(n - 1, k + 1), with c(0, k) = 0,
//! and this gives c(n, 0) = 3 x 2^n - n - 3.

use second::board::{Board, Ends, State, Windings};
use second::file::read_board;
use second::judge::{judge, Verdict};
use second::number::Reader;
use second::session::session;
use second::tell::{tell, Told};

/// A session cannot say more than this before request A1.
const THREE_BYTES: u32 = 2_097_151;

const DEAD: &str = "0 idle 0 0\n";
const LIVE: &str = "0 idle 1 1\n";

/// The first part of a ladder, which feeds it: a wire, or the winding itself.
const WIRE_FEED: &[u8] = &[0, 0, 2];
const WINDING_FEED: &[u8] = &[4, 0, 2, 0];

/// The ways into a ladder of so many columns, from the end that is fed.
fn ways(columns: u32) -> u32 {
    3 * (1 << columns) - columns - 3
}

/// The same by the recurrence.
fn ways_one_by_one(columns: u32, tail: u32) -> u32 {
    if columns == 0 {
        return 0;
    }
    let next = columns - 1;
    2 + tail + ways_one_by_one(next, 0) + ways_one_by_one(next, tail + 1)
}

/// The shortest form of a number.
fn shortest(value: u32) -> Vec<u8> {
    let low = (value % 128) as u8;
    if value < 128 {
        return vec![low];
    }
    [vec![low + 128], shortest(value / 128)].concat()
}

/// A board of one relay with a ladder on terminals 2 and up, the part that
/// feeds it, and more parts; these may use the first terminal beyond the ladder.
fn with_ladder(columns: u8, feed: &[u8], more: impl Fn(u8) -> Vec<Vec<u8>>) -> Vec<u8> {
    let beyond = 2 + 2 * columns;
    let mut parts = vec![feed.to_vec()];
    for upper in (2..beyond).step_by(2) {
        parts.push(vec![0, upper, upper + 1]);
        if upper + 2 < beyond {
            parts.push(vec![0, upper, upper + 2]);
            parts.push(vec![0, upper + 1, upper + 3]);
        }
    }
    parts.extend(more(beyond));
    let count = shortest(parts.len() as u32);
    [vec![beyond + 1, 1, 0], count, parts.concat()].concat()
}

/// The winding is on the minus side of a terminal that nothing feeds: it is
/// dead, and its effort is the number of all chains.
fn dead_ladder(columns: u8) -> (Vec<u8>, u32) {
    let board = with_ladder(columns, WIRE_FEED, |beyond| vec![vec![4, beyond, 1, 0]]);
    (board, 1 + ways(columns.into()))
}

/// The winding is beside the ladder, from plus to the last terminal, and a wire
/// goes from there to minus: two more chains, and the last shows it live.
fn live_ladder(columns: u8) -> (Vec<u8>, u32) {
    let board = with_ladder(columns, WIRE_FEED, |beyond| {
        vec![vec![4, beyond, 0, 0], vec![0, beyond, 1]]
    });
    (board, 1 + ways(columns.into()) + 2)
}

/// All the 64 terminals but the poles are in a ladder of 31 columns, so that
/// there is none beyond it. Without more parts it has 6,442,450,911 chains.
fn whole_ladder(feed: &[u8], more: &[Vec<u8>]) -> Vec<u8> {
    let mut board = with_ladder(31, feed, |_| more.to_vec());
    board[0] -= 1;
    assert_eq!(board[0], 64);
    board
}

/// The lines of a session with this board and W 0, without events.
fn lines(board: &[u8]) -> String {
    session(&[board, &[0]].concat())
}

/// A board and the ends of its winding.
fn read(board: &[u8]) -> (Board, Ends) {
    let board = read_board(&mut Reader::open(board).unwrap()).unwrap();
    let Some(Windings::Regular(ends)) = board.windings(0) else {
        panic!("no regular winding");
    };
    (board, ends)
}

/// The verdict on the winding by its chains, and the effort.
fn judged(board: &[u8], w: u32) -> (Verdict, u32) {
    let (board, ends) = read(board);
    let judgement = judge(&board, &State::fresh(&board), ends, w);
    (judgement.verdict, judgement.effort)
}

/// What is told of the winding without a look at its chains.
fn told(board: &[u8]) -> Told {
    let (board, ends) = read(board);
    tell(&board, &State::fresh(&board), ends)
}

/// Asserts that the verdict by chains turns at this effort, and that a session
/// has these lines.
fn assert_turns(board: &[u8], effort: u32, verdict: Verdict, expected: &str) {
    let below = effort - 1;
    assert_eq!(judged(board, below), (Verdict::Undecided, below));
    assert_eq!(judged(board, effort), (verdict, effort));
    assert_eq!(lines(board), expected);
}

#[test]
fn the_number_of_ways_is_that_of_the_recurrence() {
    for columns in 0..20 {
        assert_eq!(ways(columns), ways_one_by_one(columns, 0));
    }
}

#[test]
fn small_ladders_turn_at_their_effort() {
    for columns in 1..10 {
        let (dead, effort) = dead_ladder(columns);
        assert_turns(&dead, effort, Verdict::Dead, DEAD);
        let (live, effort) = live_ladder(columns);
        assert_turns(&live, effort, Verdict::Live, LIVE);
    }
}

#[test]
fn a_dead_ladder_needs_more_than_three_bytes() {
    let (board, effort) = dead_ladder(20);
    assert_eq!(effort, 3_145_706);
    assert_turns(&board, effort, Verdict::Dead, DEAD);
    let undecided = (Verdict::Undecided, THREE_BYTES);
    assert_eq!(judged(&board, THREE_BYTES), undecided);
    assert_eq!(judged(&board, u32::MAX), (Verdict::Dead, effort));
}

#[test]
fn a_live_ladder_needs_more_than_three_bytes() {
    let (board, effort) = live_ladder(20);
    assert_eq!(effort, 3_145_708);
    assert_turns(&board, effort, Verdict::Live, LIVE);
    let undecided = (Verdict::Undecided, THREE_BYTES);
    assert_eq!(judged(&board, THREE_BYTES), undecided);
    assert_eq!(judged(&board, u32::MAX), (Verdict::Live, effort));
}

#[test]
fn a_winding_shunted_by_a_ladder_is_dead_however_many_chains_there_are() {
    // the winding is beside the last rung, then between the first rung and the
    // last, and then between plus and the last rung
    for (a, b) in [(62, 63), (2, 63), (62, 3), (63, 0)] {
        let board = whole_ladder(WIRE_FEED, &[vec![4, a, b, 0]]);
        assert_eq!(told(&board), Told::Shunted);
        assert_eq!(lines(&board), DEAD);
        for w in [0, 1, THREE_BYTES, u32::MAX] {
            assert_eq!(judged(&board, w), (Verdict::Dead, 0));
        }
    }
    // the winding that feeds the ladder is not shunted by it
    let board = whole_ladder(WINDING_FEED, &[]);
    assert_eq!(lines(&board), DEAD);
    for w in [0, 1, 10_000] {
        assert_eq!(judged(&board, w), (Verdict::Undecided, w));
    }
}

#[test]
fn a_small_ladder_fed_by_the_winding_turns_at_its_effort() {
    for columns in 1..10 {
        let board = with_ladder(columns, WINDING_FEED, |_| vec![]);
        let effort = 1 + ways(columns.into());
        assert_turns(&board, effort, Verdict::Dead, DEAD);
    }
}

#[test]
fn windings_of_a_ladder_of_64_terminals() {
    // fed by the winding, and then with a wire from its last rung to minus
    assert_eq!(told(&whole_ladder(WINDING_FEED, &[])), Told::Dead(0));
    let board = whole_ladder(WINDING_FEED, &[vec![0, 63, 1]]);
    assert_eq!(told(&board), Told::Live);
    // the winding goes from the last rung to minus; fed at 2, and then not fed
    let leaving = [vec![4, 63, 1, 0]];
    assert_eq!(told(&whole_ladder(WIRE_FEED, &leaving)), Told::Live);
    assert_eq!(told(&whole_ladder(&[0, 4, 2], &leaving)), Told::Dead(1));
    for (board, line) in [(dead_ladder(30).0, DEAD), (live_ladder(30).0, LIVE)] {
        assert_eq!(lines(&board), line);
    }
}

#[test]
#[ignore = "takes some minutes"]
fn a_dead_ladder_needs_all_32_bits() {
    let (board, effort) = dead_ladder(30);
    assert_eq!(effort, 3_221_225_440);
    assert_turns(&board, effort, Verdict::Dead, DEAD);
}

#[test]
#[ignore = "takes some minutes"]
fn a_ladder_of_64_terminals_has_too_many_chains_for_any_allowance() {
    // the ladder is fed by the winding, which nothing shunts
    let board = whole_ladder(WINDING_FEED, &[]);
    assert_eq!(judged(&board, u32::MAX), (Verdict::Undecided, u32::MAX));
}
