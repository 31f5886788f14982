//! Request A6: the judge that lists no chains, against the chains and against
//! the request's own words, and the check of a terminal; on every board of few
//! terminals, on random ones, and on large ones.

use second::board::{Board, Ends, Kind, Part, State, MINUS, PLUS};
use second::judge::{judge, Verdict};
use second::moves::{move_relay, Answer};
use second::shunts::is_shunted;
use second::tell::{divides, tell, Told};

/// The winding that is judged belongs to relay 0, other windings to relay 1.
const JUDGED: Kind = Kind::RegularWinding(0);
const OTHER: Kind = Kind::RegularWinding(1);

fn part(kind: Kind, ends: Ends) -> Part {
    Part { ends, kind }
}

fn board(terminals: usize, parts: Vec<Part>) -> Board {
    Board {
        terminals,
        relays: 2,
        buttons: 1,
        parts,
    }
}

/// Dice that fall the same each time, for numbers below `sides`.
fn dice(seed: u32) -> impl FnMut(usize) -> usize {
    let mut dice = seed;
    move |sides| {
        dice = dice.wrapping_mul(1_664_525).wrapping_add(1_013_904_223);
        (dice >> 16) as usize % sides
    }
}

/// Each pair of terminals, the lower one second.
fn pairs(terminals: usize) -> Vec<Ends> {
    (0..terminals)
        .flat_map(|a| (0..a).map(move |b| (a, b)))
        .collect()
}

/// The request's words: with x taken out, no remaining end reaches a remaining
/// pole.
fn divides_by_definition(board: &Board, state: &State, (a, b): Ends, x: usize) -> bool {
    let mut reached: Vec<usize> = [a, b].into_iter().filter(|&end| end != x).collect();
    let mut left = 0;
    while let Some(&at) = reached.get(left) {
        left += 1;
        for part in board.parts.iter().filter(|part| part.conducts(state)) {
            for (from, to) in [part.ends, (part.ends.1, part.ends.0)] {
                if from == at && to != x && !reached.contains(&to) {
                    reached.push(to);
                }
            }
        }
    }
    !reached.contains(&PLUS) && !reached.contains(&MINUS)
}

/// Asserts that the winding is told, and each terminal checked, as the request
/// says, with its ends in either order; and hands back what is told.
fn assert_as_defined(board: &Board, state: &State, (a, b): Ends) -> Told {
    let by_definition = |&x: &usize| divides_by_definition(board, state, (a, b), x);
    let dividing: Vec<usize> = (0..board.terminals).filter(by_definition).collect();
    let told = match dividing.first() {
        _ if is_shunted(board, state, (a, b)) => Told::Shunted,
        None => Told::Live,
        Some(&lowest) => Told::Dead(lowest),
    };
    for ends in [(a, b), (b, a)] {
        assert_eq!(tell(board, state, ends), told);
        let is_accepted = |&x: &usize| divides(board, state, ends, x);
        let accepted: Vec<usize> = (0..board.terminals).filter(is_accepted).collect();
        assert_eq!(accepted, dividing);
    }
    told
}

/// Asserts that the chains, however many, show the winding live or dead as it
/// is told.
fn assert_as_by_chains(board: &Board, state: &State, ends: Ends, told: Told) {
    let verdict = match told {
        Told::Live => Verdict::Live,
        Told::Shunted | Told::Dead(_) => Verdict::Dead,
    };
    assert_eq!(judge(board, state, ends, u32::MAX).verdict, verdict);
}

/// Asserts both of every winding on every board of so many terminals: a winding
/// that is judged, and between each two terminals nothing or one part of one of
/// these kinds. Hands back how often it was live, shunted and dead.
fn assert_every_board(terminals: usize, kinds: &[Kind]) -> [usize; 3] {
    let (pairs, choices) = (pairs(terminals), kinds.len() + 1);
    let mut counts = [0; 3];
    for number in 0..choices.pow(pairs.len() as u32) {
        let mut parts = Vec::new();
        let mut rest = number;
        for &ends in &pairs {
            parts.extend(kinds.get(rest % choices).map(|&kind| part(kind, ends)));
            rest /= choices;
        }
        for &ends in &pairs {
            let judged = [&parts[..], &[part(JUDGED, ends)]].concat();
            let board = board(terminals, judged);
            let told = assert_as_defined(&board, &State::empty(), ends);
            assert_as_by_chains(&board, &State::empty(), ends, told);
            counts[place(told)] += 1;
        }
    }
    counts
}

fn place(told: Told) -> usize {
    match told {
        Told::Live => 0,
        Told::Shunted => 1,
        Told::Dead(_) => 2,
    }
}

#[test]
fn every_board_of_few_terminals() {
    assert_eq!(assert_every_board(2, &[Kind::Wire, OTHER]), [2, 1, 0]);
    for terminals in [3, 4] {
        let counts = assert_every_board(terminals, &[Kind::Wire, OTHER]);
        assert!(counts.iter().all(|&count| count > 10));
    }
    // of five terminals: other windings, which shunt nothing, and then wires
    let [live, shunted, dead] = assert_every_board(5, &[OTHER]);
    assert!(live > 1_000 && shunted == 0 && dead > 1_000);
    let counts = assert_every_board(5, &[Kind::Wire]);
    assert!(counts.iter().all(|&count| count > 100));
}

/// A board with up to so many parts of all kinds besides the judged winding.
fn any_board(terminals: usize, most: usize, roll: &mut impl FnMut(usize) -> usize) -> Board {
    let kinds = [
        Kind::Wire,
        Kind::UpperContact(0),
        Kind::LowerContact(0),
        Kind::Button(0),
        OTHER,
        OTHER,
        OTHER,
        Kind::Mark(0),
    ];
    let mut ends = || {
        let a = roll(terminals);
        (a, (a + 1 + roll(terminals - 1)) % terminals)
    };
    let mut parts = vec![part(JUDGED, ends())];
    let others: Vec<Ends> = (0..most).map(|_| ends()).collect();
    let count = roll(most + 1);
    for &ends in &others[..count] {
        parts.push(part(kinds[roll(kinds.len())], ends));
    }
    board(terminals, parts)
}

#[test]
fn random_boards_in_all_states() {
    let mut roll = dice(1);
    let mut counts = [0; 3];
    let empty = State::empty();
    for _ in 0..4_000 {
        let terminals = 2 + roll(7);
        let board = any_board(terminals, 14, &mut roll);
        for state in [empty, empty.draw(0), empty.push(0), empty.draw(0).push(0)] {
            let ends = board.parts[0].ends;
            let told = assert_as_defined(&board, &state, ends);
            assert_as_by_chains(&board, &state, ends, told);
            counts[place(told)] += 1;
        }
    }
    assert!(counts.iter().all(|&count| count > 1_000));
}

#[test]
fn random_boards_of_many_terminals() {
    let mut roll = dice(2);
    let mut counts = [0; 3];
    for _ in 0..300 {
        let terminals = 20 + roll(45);
        let board = any_board(terminals, 3 * terminals, &mut roll);
        let told = assert_as_defined(&board, &State::empty().push(0), board.parts[0].ends);
        counts[place(told)] += 1;
    }
    assert!(counts.iter().all(|&count| count > 20));
}

#[test]
fn long_rows_with_shortcuts() {
    // a row of 64 terminals from plus to minus, cut at one place, and parts that
    // lead over some of them; the judged winding is beside one of the parts
    let mut roll = dice(3);
    let mut counts = [0; 3];
    for _ in 0..150 {
        let row: Vec<usize> = [0].into_iter().chain(2..64).chain([1]).collect();
        let mut parts: Vec<Part> = row
            .windows(2)
            .map(|two| part(OTHER, (two[0], two[1])))
            .collect();
        parts.swap_remove(roll(63));
        for _ in 0..roll(30) {
            let from = roll(60);
            let to = from + 2 + roll(10).min(61 - from);
            parts.push(part(OTHER, (row[from], row[to])));
        }
        let ends = parts[roll(parts.len())].ends;
        parts.push(part(JUDGED, ends));
        let board = board(64, parts);
        counts[place(assert_as_defined(&board, &State::empty(), ends))] += 1;
    }
    assert!(counts[0] > 20 && counts[1] == 0 && counts[2] > 20);
}

#[test]
fn a_winding_that_no_way_leads_from_is_divided_by_each_terminal() {
    let board = board(5, vec![part(Kind::Wire, (0, 1)), part(JUDGED, (3, 2))]);
    assert_eq!(tell(&board, &State::empty(), (3, 2)), Told::Dead(0));
    assert!((0..5).all(|x| divides(&board, &State::empty(), (3, 2), x)));
}

#[test]
fn an_end_or_a_pole_may_divide() {
    // a wire from minus to 2 alone: the way out is over 2 and 1
    let led = board(4, vec![part(Kind::Wire, (1, 2)), part(JUDGED, (2, 3))]);
    assert_eq!(tell(&led, &State::empty(), (2, 3)), Told::Dead(1));
    let dividing = [1, 2];
    for x in 0..4 {
        let expected = dividing.contains(&x);
        assert_eq!(divides(&led, &State::empty(), (2, 3), x), expected);
    }
    // with a wire from plus to 2 as well, only 2
    let mut both = led.clone();
    both.parts.push(part(Kind::Wire, (0, 2)));
    assert_eq!(tell(&both, &State::empty(), (2, 3)), Told::Dead(2));
    // and with one from plus to 3 instead, nothing
    let mut ring = led.clone();
    ring.parts.push(part(Kind::Wire, (0, 3)));
    assert_eq!(tell(&ring, &State::empty(), (2, 3)), Told::Live);
}

#[test]
fn a_winding_on_plus_with_both_poles_linked() {
    // a wire 0-1 leads from the end 0 to minus, but is no second way from 2
    let linked = [part(Kind::Wire, (0, 1)), part(JUDGED, (0, 2))];
    let linked = board(3, linked.to_vec());
    assert_eq!(tell(&linked, &State::empty(), (0, 2)), Told::Dead(0));
    assert!(divides(&linked, &State::empty(), (0, 2), 0));
    assert!(!divides(&linked, &State::empty(), (0, 2), 1));
}

#[test]
fn a_relay_on_a_ring_fed_board_is_moved_without_listing_chains() {
    // 60 terminals, each joined to the next four round a ring that plus feeds;
    // the winding hangs on it at one end, then leads to minus by button 0
    let ring = (0..60).flat_map(|at| (1..5).map(move |by| (2 + at, 2 + (at + by) % 60)));
    let mut parts: Vec<Part> = ring.map(|ends| part(Kind::Wire, ends)).collect();
    parts.push(part(Kind::Wire, (0, 2)));
    parts.push(part(JUDGED, (32, 62)));
    parts.push(part(Kind::Button(0), (62, 1)));
    let board = board(63, parts);
    let (dead, live) = (State::empty(), State::empty().push(0));
    assert_eq!(tell(&board, &dead, (32, 62)), Told::Dead(0));
    assert_eq!(move_relay(&board, dead.draw(0), 0), (Answer::Dropped, dead));
    assert_eq!(move_relay(&board, live, 0), (Answer::Drew, live.draw(0)));
    for x in 0..63 {
        let on_all = [0, 2, 32].contains(&x);
        assert_eq!(divides(&board, &dead, (32, 62), x), on_all);
        assert!(!divides(&board, &live, (32, 62), x));
    }
}
