//! Request A8: runs that end with buzz, as a state comes again, and runs that
//! are merely long; at every length of the log around their end, against tables
//! of what each relay does, and over whole sessions.

use second::board::{Board, State};
use second::file::read_board;
use second::number::Reader;
use second::runs::{run, RunAnswer, Word};
use second::session::session;
use std::collections::HashSet;

/// Kinds of parts. Each part here has four numbers: its kind, both ends, and
/// its relay or button.
const UPPER: u8 = 1;
const LOWER: u8 = 2;
const BUTTON: u8 = 3;
const REGULAR: u8 = 4;
const DRAWING: u8 = 5;
const DROPPING: u8 = 6;
type Part = [u8; 4];

/// The bytes that a lent log is full of, which no move is logged as.
const LENT: u8 = 77;

/// The bytes of a board with one button.
fn file(terminals: u8, relays: u8, parts: &[Part]) -> Vec<u8> {
    assert!(parts.len() < 128);
    let head = [terminals, relays, 1, parts.len() as u8];
    [&head[..], &parts.concat()].concat()
}

fn board(file: &[u8]) -> Board {
    read_board(&mut Reader::open(file).unwrap()).unwrap()
}

/// The lines of a session with this board, some W, and these events.
fn lines(file: &[u8], events: &[u8]) -> String {
    session(&[file, &[100], events].concat())
}

fn none() -> State {
    State::empty()
}

/// The state with these relays drawn, given by the sum of 2 to their numbers.
fn drawn(sum: usize) -> State {
    let relays = (0..32).filter(|relay| sum >> relay & 1 == 1);
    relays.fold(none(), State::draw)
}

/// The state that some logged moves lead to.
fn after(state: State, moves: &[u8]) -> State {
    moves.iter().fold(state, |state, &byte| match byte {
        0..=127 => state.drop(byte.into()),
        _ => state.draw((byte - 128).into()),
    })
}

/// Runs with a log of this length; the answer, and the moves in the log. Past
/// them it must be as lent, and the state the one that they lead to.
fn ran(board: &Board, state: State, length: usize) -> (RunAnswer, Vec<u8>) {
    let mut log = vec![LENT; length];
    let answer = run(board, state, &mut log);
    let rest = log.split_off(answer.moves);
    assert!(rest.iter().all(|&byte| byte == LENT));
    assert_eq!(answer.state, after(state, &log));
    (answer, log)
}

fn ended(word: Word, moves: usize, state: State, relay: u8) -> RunAnswer {
    RunAnswer {
        word,
        moves,
        state,
        relay,
        before: 0,
        between: 0,
    }
}

fn buzz(before: usize, between: usize, state: State) -> RunAnswer {
    RunAnswer {
        before,
        between,
        ..ended(Word::Buzz, before + between, state, 255)
    }
}

/// Runs with a log that is long enough, and asserts demand 3: each log that has
/// room for all the moves gives the same, word, numbers, state and moves, and
/// each shorter one is spent after so many of them.
fn assert_stands(board: &Board, state: State, enough: usize) -> (RunAnswer, Vec<u8>) {
    let (answer, moves) = ran(board, state, enough);
    assert_ne!(answer.word, Word::Spent);
    for length in 0..answer.moves {
        let made = &moves[..length];
        let spent = ended(Word::Spent, length, after(state, made), moves[length] % 128);
        assert_eq!(ran(board, state, length), (spent, made.to_vec()));
    }
    let exact = answer.moves;
    for length in [exact, exact + 1, 2 * exact, 2 * exact + 1, 65_536] {
        assert_eq!(ran(board, state, length), (answer, moves.clone()));
    }
    (answer, moves)
}

/// A board of `lead` relays that hang between the poles, and of `ring` more, each
/// fed by the upper contact of the next, and the last by the lower contact of
/// their first. A ring of one is H3.
fn led_ring(lead: u8, ring: u8) -> Vec<u8> {
    let relays = lead + ring;
    let mut parts: Vec<Part> = (0..lead).map(|relay| [REGULAR, 0, 1, relay]).collect();
    for relay in lead..relays {
        let at = 2 + relay - lead;
        parts.push(match relay + 1 {
            next if next < relays => [UPPER, 0, at, next],
            _ => [LOWER, 0, at, lead],
        });
        parts.push([REGULAR, at, 1, relay]);
    }
    file(2 + ring, relays, &parts)
}

/// The moves of such a board from the start to its meeting: the lead draws from
/// its first on, and the ring draws from its last down and drops likewise.
fn led_moves(lead: u8, ring: u8) -> Vec<u8> {
    let down = (lead..lead + ring).rev();
    let draws = (0..lead).chain(down.clone()).map(|relay| relay + 128);
    draws.chain(down).collect()
}

#[test]
fn buzzers_with_and_without_a_lead_in() {
    for (lead, ring) in (0..6).flat_map(|lead| (1..7).map(move |ring| (lead, ring))) {
        let board = board(&led_ring(lead, ring));
        let met = buzz(lead.into(), 2 * usize::from(ring), drawn((1 << lead) - 1));
        let expected = (met, led_moves(lead, ring));
        assert_eq!(assert_stands(&board, none(), 4_096), expected);
    }
}

#[test]
fn a_buzzer_of_32_relays() {
    for lead in [0, 1, 16, 31] {
        let ring = 32 - lead;
        let met = buzz(lead.into(), 2 * usize::from(ring), drawn((1 << lead) - 1));
        let expected = (met, led_moves(lead, ring));
        assert_eq!(ran(&board(&led_ring(lead, ring)), none(), 4_096), expected);
    }
}

#[test]
fn a_buzzer_begun_beside_its_ring() {
    // of the eight states of three relays, six are in the ring
    let ring = board(&led_ring(0, 3));
    for sum in [0b000, 0b100, 0b110, 0b111, 0b011, 0b001] {
        let (answer, _) = assert_stands(&ring, drawn(sum), 8);
        assert_eq!(answer, buzz(0, 6, drawn(sum)));
    }
    for (sum, met, first) in [(0b010, 0b011, 128), (0b101, 0b100, 0)] {
        let (answer, moves) = assert_stands(&ring, drawn(sum), 8);
        assert_eq!(answer, buzz(1, 6, drawn(met)));
        assert_eq!(moves[0], first);
    }
}

#[test]
fn a_steel_buzzer() {
    // its drawing winding is fed by its lower contact, the other by its upper
    let feeds = [[LOWER, 0, 2, 0], [UPPER, 0, 3, 0]];
    let steel = [[DRAWING, 2, 1, 0], [DROPPING, 3, 1, 0]];
    let file = file(4, 1, &[feeds, steel].concat());
    let both = [(none(), vec![128, 0]), (drawn(1), vec![0, 128])];
    for (state, moves) in both {
        let expected = (buzz(0, 2, state), moves);
        assert_eq!(assert_stands(&board(&file), state, 2), expected);
    }
    assert_eq!(lines(&file, &[]), "0 buzz 2 0\n");
}

#[test]
fn buttons_stay_as_they_are() {
    // H3, whose button has no part
    let h3 = board(&led_ring(0, 1));
    let (answer, _) = assert_stands(&h3, none().push(0), 2);
    assert_eq!(answer, buzz(0, 2, none().push(0)));
}

/// A binary counter: the last relay feeds itself by its lower contact, and each
/// stage has two relays, a and m, and is ruled by the a of the stage before, the
/// first by the last relay. While its ruler is drawn m becomes what a is not,
/// and while it is dropped a becomes what m is; so a takes turns half as often.
fn counter(stages: u8) -> Vec<u8> {
    let last = 2 * stages;
    let mut parts = vec![[LOWER, 0, 2, last], [REGULAR, 2, 1, last]];
    for stage in 0..stages {
        let (a, m) = (2 * stage, 2 * stage + 1);
        let ruler = if stage == 0 { last } else { a - 2 };
        let [x, y, wa, wm] = [3, 4, 5, 6].map(|terminal| terminal + 4 * stage);
        parts.extend([[UPPER, 0, x, ruler], [LOWER, 0, y, ruler]]);
        parts.extend([[LOWER, x, wm, a], [UPPER, x, wa, a]]);
        parts.extend([[UPPER, y, wm, m], [LOWER, wm, wa, ruler]]);
        parts.extend([[REGULAR, wa, 1, a], [REGULAR, wm, 1, m]]);
    }
    file(3 + 4 * stages, last + 1, &parts)
}

/// The moves of a counter until all its relays are dropped again. The last relay
/// makes 2 in each of its 2^stages turns, and the relays of stage s, from 1 up,
/// make 4 in each 2^s of them.
fn whole_count(stages: u8) -> usize {
    6 * (1 << stages) - 4
}

#[test]
fn a_counter_is_a_buzzer_of_a_long_period() {
    for stages in 0..5 {
        let board = board(&counter(stages));
        let (answer, _) = assert_stands(&board, none(), 4_096);
        assert_eq!(answer, buzz(0, whole_count(stages), none()));
    }
    // eight stages: only the logs around the end
    let (board, whole) = (board(&counter(8)), whole_count(8));
    assert_eq!(whole, 1_532);
    let (answer, moves) = ran(&board, none(), whole);
    assert_eq!(answer, buzz(0, whole, none()));
    assert_eq!(ran(&board, none(), whole + 1), (answer, moves.clone()));
    let (state, relay) = (after(none(), &moves[..whole - 1]), moves[whole - 1]);
    let spent = ended(Word::Spent, whole - 1, state, relay);
    let expected = (spent, moves[..whole - 1].to_vec());
    assert_eq!(ran(&board, none(), whole - 1), expected);
}

#[test]
fn a_counter_begun_anywhere_comes_back() {
    // stages by themselves settle at once, so few moves lead in
    let board = board(&counter(2));
    let mut leads = HashSet::new();
    for sum in 0..32 {
        let (answer, _) = assert_stands(&board, drawn(sum), 32);
        assert_eq!((answer.word, answer.between), (Word::Buzz, whole_count(2)));
        leads.insert(answer.before);
    }
    assert!(leads.contains(&0) && leads.len() > 1);
}

/// Asserts that a counter spends a log, and that no state of the run came twice.
fn assert_spends(stages: u8, length: usize) {
    assert!(whole_count(stages) > length);
    let (answer, moves) = ran(&board(&counter(stages)), none(), length);
    assert_eq!((answer.word, answer.moves), (Word::Spent, length));
    assert_eq!((answer.before, answer.between), (0, 0));
    let (mut state, mut sums) = (none(), HashSet::from([0]));
    for byte in moves {
        state = after(state, &[byte]);
        assert!(sums.insert(state.drawn_sum()));
    }
}

#[test]
fn a_counter_of_23_relays_spends_a_long_log() {
    assert_spends(11, 8_192);
}

#[test]
#[ignore = "takes some seconds"]
fn a_counter_of_29_relays_spends_the_longest_log() {
    assert_spends(14, 65_536);
}

/// For each state of the relays, by its sum, whether a winding is live.
type Table = Vec<bool>;

/// What moves a relay: one table if it is regular, and one for each winding if
/// it is steel.
enum Ruled {
    Regular(Table),
    Steel(Table, Table),
}

/// A board whose windings are live as the tables say. Each is fed from plus by a
/// tree of its own, which parts at a contact of every relay in turn.
fn tabled(relays: &[Ruled]) -> Board {
    let (mut terminals, mut parts) = (2, Vec::new());
    let count = relays.len() as u8;
    for (relay, ruled) in (0..count).zip(relays) {
        let windings = match ruled {
            Ruled::Regular(table) => vec![(REGULAR, table)],
            Ruled::Steel(drawing, dropping) => vec![(DRAWING, drawing), (DROPPING, dropping)],
        };
        for (kind, table) in windings {
            let end = terminals;
            terminals += 1;
            parts.push([kind, end, 1, relay]);
            add_tree(&mut parts, &mut terminals, count, table, end);
        }
    }
    board(&file(terminals, count, &parts))
}

/// Adds a tree of contacts to this end: after each relay there is a terminal for
/// each state of those up to it, and after the last relay the end.
fn add_tree(parts: &mut Vec<Part>, terminals: &mut u8, relays: u8, table: &[bool], end: u8) {
    let mut froms = vec![0];
    for relay in 0..relays {
        let with = |kind| froms.iter().map(move |&from| (kind, from));
        let branches: Vec<(u8, u8)> = with(LOWER).chain(with(UPPER)).collect();
        froms.clear();
        for (sum, (kind, from)) in branches.into_iter().enumerate() {
            if relay + 1 < relays {
                parts.push([kind, from, *terminals, relay]);
                froms.push(*terminals);
                *terminals += 1;
            } else if table[sum] {
                parts.push([kind, from, end, relay]);
            }
        }
    }
}

/// What the first relay that does not rest does: a move, by its byte, or a
/// conflict; none if all rest.
fn first_move(relays: &[Ruled], sum: usize) -> Option<(u8, Option<u8>)> {
    let moves = |(relay, ruled): (u8, &Ruled)| {
        let is_drawn = sum >> relay & 1 == 1;
        let goes = match ruled {
            Ruled::Regular(table) => table[sum] != is_drawn,
            Ruled::Steel(drawing, dropping) => match (drawing[sum], dropping[sum]) {
                (true, true) => return Some((relay, None)),
                (draws, drops) => (draws && !is_drawn) || (drops && is_drawn),
            },
        };
        let byte = if is_drawn { relay } else { relay + 128 };
        goes.then_some((relay, Some(byte)))
    };
    (0..).zip(relays).find_map(moves)
}

/// The run by the tables alone. Each state is compared with all before it.
fn run_by_tables(relays: &[Ruled], start: usize, room: usize) -> (RunAnswer, Vec<u8>) {
    let (mut sums, mut log) = (vec![start], Vec::new());
    loop {
        let (moves, sum) = (log.len(), sums[log.len()]);
        let met = sums[..moves].iter().position(|&earlier| earlier == sum);
        if let Some(before) = met {
            return (buzz(before, moves - before, drawn(sum)), log);
        }
        let end = |word, relay| ended(word, moves, drawn(sum), relay);
        match first_move(relays, sum) {
            None => return (end(Word::Idle, 255), log),
            Some((relay, None)) => return (end(Word::Conflict, relay), log),
            Some((relay, Some(_))) if moves == room => return (end(Word::Spent, relay), log),
            Some((relay, Some(byte))) => {
                sums.push(sum ^ 1 << relay);
                log.push(byte);
            }
        }
    }
}

/// Dice that fall the same each time, for numbers below `sides`.
fn dice(seed: u32) -> impl FnMut(usize) -> usize {
    let mut dice = seed;
    move |sides| {
        dice = dice.wrapping_mul(1_664_525).wrapping_add(1_013_904_223);
        (dice >> 16) as usize % sides
    }
}

/// Relays with random tables. In each state one relay is chosen, or in one of
/// twelve none: those below it rest, and it does not. Trees of four relays leave
/// no room on a board for steel ones.
fn any_relays(count: usize, roll: &mut impl FnMut(usize) -> usize) -> Vec<Ruled> {
    let all = 1 << count;
    let mut any = || match roll(12) {
        0 => count,
        _ => roll(count),
    };
    let chosen: Vec<usize> = (0..all).map(|_| any()).collect();
    let ruled = |relay: usize| {
        let is_steel = count < 4 && roll(3) == 0;
        let (mut drawing, mut dropping) = (vec![false; all], vec![false; all]);
        for sum in 0..all {
            let moves = relay == chosen[sum] || (relay > chosen[sum] && roll(2) == 0);
            let draws = (sum >> relay & 1 == 1) != moves;
            (drawing[sum], dropping[sum]) = match roll(4) {
                0 if is_steel => (moves, moves),
                _ => (draws, !draws),
            };
        }
        match is_steel {
            true => Ruled::Steel(drawing, dropping),
            false => Ruled::Regular(drawing),
        }
    };
    (0..count).map(ruled).collect()
}

#[test]
fn runs_are_those_of_the_tables() {
    let mut roll = dice(8);
    let (mut words, mut shapes) = ([0; 4], HashSet::new());
    for _ in 0..1_000 {
        let count = 1 + roll(4);
        let relays = any_relays(count, &mut roll);
        let (board, start) = (tabled(&relays), roll(1 << count));
        let all = 1 << count;
        for room in [roll(all), all - 1, all, all + 1 + roll(100)] {
            let expected = run_by_tables(&relays, start, room);
            assert_eq!(ran(&board, drawn(start), room), expected);
            let answer = expected.0;
            // with n relays a log of 2^n is never spent
            assert!(room < all || answer.word != Word::Spent);
            words[answer.word as usize] += 1;
            shapes.insert((answer.before, answer.between));
        }
    }
    assert!(words.iter().all(|&count| count > 100));
    assert!(shapes.len() > 20);
}

#[test]
fn random_tables_at_every_log() {
    let mut roll = dice(9);
    let mut words = [0; 4];
    for _ in 0..100 {
        let count = 1 + roll(3);
        let relays = any_relays(count, &mut roll);
        let start = roll(1 << count);
        let (answer, moves) = assert_stands(&tabled(&relays), drawn(start), 1 << count);
        assert_eq!((answer, moves), run_by_tables(&relays, start, 1 << count));
        words[answer.word as usize] += 1;
    }
    assert_eq!(words[Word::Spent as usize], 0);
    for word in [Word::Idle, Word::Conflict, Word::Buzz] {
        assert!(words[word as usize] > 10);
    }
}

/// Relays that go through all their states, one move after the other, and come
/// back to the first: the sums are those of the Gray code.
fn through_all(count: usize) -> Vec<Ruled> {
    let all = 1_usize << count;
    let code = |number: usize| (number % all) ^ (number % all / 2);
    let table = |relay: usize| {
        let mut table = vec![false; all];
        for number in 0..all {
            table[code(number)] = code(number + 1) >> relay & 1 == 1;
        }
        Ruled::Regular(table)
    };
    (0..count).map(table).collect()
}

#[test]
fn a_log_of_all_states_but_one_may_be_spent() {
    for count in 1..=4 {
        let board = tabled(&through_all(count));
        for start in 0..1 << count {
            let (answer, _) = assert_stands(&board, drawn(start), 1 << count);
            assert_eq!(answer, buzz(0, 1 << count, drawn(start)));
        }
    }
}

#[test]
fn without_relays_no_log_is_spent() {
    let (answer, moves) = assert_stands(&board(&file(2, 0, &[])), none(), 1);
    assert_eq!((answer, moves), (ended(Word::Idle, 0, none(), 255), vec![]));
}

/// A board of up to five relays, wound anywhere, and up to 15 contacts and
/// buttons anywhere on a few terminals.
fn any_board(roll: &mut impl FnMut(usize) -> usize) -> Board {
    let (terminals, relays) = (3 + roll(4), 1 + roll(5));
    let mut part = |kind: u8, name: usize| {
        let a = roll(terminals);
        let b = (a + 1 + roll(terminals - 1)) % terminals;
        [kind, a as u8, b as u8, name as u8]
    };
    let mut parts: Vec<Part> = (0..relays).map(|relay| part(REGULAR, relay)).collect();
    let more = (0..15).map(|place| match place % 5 {
        0 | 1 => part(LOWER, place % relays),
        2 | 3 => part(UPPER, place * 7 % relays),
        _ => part(BUTTON, 0),
    });
    parts.extend(more.collect::<Vec<_>>());
    parts.truncate(relays + roll(16));
    board(&file(terminals as u8, relays as u8, &parts))
}

#[test]
fn random_boards_never_spend_a_log_of_all_states() {
    let mut roll = dice(10);
    let mut words = [0; 4];
    for _ in 0..1_500 {
        let board = any_board(&mut roll);
        let all = 1 << board.relays;
        let released = drawn(roll(all));
        for state in [released, released.push(0)] {
            let (answer, _) = assert_stands(&board, state, all);
            words[answer.word as usize] += 1;
        }
    }
    assert!(words[Word::Idle as usize] > 200 && words[Word::Buzz as usize] > 200);
}

#[test]
fn a_session_has_a_log_of_4096_and_goes_on_after_spent() {
    let (file, whole) = (counter(10), whole_count(10));
    let (answer, moves) = ran(&board(&file), none(), whole);
    assert_eq!(answer, buzz(0, whole, none()));
    // the button has no part; the second run goes over the end of the count
    let sum = |made: usize| after(none(), &moves[..made]).drawn_sum();
    let (first, second) = (sum(4_096), sum(2 * 4_096 - whole));
    let expected = format!("0 spent 4096 {first}\n1 spent 4096 {second}\n2 refused 12\n");
    assert_eq!(lines(&file, &[1, 1]), expected);
    let shorter = format!("0 buzz {} 0\n", whole_count(9));
    assert_eq!(lines(&counter(9), &[]), shorter);
}

#[test]
fn sessions_show_all_moves_of_a_buzzer() {
    assert_eq!(lines(&led_ring(0, 1), &[]), "0 buzz 2 0\n");
    assert_eq!(lines(&led_ring(0, 32), &[]), "0 buzz 64 0\n");
    // the lead is made once; the next run begins with the state left
    let led = "0 buzz 9 7\n1 buzz 6 7\n2 buzz 6 7\n3 refused 12\n";
    assert_eq!(lines(&led_ring(3, 3), &[1, 0, 0]), led);
}

#[test]
fn a_session_in_which_a_button_stops_a_buzzer() {
    // the button feeds H3 beside its contact: then it is drawn and rests
    let fed = [[LOWER, 0, 2, 0], [REGULAR, 2, 1, 0], [BUTTON, 0, 2, 0]];
    let expected = "0 buzz 2 0\n1 idle 1 1\n2 buzz 2 1\n3 idle 0 1\n";
    assert_eq!(lines(&file(3, 1, &fed), &[1, 0, 1]), expected);
}

#[test]
fn a_session_that_goes_from_buzz_to_conflict_and_back() {
    // relay 0 is H3; both windings of relay 1 are behind the button and the
    // upper contact of relay 0, so that its conflict comes after a move
    let h3 = [[LOWER, 0, 2, 0], [REGULAR, 2, 1, 0]];
    let steel = [[DRAWING, 4, 1, 1], [DROPPING, 4, 1, 1]];
    let feed = [[BUTTON, 0, 3, 0], [UPPER, 3, 4, 0]];
    let parts = [h3, steel, feed].concat();
    // relay 0 comes first, so the conflict is never looked at
    let buzzes = "0 buzz 2 0\n1 buzz 2 0\n2 buzz 2 0\n";
    assert_eq!(lines(&file(5, 2, &parts), &[1, 0]), buzzes);
    // with their numbers changed it is
    let changed: Vec<Part> = parts
        .iter()
        .map(|&[kind, a, b, relay]| match kind {
            BUTTON => [kind, a, b, relay],
            _ => [kind, a, b, 1 - relay],
        })
        .collect();
    let conflict = "0 buzz 2 0\n1 conflict 1 2\n2 buzz 2 2\n";
    assert_eq!(lines(&file(5, 2, &changed), &[1, 0]), conflict);
    let pushed = none().push(0);
    let (answer, moves) = assert_stands(&board(&file(5, 2, &changed)), pushed, 4);
    let expected = ended(Word::Conflict, 1, pushed.draw(1), 0);
    assert_eq!((answer, moves), (expected, vec![129]));
}
