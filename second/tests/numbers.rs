//! Request A1 at every place of a session that takes a number, also in a mark
//! (request A2): the forms of numbers, each whole and cut at every byte, and
//! values that would fit if they were narrowed.

use second::session::session;

/// A session in which every number is one byte, so that a number's place is
/// also its index: T, R, B, C, a part of each kind, W and two events.
const SESSION: &[u8] = &[
    5, 2, 1, 8, // T, R, B, C
    0, 0, 2, // wire
    1, 0, 2, 0, // upper contact
    2, 0, 2, 0, // lower contact
    3, 0, 3, 0, // button
    4, 2, 1, 0, // regular winding
    5, 3, 1, 1, // drawing winding
    6, 4, 1, 1, // dropping winding
    7, 0, // mark
    100, 1, 0, // W, a push and a release
];

/// For each number of the session, the refusal of a value past its limit; 0
/// for W, which has none.
const NUMBERS_FOR_NO: &[u8] = &[
    3, 3, 3, 3, // T, R, B, C
    4, 5, 5, // wire
    4, 5, 5, 7, // upper contact
    4, 5, 5, 7, // lower contact
    4, 5, 5, 7, // button
    4, 5, 5, 7, // regular winding
    4, 5, 5, 7, // drawing winding
    4, 5, 5, 7, // dropping winding
    4, 7, // mark
    0, 7, 7, // W, a push and a release
];

/// The lines of the session, one each for W and the events.
const LINES: [&str; 3] = ["0 idle 0 1\n", "1 idle 1 3\n", "2 idle 0 3\n"];

/// The place of W; the events come after it.
const W: usize = 33;

/// Forms that are refused by 2. Each byte but the last has its top bit set.
const REFUSED: &[&[u8]] = &[
    &[0x80, 0x00],
    &[0xff, 0x00],
    &[0x80, 0x80, 0x00],
    &[0x80, 0x80, 0x80, 0x00],
    &[0x80, 0x80, 0x80, 0x80, 0x00],
    &[0xff, 0xff, 0xff, 0xff, 0x00],
    &[0x80, 0x80, 0x80, 0x80, 0x10],
    &[0x84, 0x80, 0x80, 0x80, 0x10],
    &[0xff, 0xff, 0xff, 0xff, 0x10],
    &[0xff, 0xff, 0xff, 0xff, 0x7f],
    &[0x80, 0x80, 0x80, 0x80, 0x80],
    &[0xff, 0xff, 0xff, 0xff, 0x8f],
    &[0xff, 0xff, 0xff, 0xff, 0xff],
];

/// Forms whose value is past every limit but that of W.
const LARGE: &[&[u8]] = &[
    &[0xff, 0xff, 0x7f],
    &[0x80, 0x80, 0x80, 0x01],
    &[0xff, 0xff, 0xff, 0x7f],
    &[0x80, 0x80, 0x80, 0x80, 0x01],
    &[0x80, 0x80, 0x80, 0x80, 0x08],
    &[0x80, 0x80, 0x80, 0x80, 0x0f],
    &[0xff, 0xff, 0xff, 0xff, 0x0f],
];

/// The shortest form of a number.
fn shortest(value: u32) -> Vec<u8> {
    let low = (value % 128) as u8;
    if value < 128 {
        return vec![low];
    }
    [vec![low + 128], shortest(value / 128)].concat()
}

/// The session with the number at this place replaced by some bytes.
fn replaced(place: usize, bytes: &[u8]) -> Vec<u8> {
    [&SESSION[..place], bytes, &SESSION[place + 1..]].concat()
}

/// The session up to this place, and some bytes in place of all the rest.
fn ended(place: usize, bytes: &[u8]) -> Vec<u8> {
    [&SESSION[..place], bytes].concat()
}

/// The lines that come before the number at this place is read, and the line
/// of a refusal.
fn refused(place: usize, number: u8, at: usize) -> String {
    let before = LINES[..place.saturating_sub(W)].concat();
    format!("{before}refused {number} {at}\n")
}

/// Asserts that these bytes are refused at this place, whether the session
/// goes on after them or not.
fn assert_refused(place: usize, bytes: &[u8], number: u8) {
    let lines = refused(place, number, place);
    assert_eq!(session(&replaced(place, bytes)), lines);
    assert_eq!(session(&ended(place, bytes)), lines);
}

#[test]
fn the_session_as_it_is() {
    assert_eq!(session(SESSION), LINES.concat());
    assert_eq!(NUMBERS_FOR_NO.len(), SESSION.len());
    assert_eq!(SESSION[W], 100);
}

#[test]
fn a_number_cut_at_any_byte_is_refused_by_1_at_the_end() {
    for place in 0..SESSION.len() {
        for form in [REFUSED, LARGE].concat() {
            for length in 1..form.len() {
                let input = ended(place, &form[..length]);
                assert_eq!(session(&input), refused(place, 1, input.len()));
            }
        }
    }
}

#[test]
fn a_session_that_ends_before_a_number() {
    for place in 0..=W {
        assert_eq!(session(&SESSION[..place]), refused(place, 1, place));
    }
    for place in W + 1..=SESSION.len() {
        assert_eq!(session(&SESSION[..place]), LINES[..place - W].concat());
    }
}

#[test]
fn a_bad_form_is_refused_by_2_at_its_first_byte() {
    for place in 0..SESSION.len() {
        for form in REFUSED {
            assert_refused(place, form, 2);
        }
    }
}

#[test]
fn five_bytes_with_their_top_bits_set_are_no_cut_number() {
    for place in 0..SESSION.len() {
        for length in 1..9 {
            let bytes = vec![0x80; length];
            let lines = match length {
                1..=4 => refused(place, 1, place + length),
                _ => refused(place, 2, place),
            };
            assert_eq!(session(&ended(place, &bytes)), lines);
        }
    }
}

#[test]
fn each_place_has_its_own_limit() {
    for (place, &number) in NUMBERS_FOR_NO.iter().enumerate() {
        for form in LARGE.iter().filter(|_| place != W) {
            assert_refused(place, form, number);
        }
    }
}

#[test]
fn w_has_no_limit_but_the_largest_number() {
    for form in LARGE {
        assert_eq!(session(&replaced(W, form)), LINES.concat());
        assert_eq!(session(&ended(W, form)), LINES[0]);
    }
}

#[test]
fn a_value_is_not_narrowed_before_its_limit_is_tested() {
    for (place, &number) in NUMBERS_FOR_NO.iter().enumerate() {
        for power in (8..32).filter(|_| place != W) {
            let value = u32::from(SESSION[place]);
            assert_refused(place, &shortest(value + (1 << power)), number);
            assert_refused(place, &shortest(value.wrapping_sub(1 << power)), number);
        }
    }
}

#[test]
fn a_kind_of_260_is_not_kind_4() {
    assert_eq!(SESSION[19], 4);
    assert_refused(19, &[0x84, 0x02], 4);
}

#[test]
fn no_w_changes_a_line() {
    // request A7; only the place of a bad event moves with W's length
    for w in (0..32).map(|power| 1 << power).chain(0..10) {
        assert_eq!(session(&replaced(W, &shortest(w))), LINES.concat());
        let bad = ended(W, &[shortest(w), vec![2]].concat());
        assert_eq!(session(&bad), refused(W + 1, 7, bad.len() - 1));
    }
}
