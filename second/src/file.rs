//! Reading a board.
//!
//! Renders "The board file" and lines 3 to 9 of "Numbers for no", in the order
//! given under that table: left to right, each number's form before its
//! meaning, for a part 4, 5, 5, 6, 7, 8 as its fields come, and 9 at the end.
//! For a mark, of request A2, this is 4, 7, 17: its one field is a relay.

use crate::board::{Board, Ends, Kind, Part, NO_ENDS};
use crate::board::{MOST_BUTTONS, MOST_PARTS, MOST_RELAYS, MOST_TERMINALS};
use crate::number::{Number, Reader, Refusal};

/// Reads a board; the reader is then at the place just after it.
pub fn read_board(reader: &mut Reader) -> Result<Board, Refusal> {
    let terminals = reader.number()?.checked(2..MOST_TERMINALS + 1, 3)?;
    let relays = reader.number()?.checked(0..MOST_RELAYS + 1, 3)?;
    let buttons = reader.number()?.checked(0..MOST_BUTTONS + 1, 3)?;
    let count = reader.number()?.checked(0..MOST_PARTS + 1, 3)?;
    let mut board = Board {
        terminals,
        relays,
        buttons,
        parts: Vec::new(),
    };
    for _ in 0..count {
        let part = read_part(reader, &board)?;
        board.parts.push(part);
    }
    if (0..relays).any(|relay| board.windings(relay).is_none()) {
        return Err(Refusal {
            number: 9,
            place: reader.place(),
        });
    }
    Ok(board)
}

/// Reads one part; `board` holds the parts before it.
fn read_part(reader: &mut Reader, board: &Board) -> Result<Part, Refusal> {
    let kind_number = reader.number()?.checked(0..8, 4)?;
    let ends = match kind_number {
        7 => NO_ENDS,
        _ => read_ends(reader, board)?,
    };
    let kind = match kind_number {
        0 => Kind::Wire,
        1 => Kind::UpperContact(read_relay(reader, board)?),
        2 => Kind::LowerContact(read_relay(reader, board)?),
        3 => Kind::Button(reader.number()?.checked(0..board.buttons, 7)?),
        4 => read_single(reader, board, Kind::RegularWinding, 8)?,
        5 => read_single(reader, board, Kind::DrawingWinding, 8)?,
        6 => read_single(reader, board, Kind::DroppingWinding, 8)?,
        _ => read_single(reader, board, Kind::Mark, 17)?,
    };
    Ok(Part { ends, kind })
}

fn read_ends(reader: &mut Reader, board: &Board) -> Result<Ends, Refusal> {
    let first = reader.number()?.checked(0..board.terminals, 5)?;
    let number = reader.number()?;
    let second = number.checked(0..board.terminals, 5)?;
    if first == second {
        return Err(number.refuse(6));
    }
    Ok((first, second))
}

fn read_relay(reader: &mut Reader, board: &Board) -> Result<usize, Refusal> {
    reader.number()?.checked(0..board.relays, 7)
}

/// Reads the relay of a winding or a mark, which must have room for it; else
/// the refusal `no` (8 or 17).
fn read_single(
    reader: &mut Reader,
    board: &Board,
    kind: fn(usize) -> Kind,
    no: u8,
) -> Result<Kind, Refusal> {
    let number: Number = reader.number()?;
    let kind = kind(number.checked(0..board.relays, 7)?);
    if board.parts.iter().any(|part| excludes(part.kind, kind)) {
        return Err(number.refuse(no));
    }
    Ok(kind)
}

/// Whether a relay with the winding or mark `old` cannot also have `new`: it is
/// the same winding, or it belongs to the other sort of relay, or both are
/// marks.
fn excludes(old: Kind, new: Kind) -> bool {
    match (old, new) {
        (Kind::RegularWinding(old), Kind::RegularWinding(new))
        | (Kind::RegularWinding(old), Kind::DrawingWinding(new))
        | (Kind::RegularWinding(old), Kind::DroppingWinding(new))
        | (Kind::DrawingWinding(old), Kind::RegularWinding(new))
        | (Kind::DrawingWinding(old), Kind::DrawingWinding(new))
        | (Kind::DroppingWinding(old), Kind::RegularWinding(new))
        | (Kind::DroppingWinding(old), Kind::DroppingWinding(new))
        | (Kind::Mark(old), Kind::Mark(new)) => old == new,
        _ => false,
    }
}

#[cfg(test)]
mod tests {
    use super::*;

    fn read(input: &[u8]) -> Result<(Board, usize), (u8, usize)> {
        let mut reader = Reader::open(input).map_err(|no| (no.number, no.place))?;
        match read_board(&mut reader) {
            Ok(board) => Ok((board, reader.place())),
            Err(no) => Err((no.number, no.place)),
        }
    }

    fn refused(input: &[u8]) -> (u8, usize) {
        read(input).unwrap_err()
    }

    #[test]
    fn counts_at_and_past_their_ranges() {
        let empty = |terminals| Board {
            terminals,
            relays: 0,
            buttons: 0,
            parts: vec![],
        };
        assert_eq!(read(&[2, 0, 0, 0]), Ok((empty(2), 4)));
        assert_eq!(read(&[64, 0, 0, 0, 99]), Ok((empty(64), 4)));
        assert_eq!(read(&[64, 0, 32, 0]).unwrap().0.buttons, 32);
        assert_eq!(refused(&[0, 0, 0, 0]), (3, 0));
        assert_eq!(refused(&[1, 0, 0, 0]), (3, 0));
        assert_eq!(refused(&[65, 0, 0, 0]), (3, 0));
        assert_eq!(refused(&[2, 33, 0, 0]), (3, 1));
        assert_eq!(refused(&[2, 0, 33, 0]), (3, 2));
        assert_eq!(refused(&[2, 0, 0, 0x81, 0x02]), (3, 3));
    }

    #[test]
    fn a_count_or_field_past_its_range_is_not_the_same_less_256() {
        assert_eq!(refused(&[0x83, 0x02, 0, 0, 0]), (3, 0));
        assert_eq!(refused(&[3, 0x80, 0x02, 0, 0]), (3, 1));
        assert_eq!(refused(&[3, 0, 0x80, 0x02, 0]), (3, 2));
        assert_eq!(refused(&[3, 0, 0, 0x80, 0x80, 0x04]), (3, 3));
        assert_eq!(refused(&[3, 1, 0, 1, 0x84, 0x02, 2, 1, 0]), (4, 4));
        assert_eq!(refused(&[3, 1, 0, 1, 4, 0x82, 0x02, 1, 0]), (5, 5));
        assert_eq!(refused(&[3, 1, 0, 1, 4, 2, 0x81, 0x02, 0]), (5, 6));
        assert_eq!(refused(&[3, 1, 0, 1, 4, 2, 0x82, 0x02, 0]), (5, 6));
        assert_eq!(refused(&[3, 1, 0, 1, 4, 2, 1, 0x80, 0x02]), (7, 7));
    }

    #[test]
    fn two_hundred_and_fifty_six_parts_are_accepted() {
        let mut input = vec![2, 0, 0, 0x80, 0x02];
        input.extend([0, 0, 1].repeat(256));
        let (board, after) = read(&input).unwrap();
        assert_eq!((board.parts.len(), after), (256, 5 + 3 * 256));
        input.pop();
        assert_eq!(refused(&input), (1, 5 + 3 * 256 - 1));
    }

    #[test]
    fn form_comes_before_meaning_from_left_to_right() {
        assert_eq!(refused(&[]), (1, 0));
        assert_eq!(refused(&[65]), (3, 0));
        assert_eq!(refused(&[3]), (1, 1));
        assert_eq!(refused(&[3, 0x80, 0x00]), (2, 1));
        assert_eq!(refused(&[3, 33, 0x80, 0x00]), (3, 1));
        assert_eq!(refused(&[3, 0, 0, 1]), (1, 4));
        assert_eq!(refused(&[3, 0, 0, 1, 8]), (4, 4));
        assert_eq!(refused(&[3, 0, 0, 1, 7]), (1, 5));
        assert_eq!(refused(&[3, 0, 0, 1, 0, 0x80, 0x80]), (1, 7));
        assert_eq!(refused(&[3, 0, 0, 1, 0, 0x83, 0x00]), (2, 5));
    }

    #[test]
    fn refusals_of_the_fields_of_a_part() {
        assert_eq!(refused(&[3, 1, 0, 1, 4, 3, 3, 9]), (5, 5));
        assert_eq!(refused(&[3, 1, 0, 1, 4, 2, 3, 9]), (5, 6));
        assert_eq!(refused(&[3, 1, 0, 1, 4, 2, 2, 9]), (6, 6));
        assert_eq!(refused(&[3, 1, 0, 1, 4, 2, 1]), (1, 7));
        assert_eq!(refused(&[3, 1, 0, 1, 4, 2, 1, 1]), (7, 7));
        assert_eq!(refused(&[3, 1, 0, 1, 1, 2, 1, 1]), (7, 7));
        assert_eq!(refused(&[3, 1, 0, 1, 2, 2, 1, 1]), (7, 7));
        assert_eq!(refused(&[3, 1, 1, 1, 3, 2, 1, 1]), (7, 7));
        assert_eq!(refused(&[3, 1, 1, 1, 5, 2, 1, 1]), (7, 7));
        assert_eq!(refused(&[3, 1, 1, 1, 6, 2, 1, 1]), (7, 7));
    }

    #[test]
    fn pairs_of_windings_of_one_relay() {
        for first in 4..7 {
            for second in 4..7 {
                let input = [3, 1, 0, 2, first, 0, 2, 0, second, 2, 1, 0];
                if [(5, 6), (6, 5)].contains(&(first, second)) {
                    assert_eq!(read(&input).unwrap().1, 12);
                } else {
                    assert_eq!(refused(&input), (8, 11));
                }
            }
        }
    }

    #[test]
    fn windings_of_different_relays_do_not_clash() {
        let input = [3, 2, 0, 3, 4, 0, 2, 0, 5, 0, 2, 1, 6, 2, 1, 1];
        let (board, after) = read(&input).unwrap();
        assert_eq!((board.parts.len(), after), (3, 16));
        let input = [3, 2, 0, 2, 4, 0, 2, 0, 4, 0, 2, 1];
        assert_eq!(read(&input).unwrap().1, 12);
    }

    #[test]
    fn a_lacking_winding_is_refused_after_the_board() {
        assert_eq!(refused(&[2, 1, 0, 0]), (9, 4));
        assert_eq!(refused(&[2, 1, 0, 0, 0x80]), (9, 4));
        assert_eq!(refused(&[3, 1, 0, 1, 5, 0, 2, 0, 77]), (9, 8));
        assert_eq!(refused(&[3, 1, 0, 1, 6, 0, 2, 0, 77]), (9, 8));
        assert_eq!(refused(&[3, 2, 0, 1, 4, 0, 2, 0]), (9, 8));
        assert_eq!(refused(&[3, 2, 0, 1, 4, 0, 2, 1]), (9, 8));
        assert_eq!(refused(&[3, 1, 0, 1, 1, 0, 2, 0]), (9, 8));
        assert_eq!(refused(&[3, 1, 0, 1, 7, 0, 77]), (9, 6));
    }

    #[test]
    fn refusals_of_a_mark() {
        let mark = |bytes: &[u8]| refused(&[&[3, 2, 0, 3, 7, 1, 7], bytes].concat());
        assert_eq!(mark(&[]), (1, 7));
        assert_eq!(mark(&[0x80]), (1, 8));
        assert_eq!(mark(&[0x81, 0x00]), (2, 7));
        assert_eq!(mark(&[2]), (7, 7));
        assert_eq!(mark(&[0x81, 0x02]), (7, 7));
        assert_eq!(mark(&[1]), (17, 7));
        assert_eq!(mark(&[0]), (1, 8));
        assert_eq!(refused(&[3, 0, 0, 1, 7, 0]), (7, 5));
    }

    #[test]
    fn a_mark_has_one_field_and_its_place_among_the_parts() {
        let (board, after) = read(&[3, 1, 0, 2, 7, 0, 4, 2, 1, 0, 7]).unwrap();
        let fields: Vec<_> = board
            .parts
            .iter()
            .map(|part| (part.kind, part.ends))
            .collect();
        let mark = (Kind::Mark(0), NO_ENDS);
        let winding = (Kind::RegularWinding(0), (2, 1));
        assert_eq!((fields, after), (vec![mark, winding], 10));
        let (board, after) = read(&[3, 1, 0, 2, 4, 2, 1, 0, 7, 0, 7]).unwrap();
        let kinds: Vec<_> = board.parts.iter().map(|part| part.kind).collect();
        assert_eq!((kinds, after), (vec![winding.0, mark.0], 10));
    }

    #[test]
    fn marks_and_windings_of_a_relay_do_not_clash_in_any_order() {
        let parts = [&[5, 0, 2, 0][..], &[6, 2, 1, 0], &[7, 0]];
        for (first, second, third) in [(0, 1, 2), (0, 2, 1), (2, 0, 1)] {
            let input = [&[3, 1, 0, 3], parts[first], parts[second], parts[third]];
            assert_eq!(read(&input.concat()).unwrap().1, 14);
        }
    }
}
