//! Numbers as they stand in a file, and the refusals of a read.
//!
//! Renders the first paragraph of "The board file" and lines 1, 2 and 10 of
//! "Numbers for no", as request A1 changed them: a number goes to 4,294,967,295
//! and takes up to five bytes.

use std::ops::Range;

/// The longest input that is read at all, in bytes.
pub const LONGEST_INPUT: usize = 65_536;

/// A number takes at most this many bytes.
const LONGEST_NUMBER: usize = 5;

/// A number for no, and the place it belongs to.
#[derive(Clone, Copy, Debug, PartialEq, Eq)]
pub struct Refusal {
    pub number: u8,
    pub place: usize,
}

/// A number that was read, with the place of its first byte.
#[derive(Clone, Copy, Debug, PartialEq, Eq)]
pub struct Number {
    pub value: u32,
    pub place: usize,
}

impl Number {
    /// The refusal with this number, at the place of this number.
    pub fn refuse(self, number: u8) -> Refusal {
        Refusal {
            number,
            place: self.place,
        }
    }

    /// The value if it lies in `range`, otherwise the refusal `number`. It is
    /// the whole value that is tested.
    pub fn checked(self, range: Range<usize>, number: u8) -> Result<usize, Refusal> {
        match usize::try_from(self.value) {
            Ok(value) if range.contains(&value) => Ok(value),
            _ => Err(self.refuse(number)),
        }
    }
}

/// Reads an input from left to right.
pub struct Reader<'a> {
    input: &'a [u8],
    place: usize,
}

impl<'a> Reader<'a> {
    /// Begins at place 0; refusal 10 comes before anything is read.
    pub fn open(input: &'a [u8]) -> Result<Self, Refusal> {
        if input.len() > LONGEST_INPUT {
            return Err(Refusal {
                number: 10,
                place: 0,
            });
        }
        Ok(Reader { input, place: 0 })
    }

    /// The place of the next byte to be read.
    pub fn place(&self) -> usize {
        self.place
    }

    /// Whether every byte was read.
    pub fn at_end(&self) -> bool {
        self.place == self.input.len()
    }

    /// Reads one number and judges its form (refusals 1 and 2). Five groups
    /// hold more than a value may be, so they are summed up in 64 bits.
    pub fn number(&mut self) -> Result<Number, Refusal> {
        let place = self.place;
        let mut sum = 0;
        for group in 0..LONGEST_NUMBER {
            let Some(&byte) = self.input.get(place + group) else {
                return Err(Refusal {
                    number: 1,
                    place: self.input.len(),
                });
            };
            sum += u64::from(byte % 128) << (7 * group);
            let is_last = byte < 128;
            if is_last {
                let is_shortest = byte != 0 || group == 0;
                return match u32::try_from(sum) {
                    Ok(value) if is_shortest => {
                        self.place = place + group + 1;
                        Ok(Number { value, place })
                    }
                    _ => Err(Refusal { number: 2, place }),
                };
            }
        }
        Err(Refusal { number: 2, place })
    }
}

#[cfg(test)]
mod tests {
    use super::*;

    fn first_number(input: &[u8]) -> Result<(u32, usize), (u8, usize)> {
        let mut reader = Reader::open(input).map_err(|no| (no.number, no.place))?;
        match reader.number() {
            Ok(number) => Ok((number.value, reader.place())),
            Err(no) => Err((no.number, no.place)),
        }
    }

    /// The shortest form of a number, also of one that is too large.
    fn shortest(value: u64) -> Vec<u8> {
        let low = (value % 128) as u8;
        if value < 128 {
            return vec![low];
        }
        let mut bytes = vec![low + 128];
        bytes.extend(shortest(value / 128));
        bytes
    }

    /// Reads the shortest form of a number, whole and cut at every byte.
    fn assert_read_from_shortest(value: u64) {
        let bytes = shortest(value);
        let expected = match u32::try_from(value) {
            Ok(value) => Ok((value, bytes.len())),
            Err(_) => Err((2, 0)),
        };
        assert_eq!(first_number(&bytes), expected);
        for length in 0..bytes.len() {
            let cut = if length < 5 { (1, length) } else { (2, 0) };
            assert_eq!(first_number(&bytes[..length]), Err(cut));
        }
    }

    /// What reading a number answers, in other words than those of the reader:
    /// how many bytes in a row have their top bit set, and which one follows.
    fn by_definition(input: &[u8]) -> Result<(u32, usize), (u8, usize)> {
        let before_last = input.iter().take_while(|&&byte| byte >= 128).count();
        if before_last >= 5 {
            return Err((2, 0));
        }
        let Some(&last) = input.get(before_last) else {
            return Err((1, input.len()));
        };
        let groups = input[..=before_last].iter().rev();
        let value = groups.fold(0, |sum: u64, byte| 128 * sum + u64::from(byte & 127));
        if value > 4_294_967_295 || (last == 0 && before_last > 0) {
            return Err((2, 0));
        }
        Ok((value as u32, before_last + 1))
    }

    #[test]
    fn every_number_is_read_from_its_shortest_form() {
        // all those of up to three bytes, and a stride through the others
        let others = (2_097_152..1 << 32).step_by(4_099);
        for value in (0..2_097_152).chain(others) {
            let bytes = shortest(value);
            assert_eq!(first_number(&bytes), Ok((value as u32, bytes.len())));
        }
    }

    #[test]
    fn numbers_around_each_power_of_two_are_read_whole_and_cut() {
        for power in 0..40 {
            let middle: u64 = 1 << power;
            for value in middle.saturating_sub(300)..middle + 300 {
                assert_read_from_shortest(value);
            }
        }
    }

    #[test]
    fn values_too_large_and_more_than_five_bytes_give_2() {
        for value in (1 << 32..1 << 35).step_by(32_771) {
            assert_eq!(first_number(&shortest(value)), Err((2, 0)));
        }
        for power in 35..64 {
            for value in [1 << power, u64::MAX >> (63 - power)] {
                assert_read_from_shortest(value);
            }
        }
    }

    #[test]
    fn numbers_are_read_as_the_definition_says() {
        // all inputs of up to three bytes, of up to six bytes of these, and
        // every fifth byte
        let mut some = vec![vec![]];
        let bytes = [0x00, 0x01, 0x0f, 0x10, 0x7f, 0x80, 0x8f, 0x90, 0xff];
        for length in 0..6 {
            let longest = some.iter().filter(|input: &&Vec<u8>| input.len() == length);
            let longer = longest.flat_map(|input| bytes.map(|byte| [&input[..], &[byte]].concat()));
            some.append(&mut longer.collect());
        }
        assert_eq!(some.len(), 597_871);
        for before in [[0x80; 4], [0xff; 4], [0x80, 0xff, 0x80, 0xff]] {
            some.extend((0..=255).map(|fifth| [&before[..], &[fifth]].concat()));
        }
        for input in &some {
            assert_eq!(first_number(input), by_definition(input));
        }
        for number in 0..1 << 24_u32 {
            let [_, input @ ..] = u32::to_be_bytes(number);
            for length in 1..=3 {
                let input = &input[..length];
                assert_eq!(first_number(input), by_definition(input));
            }
        }
    }

    #[test]
    fn forms_of_the_rule_book() {
        assert_eq!(first_number(&[]), Err((1, 0)));
        assert_eq!(first_number(&[0x80, 0x00]), Err((2, 0)));
        assert_eq!(first_number(&[0x80, 0x80]), Err((1, 2)));
        assert_eq!(first_number(&[0xff, 0xff, 0x7f]), Ok((2_097_151, 3)));
    }

    #[test]
    fn forms_of_request_a1() {
        assert_eq!(first_number(&[0x80; 3]), Err((1, 3)));
        assert_eq!(first_number(&[0x80; 4]), Err((1, 4)));
        assert_eq!(first_number(&[0x80; 5]), Err((2, 0)));
        assert_eq!(first_number(&[0x80; 6]), Err((2, 0)));
        let with_fifth = |four: u8, fifth| first_number(&[four, four, four, four, fifth]);
        assert_eq!(with_fifth(0x80, 0x00), Err((2, 0)));
        assert_eq!(with_fifth(0xff, 0x00), Err((2, 0)));
        assert_eq!(with_fifth(0x80, 0x01), Ok((268_435_456, 5)));
        assert_eq!(with_fifth(0x80, 0x0f), Ok((4_026_531_840, 5)));
        assert_eq!(with_fifth(0xff, 0x0f), Ok((4_294_967_295, 5)));
        assert_eq!(with_fifth(0xff, 0x10), Err((2, 0)));
        assert_eq!(with_fifth(0x80, 0x10), Err((2, 0)));
        assert_eq!(with_fifth(0xff, 0x7f), Err((2, 0)));
        assert_eq!(with_fifth(0xff, 0x80), Err((2, 0)));
        assert_eq!(with_fifth(0xff, 0x8f), Err((2, 0)));
        assert_eq!(with_fifth(0xff, 0xff), Err((2, 0)));
    }

    #[test]
    fn further_forms() {
        assert_eq!(first_number(&[0x00]), Ok((0, 1)));
        assert_eq!(first_number(&[0x00, 0x00]), Ok((0, 1)));
        assert_eq!(first_number(&[0x80]), Err((1, 1)));
        assert_eq!(first_number(&[0xff]), Err((1, 1)));
        assert_eq!(first_number(&[0x80, 0x01]), Ok((128, 2)));
        assert_eq!(first_number(&[0xff, 0x00]), Err((2, 0)));
        assert_eq!(first_number(&[0x80, 0x80, 0x00]), Err((2, 0)));
        assert_eq!(first_number(&[0x80, 0x80, 0x01]), Ok((16_384, 3)));
        assert_eq!(first_number(&[0xff, 0xff, 0xff, 0x00]), Err((2, 0)));
        assert_eq!(first_number(&[0x80, 0x80, 0x80, 0x01]), Ok((2_097_152, 4)));
        assert_eq!(
            first_number(&[0xff, 0xff, 0xff, 0x7f]),
            Ok((268_435_455, 4))
        );
    }

    #[test]
    fn the_whole_value_is_tested() {
        let checked = |value| Number { value, place: 9 }.checked(2..65, 3);
        let no = Err(Refusal {
            number: 3,
            place: 9,
        });
        assert_eq!((checked(1), checked(65)), (no, no));
        for value in 2..65 {
            assert_eq!(checked(value), Ok(value as usize));
            for power in 7..32 {
                assert_eq!(checked(value + (1 << power)), no);
                assert_eq!(checked(u32::MAX - (1 << power) + value), no);
            }
        }
        assert_eq!(checked(u32::MAX), no);
    }

    #[test]
    fn the_longest_input_and_one_byte_more() {
        assert_eq!(first_number(&[5; 65_536]), Ok((5, 1)));
        assert_eq!(first_number(&[5; 65_537]), Err((10, 0)));
        assert_eq!(first_number(&[0x80; 65_537]), Err((10, 0)));
    }

    #[test]
    fn a_second_number_has_its_own_place() {
        let input = [0x80, 0x01, 0xff, 0xff, 0xff, 0xff, 0x0f, 0x80, 0x00];
        let mut reader = Reader::open(&input).unwrap();
        for (value, place) in [(128, 0), (4_294_967_295, 2)] {
            assert_eq!(reader.number(), Ok(Number { value, place }));
        }
        let refusal = reader.number().unwrap_err();
        assert_eq!((refusal.number, refusal.place), (2, 7));
    }
}
