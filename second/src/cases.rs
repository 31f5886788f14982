//! Typed cases, each answered by a line: single judgements, checks of a
//! terminal, moves, runs and reports.
//!
//! This is for comparing programs and is not in the rule book. A case is pairs
//! of hex digits, and white space between them as one likes; `@`, `!`, `?`,
//! `^`, `=` or `%` ends it.
//!
//! - `@`, a judgement by the chains: a board file and, in the file's form of
//!   numbers, which relays are drawn and which buttons pushed (a bit for each),
//!   the relay, its winding (0 for the first, else the second) and the allowance.
//! - `!`, a judgement without an allowance: the same without the last number.
//! - `?`, a check of a terminal: the same with the terminal for the allowance.
//! - `^`, a move: three numbers of three bytes, highest first, which are the
//!   drawn relays, the pushed buttons and the relay; then a board handed in.
//! - `=`, a run: the same with the log's length for the relay.
//! - `%`, a report: the same as for a run; the first two numbers are not looked
//!   at.
//!
//! A board is handed in byte by byte: one each for T, R and B, two for C with
//! the lower first, five for the start, lowest first (a bit for each relay),
//! and four for a part: its kind, both ends, and the relay or button. Kinds
//! above 7 are taken as 7, as no part has them; missing bytes are 0.

use crate::board::{Kind, Part, State, MOST_PARTS};
use crate::calls::{check_call, judge_call, move_call, report_call, run_call, tell_call};
use crate::calls::{Asked, HandedBoard, HandedState};
use crate::file::read_board;
use crate::judge::{Judgement, Verdict};
use crate::moves::Answer;
use crate::number::{Reader, Refusal};
use crate::tell::Told;

/// A log is lent full of this byte, which no move is logged as.
const FILLER: u8 = 0x7e;

/// The most moves of a log that are shown.
const MOST_SHOWN: usize = 40;

/// The lines that answer the cases of a text; none if it is malformed.
pub fn answers(text: &str) -> Option<String> {
    let mut lines = String::new();
    let mut rest = text.trim_start();
    while !rest.is_empty() {
        let end = rest.find(['@', '!', '?', '^', '=', '%'])?;
        let case = bytes(&rest[..end])?;
        let line = match rest.as_bytes()[end] {
            b'@' => filed_case(&case, judge_line)?,
            b'!' => filed_case(&case, tell_line)?,
            b'?' => filed_case(&case, check_line)?,
            b'^' => move_case(&case),
            b'=' => run_case(&case),
            _ => report_case(&case),
        };
        lines += &line;
        lines.push('\n');
        rest = rest[end + 1..].trim_start();
    }
    Some(lines)
}

/// The bytes that pairs of hex digits stand for.
fn bytes(text: &str) -> Option<Vec<u8>> {
    let mut digits = text.chars().filter(|letter| !letter.is_whitespace());
    let mut found = Vec::new();
    while let Some(high) = digits.next() {
        let (high, low) = (high.to_digit(16)?, digits.next()?.to_digit(16)?);
        found.push((16 * high + low) as u8);
    }
    Some(found)
}

/// The answer to a case with a board file, also where this is refused; none
/// where the numbers after it are not the four that each has and those that the
/// line is made from.
fn filed_case<const MORE: usize>(
    case: &[u8],
    line: fn(&HandedBoard, HandedState, Asked, [u32; MORE]) -> String,
) -> Option<String> {
    let mut reader = Reader::open(case).ok()?;
    let board = match read_board(&mut reader) {
        Ok(board) => board,
        Err(Refusal { number, place }) => return Some(format!("refused {number} {place}")),
    };
    let [drawn, pushed, relay, which] = numbers(&mut reader)?;
    let more = numbers(&mut reader)?;
    if !reader.at_end() {
        return None;
    }
    let board = HandedBoard {
        terminals: board.terminals,
        relays: board.relays,
        buttons: board.buttons,
        count: board.parts.len(),
        start: State::fresh(&board).drawn_sum(),
        parts: board.parts,
    };
    let state = HandedState {
        drawn: drawn.into(),
        pushed: pushed.into(),
    };
    Some(line(&board, state, (relay, which != 0), more))
}

/// So many numbers in the file's form; none if one is bad.
fn numbers<const COUNT: usize>(reader: &mut Reader) -> Option<[u32; COUNT]> {
    let mut values = [0; COUNT];
    for value in &mut values {
        *value = reader.number().ok()?.value;
    }
    Some(values)
}

fn judge_line(board: &HandedBoard, state: HandedState, asked: Asked, [w]: [u32; 1]) -> String {
    match judge_call(board, state, asked, w) {
        Ok(judgement) => judgement_line(&judgement),
        Err(number) => format!("judged refused {number}"),
    }
}

fn tell_line(board: &HandedBoard, state: HandedState, asked: Asked, []: [u32; 0]) -> String {
    match tell_call(board, state, asked) {
        Ok(Told::Live) => "told live".to_string(),
        Ok(Told::Shunted) => "told shunted".to_string(),
        Ok(Told::Dead(lowest)) => format!("told dead {lowest}"),
        Err(number) => format!("told refused {number}"),
    }
}

fn check_line(board: &HandedBoard, state: HandedState, asked: Asked, [x]: [u32; 1]) -> String {
    match check_call(board, state, asked, x) {
        Ok(true) => "checked divides".to_string(),
        Ok(false) => "checked does not divide".to_string(),
        Err(number) => format!("checked refused {number}"),
    }
}

fn judgement_line(judgement: &Judgement) -> String {
    let word = match judgement.verdict {
        Verdict::Live => "live",
        Verdict::Dead => "dead",
        Verdict::Undecided => "undecided",
    };
    let mut line = format!("judged {word} {}", judgement.effort);
    if judgement.length > 0 {
        line += &format!(" {}:", judgement.length);
    }
    for terminal in &judgement.chain[..judgement.length] {
        line += &format!(" {terminal}");
    }
    line
}

fn move_case(case: &[u8]) -> String {
    let (state, relay, board) = handed(case);
    let (answer, left) = move_call(&board, state, relay);
    let word = match answer {
        Ok(Answer::Drew) => "drew".to_string(),
        Ok(Answer::Dropped) => "dropped".to_string(),
        Ok(Answer::Rests) => "rests".to_string(),
        Ok(Answer::Conflict) => "conflict".to_string(),
        Err(number) => format!("refused {number}"),
    };
    format!("moved {word} {} {}", left.drawn, left.pushed)
}

/// The answer to a run, with both numbers of a buzz whatever its word is, the
/// first moves of its log, and a word for each byte past them that was touched.
fn run_case(case: &[u8]) -> String {
    let (state, room, board) = handed(case);
    let mut log = vec![FILLER; room as usize];
    let ran = run_call(&board, state, &mut log);
    let word = match ran.word {
        Ok(word) => word.text().to_string(),
        Err(number) => format!("refused {number}"),
    };
    let (moves, left, relay) = (ran.moves, ran.state, ran.relay);
    let mut line = format!("ran {word} {moves} {} {} {relay}", left.drawn, left.pushed);
    line += &format!(" {} {}:", ran.before, ran.between);
    for byte in &log[..moves.min(MOST_SHOWN)] {
        line += &format!(" {byte}");
    }
    for _ in log[moves..].iter().filter(|&&byte| byte != FILLER) {
        line += " and more";
    }
    line
}

/// The answer to a report: the number for no, if it is refused, and the eight
/// figures.
fn report_case(case: &[u8]) -> String {
    let (_, length, board) = handed(case);
    let (refused, report) = report_call(&board, length);
    let mut line = "reported".to_string();
    if let Some(number) = refused {
        line += &format!(" refused {number}");
    }
    for figure in report.figures() {
        line += &format!(" {figure}");
    }
    line
}

/// What a move, a run or a report is handed: a state, a number and a board.
fn handed(case: &[u8]) -> (HandedState, u32, HandedBoard) {
    let byte = |at: usize| case.get(at).copied().unwrap_or(0);
    let number = |at: usize| u32::from_be_bytes([0, byte(at), byte(at + 1), byte(at + 2)]);
    let state = HandedState {
        drawn: number(0).into(),
        pushed: number(3).into(),
    };
    let start = (0..5).map(|place| u64::from(byte(14 + place)) << (8 * place));
    let part = |at: usize| Part {
        ends: (byte(at + 1).into(), byte(at + 2).into()),
        kind: kind(byte(at), byte(at + 3).into()),
    };
    let board = HandedBoard {
        terminals: byte(9).into(),
        relays: byte(10).into(),
        buttons: byte(11).into(),
        count: u16::from_le_bytes([byte(12), byte(13)]).into(),
        start: start.sum(),
        parts: (0..MOST_PARTS).map(|place| part(19 + 4 * place)).collect(),
    };
    (state, number(6), board)
}

fn kind(number: u8, name: usize) -> Kind {
    match number {
        0 => Kind::Wire,
        1 => Kind::UpperContact(name),
        2 => Kind::LowerContact(name),
        3 => Kind::Button(name),
        4 => Kind::RegularWinding(name),
        5 => Kind::DrawingWinding(name),
        6 => Kind::DroppingWinding(name),
        _ => Kind::Mark(name),
    }
}

#[cfg(test)]
mod tests {
    use super::*;

    const H1_FILE: &str = "03 01 01 02  03 00 02 00  04 02 01 00";
    const H1_HANDED: &str = "03 01 01 02 00  00 00 00 00 00  03 00 02 00  04 02 01 00";
    const H3_HANDED: &str = "03 01 00 02 00  00 00 00 00 00  02 00 02 00  04 02 01 00";
    const ZERO: &str = "000000 000000 000000";

    fn assert_answers(text: &str, lines: &[&str]) {
        let told = answers(text).unwrap();
        assert_eq!(told.lines().collect::<Vec<_>>(), lines);
        assert!(told.is_empty() || told.ends_with('\n'));
    }

    #[test]
    fn judgements() {
        let h1 = |asked: &str| format!("{H1_FILE} {asked} @\n");
        assert_answers(&h1("00 00 00 00 64"), &["judged dead 1"]);
        assert_answers(&h1("00 01 00 00 03"), &["judged live 3 3: 0 2 1"]);
        assert_answers(&h1("00 01 00 00 02"), &["judged undecided 2"]);
        assert_answers(&h1("02 01 00 00 03"), &["judged refused 14"]);
        assert_answers(&h1("00 01 00 01 03"), &["judged refused 11"]);
        assert_answers("01@ 0200@", &["refused 3 0", "refused 1 2"]);
    }

    #[test]
    fn judgements_with_numbers_of_five_bytes() {
        let h1 = |asked: &str| format!("{H1_FILE} {asked} @\n");
        let most = "ffffffff0f";
        assert_answers(
            &h1(&format!("00 01 00 00 {most}")),
            &["judged live 3 3: 0 2 1"],
        );
        assert_answers(&h1("00 01 00 00 8080808001"), &["judged live 3 3: 0 2 1"]);
        for asked in ["{} 00 00 00 64", "00 {} 00 00 64"] {
            let asked = asked.replace("{}", most);
            assert_answers(&h1(&asked), &["judged refused 14"]);
        }
        for relay in ["8002", "8080808001", "8080808008", most] {
            let asked = format!("00 00 {relay} 00 64");
            assert_answers(&h1(&asked), &["judged refused 11"]);
        }
        // another than the first winding is the second, which H1 has not
        for which in ["8002", "8080808001", most] {
            let asked = format!("00 00 00 {which} 64");
            assert_answers(&h1(&asked), &["judged refused 11"]);
        }
        for bad in ["ffffffff10", "8080808010", "8080808000", "80808080"] {
            assert_eq!(answers(&h1(&format!("00 00 00 00 {bad}"))), None);
        }
    }

    #[test]
    fn the_allowance_of_a_judgement_is_not_narrowed() {
        // each of these has many bits 0
        for allowance in ["08", "8001", "8002", "808001", "80808001", "8080808008"] {
            let case = format!("{H1_FILE} 00 01 00 00 {allowance} @");
            assert_answers(&case, &["judged live 3 3: 0 2 1"]);
        }
    }

    #[test]
    fn judgements_without_an_allowance() {
        let h1 = |asked: &str| format!("{H1_FILE} {asked} !\n");
        assert_answers(&h1("00 00 00 00"), &["told dead 1"]);
        assert_answers(&h1("01 00 00 00"), &["told dead 1"]);
        assert_answers(&h1("00 01 00 00"), &["told live"]);
        for (asked, number) in [
            ("02 01 01 00", 14),
            ("00 02 00 01", 14),
            ("00 ffffffff0f 00 00", 14),
            ("00 00 01 00", 11),
            ("00 00 8080808001 00", 11),
            ("00 00 00 01", 11),
            ("00 00 00 8002", 11),
        ] {
            assert_answers(&h1(asked), &[&format!("told refused {number}")]);
        }
        let h6 = "03 01 00 03  00 00 02  00 02 01  04 02 01 00  00 00 00 00 !";
        assert_answers(h6, &["told shunted"]);
        assert_answers("01! 0200!", &["refused 3 0", "refused 1 2"]);
    }

    #[test]
    fn judgements_of_either_winding_without_an_allowance() {
        // H5: buttons 0 on 0-2 and 1 on 0-3, windings 2-1 and 3-1
        let h5 = "04 01 02 04  03 00 02 00  03 00 03 01  05 02 01 00  06 03 01 00";
        let told = |asked: &str| answers(&format!("{h5} {asked} !")).unwrap();
        for which in ["01", "02", "80808008"] {
            assert_eq!(told(&format!("00 01 00 {which}")), "told dead 1\n");
            assert_eq!(told(&format!("00 02 00 {which}")), "told live\n");
        }
        assert_eq!(told("00 01 00 00"), "told live\n");
        assert_eq!(told("00 02 00 00"), "told dead 1\n");
    }

    #[test]
    fn checks_of_a_terminal() {
        let h1 = |asked: &str| format!("{H1_FILE} {asked} ?\n");
        assert_answers(&h1("00 00 00 00 00"), &["checked does not divide"]);
        assert_answers(&h1("00 00 00 00 01"), &["checked divides"]);
        assert_answers(&h1("00 00 00 00 02"), &["checked does not divide"]);
        assert_answers(&h1("00 01 00 00 01"), &["checked does not divide"]);
        for (asked, number) in [
            ("02 00 01 00 03", 14),
            ("00 02 00 01 03", 14),
            ("00 00 01 00 03", 11),
            ("00 00 00 01 03", 11),
            ("00 00 00 00 03", 19),
            ("00 01 00 00 40", 19),
            ("00 00 00 00 8102", 19),
            ("00 00 00 00 8180808001", 19),
            ("00 00 00 00 ffffffff0f", 19),
        ] {
            assert_answers(&h1(asked), &[&format!("checked refused {number}")]);
        }
        // H4 is shunted, and 0 and 2 divide it all the same
        let h4 = "05 01 00 04  00 00 02  00 02 03  00 04 02  04 03 04 00";
        for x in 0..5 {
            let line = match x {
                0 | 2 => "checked divides",
                _ => "checked does not divide",
            };
            assert_answers(&format!("{h4} 00 00 00 00 {x:02x} ?"), &[line]);
        }
        assert_answers("01? 0200?", &["refused 3 0", "refused 1 2"]);
    }

    #[test]
    fn judgements_with_the_highest_relay_and_button_drawn_and_pushed() {
        // 32 regular relays on 2-1, button 31 on 0-2
        let windings: String = (0..32)
            .map(|relay| format!(" 04 02 01 {relay:02x}"))
            .collect();
        let board = format!("03 20 20 21  03 00 02 1f {windings}");
        for (pushed, line) in [
            ("8080808008", "judged live 3 3: 0 2 1"),
            ("ffffffff0f", "judged live 3 3: 0 2 1"),
            ("ffffffff07", "judged dead 1"),
        ] {
            let case = format!("{board} ffffffff0f {pushed} 1f 00 64 @");
            assert_answers(&case, &[line]);
        }
    }

    #[test]
    fn moves_and_runs() {
        let text = format!("000000 000001 000000 {H1_HANDED} ^\n000000 000001 000001 {H1_HANDED}^");
        assert_answers(&text, &["moved drew 1 1", "moved refused 11 0 1"]);
        let run = |room: &str, board: &str| format!("000000 000000 {room} {board} =\n");
        let buzz = "ran buzz 2 0 0 255 0 2: 128 0";
        assert_answers(&run("000005", H3_HANDED), &[buzz]);
        assert_answers(&run("000002", H3_HANDED), &[buzz]);
        let spent = "ran spent 1 1 0 0 0 0: 128";
        assert_answers(&run("000001", H3_HANDED), &[spent]);
        assert_answers(&run("000000", H3_HANDED), &["ran spent 0 0 0 0 0 0:"]);
        assert_answers(&run("000002", H1_HANDED), &["ran idle 0 0 0 255 0 0:"]);
        let pushed = format!("000000 000001 000002 {H1_HANDED} =");
        assert_answers(&pushed, &["ran idle 1 1 1 255 0 0: 128"]);
        for board in [H1_HANDED, H3_HANDED] {
            let refused = "ran refused 13 0 0 0 255 0 0:";
            assert_answers(&run("010001", board), &[refused]);
        }
    }

    #[test]
    fn a_run_with_a_conflict_after_a_move() {
        // relay 0 on 0-1; both windings of relay 1 behind its upper contact
        let windings = "04 00 01 00  05 02 01 01  06 02 01 01";
        let board = format!("03 02 00 04 00  0000000000  01 00 02 00  {windings}");
        let case = format!("000000 000000 000005 {board} =");
        assert_answers(&case, &["ran conflict 1 1 0 1 0 0: 128"]);
    }

    #[test]
    fn runs_with_more_moves_than_are_shown() {
        // 21 relays, each fed by the upper contact of the next, and the last by
        // the lower contact of the first: they draw from the last down, then drop
        let fed = |relay| format!(" 01 00 {:02x} {:02x}", 2 + relay, relay + 1);
        let wound = |relay| format!(" 04 {:02x} 01 {relay:02x}", 2 + relay);
        let contacts: String = (0..20).map(fed).collect();
        let windings: String = (0..21).map(wound).collect();
        let board = format!("17 15 00 2a 00 0000000000 02 00 16 00 {contacts} {windings}");
        let run = |drawn: &str, room: &str| format!("{drawn} 000000 {room} {board} =");
        let moves = |bytes: &mut dyn Iterator<Item = u8>| -> String {
            bytes.map(|byte| format!(" {byte}")).collect()
        };
        let draws = moves(&mut (128..149).rev());
        let shown = draws.clone() + &moves(&mut (2..21).rev());
        let spent = format!("ran spent 41 1 0 0 0 0:{shown}");
        assert_answers(&run("000000", "000029"), &[&spent]);
        let buzz = format!("ran buzz 42 0 0 255 0 42:{shown}");
        assert_answers(&run("000000", "00002a"), &[&buzz]);
        assert_answers(&run("000000", "010000"), &[&buzz]);
        // relay 2 alone drawn: two moves lead in
        let shown = format!(" 129 128 2 1 0{draws}{}", moves(&mut (7..21).rev()));
        let spent = format!("ran spent 43 15 0 3 0 0:{shown}");
        assert_answers(&run("000004", "00002b"), &[&spent]);
        let buzz = format!("ran buzz 44 7 0 255 2 42:{shown}");
        assert_answers(&run("000004", "00002c"), &[&buzz]);
    }

    #[test]
    fn reports() {
        let report = |length: &str, board: &str| format!("000000 000000 {length} {board} %\n");
        let h1 = "reported 2 2 0 0 0 1 1 1";
        for length in ["000001", "000002", "010000"] {
            assert_answers(&report(length, H1_HANDED), &[h1]);
        }
        let spent = "reported 2 1 0 0 1 0 0 0";
        assert_answers(&report("000000", H1_HANDED), &[spent]);
        let buzz = "reported 1 0 1 0 0 2 2 0";
        for length in ["000002", "000005", "010000"] {
            assert_answers(&report(length, H3_HANDED), &[buzz]);
        }
        let spent = "reported 1 0 0 0 1 1 1 0";
        assert_answers(&report("000001", H3_HANDED), &[spent]);
        // two cases on one line
        let both = report("000001", H1_HANDED).replace('\n', " ") + &report("000005", H3_HANDED);
        assert_answers(&both, &[h1, buzz]);
    }

    #[test]
    fn the_state_before_a_report_is_not_looked_at() {
        for state in ["000001 000000", "000000 000001", "ffffff ffffff"] {
            let text = format!("{state} 000001 {H1_HANDED} %");
            assert_answers(&text, &["reported 2 2 0 0 0 1 1 1"]);
        }
    }

    #[test]
    fn reports_that_are_refused() {
        let of = |relays: &str, buttons: &str| {
            format!("03 {relays} {buttons} 02 00  0000000000  03 00 02 00  04 02 01 00")
        };
        for (length, board, number) in [
            ("000000", of("02", "01"), 15),
            ("010001", of("02", "0d"), 15),
            ("000000", of("01", "21"), 15),
            ("010001", of("01", "01"), 13),
            ("010001", of("01", "0d"), 13),
            ("ffffff", of("01", "20"), 13),
            ("000000", of("01", "0d"), 20),
            ("010000", of("01", "20"), 20),
        ] {
            let line = format!("reported refused {number} 0 0 0 0 0 0 0 0");
            assert_answers(&format!("000000 000000 {length} {board} %"), &[&line]);
        }
        assert_answers("%", &["reported refused 15 0 0 0 0 0 0 0 0"]);
        assert_answers(&format!("{ZERO} 02 %"), &["reported 1 1 0 0 0 0 0 0"]);
    }

    #[test]
    fn a_kind_above_7_stands_for_7_and_bytes_not_given_for_0() {
        let steel = format!("{ZERO} 03 01 00 02 00  0000000000  05 00 02 00  06 02 01 00 ^");
        assert_answers(&steel, &["moved conflict 0 0"]);
        for kind in ["07", "08", "ff"] {
            let marked = format!("{ZERO} 02 01 00 02 00  0100000000  04 00 01 00  {kind} ^");
            assert_answers(&marked, &["moved drew 1 0"]);
        }
        assert_answers(
            &format!("{ZERO} =^"),
            &["ran refused 15 0 0 0 255 0 0:", "moved refused 15 0 0"],
        );
        assert_answers(&format!("{ZERO} 02 ="), &["ran idle 0 0 0 255 0 0:"]);
        assert_answers(
            &format!("{ZERO} 02 00 00 01 01 ="),
            &["ran refused 15 0 0 0 255 0 0:"],
        );
    }

    #[test]
    fn boards_handed_in_with_a_start_and_marks() {
        // two relays on 0-1, a mark of relay 1 whose ends are beyond T, one of
        // relay 0 whose ends are equal, and another of relay 0
        let parts = "04 00 01 00  04 00 01 01  07 ff ff 01  07 01 01 00  07 00 01 00";
        let case = |count, start| format!("{ZERO} 02 02 00 {count} 00 {start} {parts} ^");
        for (count, start) in [
            ("02", "0000000000"),
            ("03", "0200000000"),
            ("04", "0300000000"),
        ] {
            assert_answers(&case(count, start), &["moved drew 1 0"]);
        }
        for (count, start) in [
            ("02", "0100000000"),
            ("02", "0300000000"),
            ("03", "0000000000"),
            ("03", "0100000000"),
            ("03", "0300000000"),
            ("04", "0000000000"),
            ("04", "0301000000"),
            ("04", "0300000001"),
            ("04", "0300000080"),
            ("05", "0200000000"),
            ("05", "0300000000"),
        ] {
            assert_answers(&case(count, start), &["moved refused 15 0 0"]);
        }
    }

    #[test]
    fn a_start_goes_to_the_highest_relay_and_does_not_change_the_state() {
        let windings: String = (0..32)
            .map(|relay| format!(" 04 00 01 {relay:02x}"))
            .collect();
        let board = |start: &str| format!("02 20 00 21 00 {start} {windings} 07 00 00 1f");
        let handed = format!("000001 000000 000000 {}", board("0000008000"));
        assert_answers(&format!("{handed} ^"), &["moved rests 1 0"]);
        assert_answers(&format!("{handed} ="), &["ran spent 0 1 0 1 0 0:"]);
        for start in ["0000000000", "8000000000", "0000000080", "0000000001"] {
            let text = format!("{ZERO} {} ^", board(start));
            assert_answers(&text, &["moved refused 15 0 0"]);
        }
    }

    #[test]
    fn judgements_of_marked_boards_are_those_without_the_mark() {
        let marked =
            |asked: &str| format!("03 01 01 03  03 00 02 00  07 00  04 02 01 00 {asked} @");
        assert_answers(&marked("00 00 00 00 64"), &["judged dead 1"]);
        assert_answers(&marked("00 01 00 00 03"), &["judged live 3 3: 0 2 1"]);
        assert_answers(&marked("01 01 00 00 02"), &["judged undecided 2"]);
        assert_answers(&marked("02 01 00 00 03"), &["judged refused 14"]);
        assert_answers("03 01 00 02  07 00  07 00 @", &["refused 17 7"]);
    }

    #[test]
    fn malformed_texts_have_no_answer() {
        assert_answers("", &[]);
        assert_answers(" \n", &[]);
        for text in [
            "0",
            "00",
            "0@",
            "0g@",
            "00;",
            "0%",
            &format!("{H1_FILE}@"),
            &format!("{H1_FILE} 00 00 00 00 @"),
            &format!("{H1_FILE} 00 00 00 00 00 00 @"),
            &format!("{H1_FILE}!"),
            &format!("{H1_FILE} 00 00 00 !"),
            &format!("{H1_FILE} 00 00 00 00 00 !"),
            &format!("{H1_FILE} 00 00 00 00 80 !"),
            &format!("{H1_FILE} 00 00 00 80 00 !"),
            &format!("{H1_FILE}?"),
            &format!("{H1_FILE} 00 00 00 00 ?"),
            &format!("{H1_FILE} 00 00 00 00 00 00 ?"),
            &format!("{H1_FILE} 00 00 00 00 80 00 ?"),
        ] {
            assert_eq!(answers(text), None);
        }
    }
}
