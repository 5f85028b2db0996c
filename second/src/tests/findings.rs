//! The findings: known texts and plays with the words written out by hand, and the findings of all
//! the cases held against their texts and against the rows of the tables.

use crate::findings::rows::Met;
use crate::findings::{of_play, of_sheet};
use crate::play::play;
use crate::plays;
use crate::plays::list::Play;
use crate::sheet::sheet;
use crate::sheets;
use crate::sheets::texts::apart;

/// A text, and what is said of it: the number, the line and the column, the words.
type Known<'a> = (u8, &'a str, (usize, usize), &'a str);

/// The line that is said.
fn said(&(number, _, (line, column), words): &Known) -> Option<String> {
    Some(format!("refused {number}: line {line}, column {column}: {words}\n"))
}

/// Holds the findings of sheet texts against what is known.
fn check_sheets(known: &[Known]) {
    for known in known {
        let text = known.1;
        assert_eq!(of_sheet(text.as_bytes()), said(known), "{text:.60}");
    }
}

/// Holds the findings of setups against what is known, whatever the trace is.
fn check_setups(known: &[Known]) {
    for known in known {
        let setup = known.1;
        for trace in [&[0, 11, 1][..], &[0], &[0; 65_537]] {
            assert_eq!(of_play(setup.as_bytes(), trace), said(known), "{setup:.60}");
        }
    }
}

/// Texts with a wrong byte, its place and what it is called, alone and as setups.
fn check_bytes(known: &[(&[u8], &str, &str)]) {
    for (text, place, what) in known {
        let expected =
            format!("refused 1: {place}: {what}, which isn't a digit, a space or a line feed\n");
        assert_eq!(of_sheet(text), Some(expected.clone()), "{}", text.escape_ascii());
        assert_eq!(of_play(text, &[]), Some(expected), "{}", text.escape_ascii());
    }
}

/// The text with as many spaces at its end as give it this length.
fn filled(text: &str, length: usize) -> String {
    apart(text, " ", "", length)
}

// ---- reason 1 ----

#[test]
fn longest_texts() {
    let over = "byte 65537 of the text, which may have 65536";
    let few = "the text ends here with 2 numbers, and needs 3 or more";
    let six = "a number of 6 digits, which may have 5";
    check_sheets(&[
        (1, &filled("2 1 0", 65_537), (1, 65_537), over),
        (1, &filled("2\t1", 99_999), (1, 65_537), over),
        (1, &filled("2 1 0\n\n0\n0", 65_537), (4, 65_528), over),
        (1, &apart("2 1 0", " ", "\n0", 65_537), (2, 1), over),
        (1, &apart("2 1 0\n", " ", "\n", 65_537), (2, 65_531), over),
        (1, &apart("", "\n", "", 65_540), (65_537, 1), over),
        (1, &filled("2 1", 65_536), (1, 65_537), few),
        (1, &apart("2 1 0", " ", "000000", 65_536), (1, 65_531), six),
        (1, &apart("2 1 0", " ", "000000", 65_539), (1, 65_537), over),
    ]);
    check_setups(&[
        (1, &filled("2 2 0 0 0 0", 65_537), (1, 65_537), over),
        (1, &apart("2 2", " ", "0000000", 65_538), (1, 65_537), over),
        (1, &filled("2\n2\n0x\n", 65_540), (4, 65_530), over),
    ]);
}

#[test]
fn the_example() {
    let text = b"2 1 0\n0 0 0,0\n";
    let words = "refused 1: line 2, column 6: \
                 a comma, which isn't a digit, a space or a line feed\n";
    assert_eq!(of_sheet(text).as_deref(), Some(words));
    assert_eq!(of_sheet(b"2 1 0\n0 0 0 0\n"), None);
}

#[test]
fn wrong_bytes() {
    check_bytes(&[
        (b"\xef\xbb\xbf2 1 0", "line 1, column 1", "a byte-order mark"),
        (b"2 1 0\n \xef\xbb\xbf", "line 2, column 2", "a byte-order mark"),
        (b"\xff\xfe2\0 \x001\0", "line 1, column 1", "a byte-order mark of UTF-16"),
        (b"2 1\n\n\n\xfe\xff", "line 4, column 1", "a byte-order mark of UTF-16"),
        (b"2 1 0\r\n0\r\n", "line 1, column 6", "a carriage return"),
        (b"2 1 0\n0\n\n0  \r", "line 4, column 4", "a carriage return"),
        (b"2\t1\t0", "line 1, column 2", "a tab"),
        (b"\n\n  \t", "line 3, column 3", "a tab"),
        (b",", "line 1, column 1", "a comma"),
        (b"2 1 0\n0 0 0,0\n", "line 2, column 6", "a comma"),
        (b"2 1 -0", "line 1, column 5", "the character '-'"),
        (b"2 1 0 \n!", "line 2, column 1", "the character '!'"),
        (b"2 1 0 0 ~\n", "line 1, column 9", "the character '~'"),
        (b"2 1 0'\n", "line 1, column 6", "the character '''"),
        (b"2 1 0 :", "line 1, column 7", "the character ':'"),
        (b"2 1 0 N", "line 1, column 7", "the character 'N'"),
        (b"2 1 0\0", "line 1, column 6", "the byte 0"),
        (b"2 1 0\n\n\x0b", "line 3, column 1", "the byte 11"),
        (b"2 1 0\x1f", "line 1, column 6", "the byte 31"),
        (b"2 1 0\x7f", "line 1, column 6", "the byte 127"),
        (b"2 1 0\n\x80", "line 2, column 1", "the byte 128"),
    ]);
}

/// What is almost a mark is a byte, and the first of several wrong bytes is given.
#[test]
fn marks_and_several_bytes() {
    check_bytes(&[
        (b"\xef\xbb", "line 1, column 1", "the byte 239"),
        (b"\xef", "line 1, column 1", "the byte 239"),
        (b"2 1 0\n\xef\xbb", "line 2, column 1", "the byte 239"),
        (b"\xef\xbb\xbe2 1 0", "line 1, column 1", "the byte 239"),
        (b"\xbb\xbf2 1 0", "line 1, column 1", "the byte 187"),
        (b"\xff", "line 1, column 1", "the byte 255"),
        (b"2 1 0 \xfe", "line 1, column 7", "the byte 254"),
        (b"\xff\xff\xfe", "line 1, column 1", "the byte 255"),
        (b"\xff2\xfe", "line 1, column 1", "the byte 255"),
        (b"\xff\xfe\0\0", "line 1, column 1", "a byte-order mark of UTF-16"),
        (b"2\0 \x001\0", "line 1, column 2", "the byte 0"),
        (b"\xff\xfe\xef\xbb\xbf", "line 1, column 1", "a byte-order mark of UTF-16"),
        (b"2 1 0\r,", "line 1, column 6", "a carriage return"),
        (b"2 1 0,\r", "line 1, column 6", "a comma"),
        (b"2 1\t0 000000", "line 1, column 4", "a tab"),
        (b"000000 2 1\t0", "line 1, column 11", "a tab"),
        (b"000000\n\n2\n1\t0", "line 4, column 2", "a tab"),
        (b"9 9 x", "line 1, column 5", "the character 'x'"),
    ]);
}

#[test]
fn numbers_of_a_sheet() {
    check_sheets(&[
        (1, "", (1, 1), "the text ends here with 0 numbers, and needs 3 or more"),
        (1, "\n", (2, 1), "the text ends here with 0 numbers, and needs 3 or more"),
        (1, "2 ", (1, 3), "the text ends here with 1 numbers, and needs 3 or more"),
        (1, "1 2\n", (2, 1), "the text ends here with 2 numbers, and needs 3 or more"),
        (1, "1\n2", (2, 2), "the text ends here with 2 numbers, and needs 3 or more"),
        (1, "1 2\n\n  ", (3, 3), "the text ends here with 2 numbers, and needs 3 or more"),
        (1, "000002 1 0", (1, 1), "a number of 6 digits, which may have 5"),
        (1, "2 1 0\n\n 0 1234567 000000", (3, 4), "a number of 7 digits, which may have 5"),
        (1, "2 1 0\n000000\n1234567\n", (2, 1), "a number of 6 digits, which may have 5"),
        (1, "2   99999999999999999999999", (1, 5), "a number of 23 digits, which may have 5"),
    ]);
}

#[test]
fn numbers_of_a_setup() {
    check_setups(&[
        (1, "", (1, 1), "the text ends here with 0 numbers, and needs 6 or more"),
        (1, "2 2 0", (1, 6), "the text ends here with 3 numbers, and needs 6 or more"),
        (1, "2 2\n0 9999 9999\n", (3, 1), "the text ends here with 5 numbers, and needs 6 or more"),
        (1, "2 2 0\n0 0 000000 0", (2, 5), "a number of 6 digits, which may have 5"),
        (1, "2 2 0 0 0 2", (1, 12), "the text ends here with 6 numbers, and its lengths say 8"),
        (
            1,
            "3 2 0 02 3 4\n0\n",
            (3, 1),
            "the text ends here with 7 numbers, and its lengths say 15",
        ),
        (
            1,
            "2 2 0 9 99999 0",
            (1, 16),
            "the text ends here with 6 numbers, and its lengths say 100014",
        ),
        (1, "2 2 0 0 0 0 7", (1, 13), "number 7 of the text, and its lengths say 6"),
        (1, "3 2 0 2 0 1\n0 0\n1\n\n  8 9", (5, 3), "number 10 of the text, and its lengths say 9"),
        (1, "9 0 9 0 0 1\n0 9", (2, 3), "number 8 of the text, and its lengths say 7"),
    ]);
}

// ---- the other reasons ----

#[test]
fn other_reasons_of_a_sheet() {
    check_sheets(&[
        (2, "5 2 0", (1, 1), "the kind is 5, and must be 0 to 4"),
        (2, "\n  00099 0 9", (2, 3), "the kind is 99, and must be 0 to 4"),
        (3, "2 00000 0", (1, 3), "N is 0, and must be 1 to 64"),
        (3, "3\n00065\n0\n1", (2, 1), "N is 65, and must be 1 to 64"),
        (4, "0 2 2", (1, 5), "R is 2, and must be 3 to 255 for kind 0"),
        (4, "000 2\n00256", (2, 1), "R is 256, and must be 3 to 255 for kind 0"),
        (4, "2 2 3", (1, 5), "R is 3, and must be 0 for kind 2"),
        (4, "004\n2\n  001", (3, 3), "R is 1, and must be 0 for kind 4"),
        (5, "3 2 0", (1, 6), "the text ends here with 0 parents, and must have 2"),
        (5, "3 2 0 9\n", (2, 1), "the text ends here with 1 parents, and must have 2"),
        (5, "3 003 0\n1\n\n0 ", (4, 3), "the text ends here with 2 parents, and must have 3"),
        (6, "3 2 0 1 1", (1, 7), "the parent of task 0 is 1, and must be 0"),
        (6, "3 1 0\n 00256", (2, 2), "the parent of task 0 is 256, and must be 0"),
        (6, "3 2 0 0 1 9", (1, 9), "the parent of task 1 is 1, and must be below 1"),
        (6, "3 4 0\n0 0\n00099 3", (3, 1), "the parent of task 2 is 99, and must be below 2"),
        (9, "1 2 0 0 0 0 1 2", (1, 15), "turn 4 is 2, and must be below 2"),
        (9, "3 2 0 0\n0\n\n 099 2", (4, 2), "turn 0 is 99, and must be below 2"),
        (9, "4 064 0\n63\n64\n99999", (3, 1), "turn 1 is 64, and must be below 64"),
        (9, "0 1 3 0 0 99999", (1, 11), "turn 2 is 99999, and must be below 1"),
    ]);
}

#[test]
fn heads_of_a_setup() {
    check_setups(&[
        (2, "5 0 1 0 0 0", (1, 1), "the kind is 5, and must be 0 to 4"),
        (2, "\n\n 05 0 1 0 0 0", (3, 2), "the kind is 5, and must be 0 to 4"),
        (3, "2 65 1 0 0 0", (1, 3), "N is 65, and must be 1 to 64"),
        (3, "2\n\n00\n1 0 0 0", (3, 1), "N is 0, and must be 1 to 64"),
        (4, "0 2 00256 0 0 0", (1, 5), "R is 256, and must be 3 to 255 for kind 0"),
        (4, "0 2\n0 1 0 0 0", (2, 1), "R is 0, and must be 3 to 255 for kind 0"),
        (4, "3 2 1 0 0 0", (1, 5), "R is 1, and must be 0 for kind 3"),
        (4, "01\n2\n3 0 0 0", (3, 1), "R is 3, and must be 0 for kind 1"),
        (5, "3 3 0 2 0 0 9 9", (1, 7), "NP is 2, and must be 3 for kind 3"),
        (5, "3 002 0\n003 0 0\n0 0 0", (2, 1), "NP is 3, and must be 2 for kind 3"),
        (5, "0 2 3 1 1 0 0 9", (1, 7), "NP is 1, and must be 0 for kind 0"),
        (5, "04 2 0\n  02 0 0 0 0", (2, 3), "NP is 2, and must be 0 for kind 4"),
        (12, "2 2 0 0 2 0 9 9", (1, 9), "NS is 2, and must be 0 for kind 2"),
        (12, "03 1 0 1\n\n01 0 0 0", (3, 1), "NS is 1, and must be 0 for kind 3"),
        (12, "0 3 3 0 2 0 9 9", (1, 9), "NS is 2, and must be 0 or 3"),
        (12, "0 02 3\n0   03 1 0 0 0 0", (2, 5), "NS is 3, and must be 0 or 2"),
        (15, "2 3 0 0 0 2 0 0", (1, 11), "NW is 2, and must be 0 or 3"),
        (15, "2 01 0\n\n0 0 02 0 0", (3, 5), "NW is 2, and must be 0 or 1"),
    ]);
}

#[test]
fn tables_of_a_setup() {
    check_setups(&[
        (6, "3 2 0 2 0 0 1 1", (1, 13), "the parent of task 0 is 1, and must be 0"),
        (6, "3 1 0 1 0 0\n\n 0256", (3, 2), "the parent of task 0 is 256, and must be 0"),
        (6, "3 3 0 3 0 0 0 0 2", (1, 17), "the parent of task 2 is 2, and must be below 2"),
        (6, "3 3 0 3 0 0\n0\n099\n9", (3, 1), "the parent of task 1 is 99, and must be below 1"),
        (12, "0 2 3 0 2 0 1 2", (1, 15), "the start of task 1 is 2, and must be below 2"),
        (12, "0 03 3 0 3 0\n099 3 4", (2, 1), "the start of task 0 is 99, and must be below 3"),
        (15, "2 2 0 0 0 2 1 0", (1, 15), "the work length of task 1 is 0, and must be 1 to 255"),
        (15, "2 1 0 0 0 1\n0256", (2, 1), "the work length of task 0 is 256, and must be 1 to 255"),
        (
            15,
            "3 1 0 1 0 1\n0\n 300",
            (3, 2),
            "the work length of task 0 is 300, and must be 1 to 255",
        ),
        (
            15,
            "0 2 3 0 2 2\n1 0\n00 0",
            (3, 1),
            "the work length of task 0 is 0, and must be 1 to 255",
        ),
    ]);
}

#[test]
fn traces() {
    let long = vec![0; 100_000];
    for (length, expected) in [
        (1, "refused 14: the trace has 1 bytes, which is no multiple of 3\n"),
        (5, "refused 14: the trace has 5 bytes, which is no multiple of 3\n"),
        (65_536, "refused 14: the trace has 65536 bytes, which is no multiple of 3\n"),
        (65_537, "refused 8: the trace has more than 65536 bytes\n"),
        (65_538, "refused 8: the trace has more than 65536 bytes\n"),
        (100_000, "refused 8: the trace has more than 65536 bytes\n"),
    ] {
        assert_eq!(of_play(b"2 2 0\n0 0 0\n", &long[..length]).as_deref(), Some(expected));
    }
    assert_eq!(of_play(b"2 2 0 0 0 0", &[0, 11, 1]), None);
    assert_eq!(of_play(b"2 2 0 0 0 0", &[0, 11, 0]), None);
}

// ---- the cases that are written ----

/// The texts of all cases with their answers and findings: sheets, then setups.
fn all_found() -> Vec<(Vec<u8>, String, Option<String>)> {
    let (texts, plays) = (sheets::all(), plays::all());
    let sheets = texts.list().iter();
    let sheets = sheets.map(|(_, text)| (text.clone(), sheet(text), of_sheet(text)));
    let plays = plays.list().iter().map(|Play { setup, trace, .. }| {
        (setup.clone(), play(setup, trace), of_play(setup, trace))
    });
    sheets.chain(plays).collect()
}

/// A finding is there exactly where the answer is a refusal. It has its number, and is one line.
#[test]
fn findings_are_of_the_refusals() {
    for (_, answer, finding) in all_found() {
        let number =
            answer.strip_prefix("refused ").and_then(|rest| rest.split([' ', '\n']).next());
        assert_eq!(number.is_some(), finding.is_some(), "{answer}");
        if let (Some(number), Some(finding)) = (number, finding) {
            assert!(finding.starts_with(&format!("refused {number}: ")), "{answer} {finding}");
            assert!(finding.ends_with('\n') && finding.lines().count() == 1, "{finding}");
        }
    }
}

/// What stands in a text from the place on that a finding tells, by cutting off whole lines.
fn at_place<'a>(text: &'a [u8], finding: &str) -> Option<&'a [u8]> {
    let place = finding.split_once(": line ")?.1.split_once(": ")?.0;
    let (line, column) = place.split_once(", column ")?;
    let (line, column): (usize, usize) = (line.parse().ok()?, column.parse().ok()?);
    let mut rest = text;
    for _ in 1..line {
        rest = &rest[rest.iter().position(|&byte| byte == b'\n')? + 1..];
    }
    rest.get(column - 1..)
}

/// The number that a text begins with, without needless zeros.
fn number_at(text: &[u8]) -> Option<u64> {
    let digits = text.iter().take_while(|byte| byte.is_ascii_digit()).copied().collect();
    String::from_utf8(digits).ok()?.parse().ok()
}

/// Where a finding says what a number is, that number stands at its place; and where it says that
/// the text ends, nothing does.
#[test]
fn places_are_those_of_the_texts() {
    let (mut values, mut ends) = (0, 0);
    for (text, _, finding) in all_found() {
        let finding = finding.unwrap_or_default();
        let Some(rest) = at_place(&text, &finding) else {
            continue;
        };
        if let Some((_, value)) = finding.split_once(" is ") {
            let value = value.split(',').next().and_then(|value| value.parse().ok());
            assert!(value.is_some() && number_at(rest) == value, "{finding}");
            values += 1;
        }
        if finding.contains("the text ends here") {
            assert!(rest.is_empty(), "{finding}");
            ends += 1;
        }
    }
    assert!(values > 300 && ends > 50, "{values} {ends}");
}

// ---- the rows ----

#[test]
fn every_row_is_met() {
    assert_eq!(sheets::met(&sheets::all()).check(), Ok(()));
    assert_eq!(plays::met(&plays::all()).check(), Ok(()));
}

/// The check of the rows where findings with these words are left out, but for one, so many times.
fn check_without(findings: &[String], words: &str, times: usize) -> Result<(), String> {
    let (own, others): (Vec<_>, Vec<_>) =
        findings.iter().partition(|finding| finding.contains(words));
    let mut met = Met::sheets();
    for finding in others.into_iter().chain(own.into_iter().take(1).cycle().take(times)) {
        met.take(finding);
    }
    met.check()
}

#[test]
fn a_missing_row_is_told() {
    let texts = sheets::all();
    let findings: Vec<String> =
        texts.list().iter().filter_map(|(_, text)| of_sheet(text)).collect();
    for (words, row) in [
        (" a comma", "1: a comma, which isn't a digit, a space or a line feed"),
        (" the byte ", "1: the byte #, which isn't a digit, a space or a line feed"),
        (" digits", "1: a number of # digits, which may have 5"),
        (" for kind 0", "4: R is #, and must be 3 to 255 for kind 0"),
        (" turn ", "9: turn # is #, and must be below #"),
    ] {
        for (times, places) in [(0, 0), (1, 1), (2, 1)] {
            let told = format!("'{row}' is met {times} times, at {places} places");
            assert_eq!(check_without(&findings, words, times), Err(told));
        }
    }
    assert_eq!(check_without(&findings, "no such words", 0), Ok(()));
}

/// A line that isn't of one row is told: other words, another number, a needless zero, a play's.
#[test]
fn other_findings_are_told() {
    for finding in [
        "refused 2: line 1, column 1: the kind is 5, and must be 0 to 3\n",
        "refused 3: line 1, column 1: the kind is 5, and must be 0 to 4\n",
        "refused 2: line 1, column 1: the kind is 05, and must be 0 to 4\n",
        "refused 2: line 1, column 01: the kind is 5, and must be 0 to 4\n",
        "refused 2: line 1: the kind is 5, and must be 0 to 4\n",
        "refused 2: the kind is 5, and must be 0 to 4\n",
        "refused 2: line 1, column 1: the kind is 5, and must be 0 to 4",
        "refused 2: line 1, column 1: the kind is 5, and must be 0 to 4.\n",
        "refused 9 place 4: line 1, column 15: turn 4 is 2, and must be below 2\n",
        "refused 15: line 1, column 11: NW is 2, and must be 0 or 3\n",
        "refused 8: the trace has more than 65536 bytes\n",
        "\n",
    ] {
        let mut met = Met::sheets();
        met.take(finding);
        assert!(met.check().is_err_and(|told| told.ends_with("isn't of one row")), "{finding}");
    }
    let mut met = Met::plays();
    met.take("refused 9: line 1, column 15: turn 4 is 2, and must be below 2\n");
    assert!(met.check().is_err_and(|told| told.ends_with("isn't of one row")));
}
