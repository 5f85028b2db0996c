//! The texts of the sheet and of the replay.

use crate::cases::malformed::first_pass_line;
use crate::lines::{self, MAX_LINE};
use crate::requests::Replay;
use crate::sheet::sheet;

#[test]
fn sheet_of_the_scope() {
    let expected = "task line count moves waits\n0 11 1 4 1\n1 11 1 5 0\npasses 2 least 1\n";
    assert_eq!(sheet(b"1 2 0 0 0 0 0 1 1 1 1 1 0"), expected);
    assert_eq!(sheet(b"\n 1\n\n2  0 0 0 0 00 1 1 1 1 1 00000\n"), expected);
    assert_eq!(sheet(b"4 2 0 0 0 0 0 1 1 1 1 1 0"), expected);
}

#[test]
fn refused_sheets() {
    for (text, expected) in [
        ("", "refused 1\n"),
        ("1 2", "refused 1\n"),
        ("1 2 0\t0", "refused 1\n"),
        ("1 2 0\r\n", "refused 1\n"),
        ("1 2 000000", "refused 1\n"),
        ("1 2 0 100000", "refused 1\n"),
        ("5 0 0", "refused 2\n"),
        ("5 1 0", "refused 2\n"),
        ("4 0 0", "refused 3\n"),
        ("4 2 3", "refused 4\n"),
        ("4 2 0 0 0 0 2", "refused 9 place 3\n"),
        ("1 0 0", "refused 3\n"),
        ("3 65 0 0", "refused 3\n"),
        ("0 1 2", "refused 4\n"),
        ("0 1 256", "refused 4\n"),
        ("3 2 0 0", "refused 5\n"),
        ("3 2 0 999", "refused 5\n"),
        ("3 2 0 0 256", "refused 6\n"),
        ("3 2 0 256 0", "refused 6\n"),
        ("3 2 0 0 1 9", "refused 6\n"),
        ("3 2 0 0 0 1 2", "refused 9 place 1\n"),
        ("1 2 0 0 0 0 1 2 3", "refused 9 place 4\n"),
        ("1 2 0 0 256", "refused 9 place 1\n"),
        ("1 2 0 99999", "refused 9 place 0\n"),
    ] {
        assert_eq!(sheet(text.as_bytes()), expected, "{text}");
    }
}

#[test]
fn empty_sheets() {
    let expected = "task line count moves waits\n0 11 0 0 0\npasses 0 least 0\n";
    assert_eq!(sheet(b"3 1 0 0"), expected);
    assert_eq!(sheet(b"2 1 0"), expected);
}

#[test]
fn longest_sheet() {
    let mut text = b"2 1 0".to_vec();
    text.resize(65_536, b' ');
    assert!(sheet(&text).starts_with("task"));
    text.push(b' ');
    assert_eq!(sheet(&text), "refused 1\n");
}

/// Answers the requests one after another.
fn check_replay(cases: &[(&str, &str)]) {
    let mut replay = Replay::default();
    for (request, expected) in cases {
        assert_eq!(replay.answer(request.as_bytes()), *expected, "{request}");
    }
}

/// Shows two tasks whose work takes one move each.
fn one_move_each(fields: &mut [&str]) {
    for place in [81, 82, 96, 97] {
        fields[place] = "1";
    }
}

#[test]
fn requests_of_a_state() {
    let zeros = vec!["0"; 5 + 64 + 64 * 15].join(" ");
    let mut fields = vec!["0"; 5 + 64 + 64 * 15];
    for (place, value) in [(0, "1"), (1, "2"), (4, "1"), (69, "12"), (79, "1"), (84, "11")] {
        fields[place] = value;
    }
    one_move_each(&mut fields);
    let counts = format!("0 1 {}", vec!["0"; 127].join(" "));
    let none = vec!["0"; 129].join(" ");
    check_replay(&[
        ("5", &zeros),
        ("2 0", "refused 7"),
        ("3", "refused 7"),
        ("1 1 2 3", "refused 4"),
        ("5", &zeros),
        ("1 1 2 0", "0"),
        ("4 1 4 0 1", &format!("spent 1 {counts} 11 1 255 255")),
        ("5", &fields.join(" ")),
        ("4 2 3 0 1", &format!("refused 10 0 {none} 255 255 255")),
        ("4 2 1 0 2", &format!("refused 9 place 1 0 {none} 255")),
        ("2 2", "refused 9"),
        ("3", "task 0"),
        ("6 12 0 2", "ok"),
        ("2 0", "1 0"),
        ("2 0", "refused 7"),
        ("3", "task 1"),
        ("4 9 2 0", &format!("stopped 7 0 {none} 255 255")),
        ("4 0 0", &format!("done 0 {none}")),
    ]);
}

/// A ring of two: task 1's third turn closes a round, and edited counts move it to task 0's.
#[test]
fn requests_of_rounds() {
    let zeros = |length: usize| vec!["0"; length].join(" ");
    let log = "11 1 12 1 13 1 11 1 12 1 13 1 14 0";
    let again = "14 1 15 1 14 1 15 1 11 1 12 1";
    check_replay(&[
        ("1 2 2 0", "0"),
        ("4 7 14 0 0 0 1 1 1 1", &format!("done 7 1 3 3 {} 1 {} {log}", zeros(63), zeros(62))),
        ("6 1 1 3", "ok"),
        ("4 6 12 0 0 1 1 0 0", &format!("done 6 0 4 2 {} {again}", zeros(126))),
        ("2 0", "1 1"),
        ("2 0", "0"),
        ("2 1", "1 0"),
        ("2 2", "refused 9"),
        ("4 1 1 0", &format!("refused 10 {} 255", zeros(130))),
    ]);
}

#[test]
fn requests_of_starts() {
    let zeros = vec!["0"; 5 + 64 + 64 * 15].join(" ");
    let mut fields = vec!["0"; 5 + 64 + 64 * 15];
    for (place, value) in [(0, "0"), (1, "2"), (2, "3"), (69, "11"), (78, "1"), (84, "11")] {
        fields[place] = value;
    }
    one_move_each(&mut fields);
    check_replay(&[
        ("10 0 2 3 0 2 0 1 0", "0"),
        ("5", &fields.join(" ")),
        ("6 15 0 2", "ok"),
        ("3", "refused 7"),
        ("6 15 0 1", "ok"),
        ("3", "task 0"),
        ("6 15 2 1", "ok"),
        ("2 0", "refused 7"),
        ("10 0 2 3 0 2 0 1 2", "refused 12"),
        ("5", &zeros),
        ("10 0 2 3 0 1 0 1", "refused 12"),
        ("10 3 2 0 2 1 0 0 0 0", "refused 12"),
        ("10 3 2 0 2 0 0 0 0", "0"),
        ("10 3 2 0 2 2 0 0 1 0 0", "refused 6"),
        ("10 5 0 2 1 1 0 9 9", "refused 2"),
        ("10 4 0 2 1 1 0 9 9", "refused 3"),
        ("10 0 2 3 0 0 0", "0"),
    ]);
}

/// A ring of two whose task 1 waits at 12: its tallies, the run's own numbers, and 13.
#[test]
fn requests_of_tallies() {
    let zeros = |length: usize| vec!["0"; length].join(" ");
    let mut fields = vec!["0"; 5 + 64 + 64 * 15];
    for (place, value) in [(0, "2"), (1, "2"), (69, "11"), (84, "12"), (94, "1")] {
        fields[place] = value;
    }
    fields[95] = "4000000000";
    one_move_each(&mut fields);
    let stopped = format!("stopped 13 1 {} 1 {} 12 0 255 255", zeros(66), zeros(62));
    check_replay(&[
        ("1 2 2 0", "0"),
        ("2 1", "1 0"),
        ("2 1", "0"),
        ("6 17 1 3999999999", "ok"),
        ("4 2 4 1 1", &stopped),
        ("5", &fields.join(" ")),
        ("2 1", "refused 13"),
        ("3", "task 0"),
        ("6 16 0 4000000000", "ok"),
        ("3", "none"),
        ("2 0", "refused 13"),
        ("6 16 0 4000000001", "ok"),
        ("2 0", "refused 7"),
        ("6 16 0 4294967295", "ok"),
        ("3", "refused 7"),
        ("6 16 0 4294967296", "bad line"),
        ("6 16 0 3999999999", "ok"),
        ("2 0", "1 0"),
        ("2 0", "refused 13"),
        ("6 17 2 1", "ok"),
        ("2 0", "refused 7"),
    ]);
}

/// A ring of two whose task 1 waits at 12: what a play-back keeps, and what it doesn't.
#[test]
fn requests_of_play_backs() {
    let zeros = vec!["0"; 5 + 64 + 64 * 15].join(" ");
    let mut fields = vec!["0"; 5 + 64 + 64 * 15];
    for (place, value) in [(0, "2"), (1, "2"), (69, "11"), (84, "12"), (94, "1"), (95, "1")] {
        fields[place] = value;
    }
    one_move_each(&mut fields);
    let fields = fields.join(" ");
    check_replay(&[
        ("11 2 2 0 0 0 0 1 11 1 1 12 0", "agrees"),
        ("5", &fields),
        ("11 2 2 0 0 0 0 1 11 1 1 12 0 1 12 1 0 11 1", "differs 2"),
        ("5", &fields),
        ("11 2 2 0 0 0 0 1 11 1 1 12 0 2 12 1", "differs 2"),
        ("11 2 2 0 0 0 0 1 11 1 1 12 0 1 12 2", "differs 2"),
        ("5", &fields),
        ("2 0", "1 0"),
        ("11 2 2 0 0 0 0 1 11", "refused 14"),
        ("5", &zeros),
        ("11 2 2 0 0 0 0", "agrees"),
        ("3", "task 0"),
        ("11 2 2 3 0 0 0", "refused 4"),
        ("5", &zeros),
        ("11 0 2 3 0 2 0 1 0 0 11 1 0 12 1 0 13 1 0 14 0", "agrees"),
        ("11 0 2 3 0 2 0 0 0 0 11 1 0 12 1 0 13 1 0 14 0", "differs 3"),
        ("11 0 2 3 0 2 0 0 2 0 11 1", "refused 12"),
        ("11 3 2 0 2 0 0 0 0 0 11 1 0 12 1 0 13 1 0 14 0", "agrees"),
        ("11 3 2 0 2 0 0 0 1 0 11", "refused 6"),
        ("11 2 2 0 0 0 0 1 11 1 1 12 0", "agrees"),
        ("11 2 2 0 0 0 2 1", "bad line"),
        ("5", &fields),
        ("11 2 2 0 0 0 2 1 11", "agrees"),
        ("11 2 2 0 0 0 1 1 1 11 1", "refused 15"),
        ("5", &zeros),
    ]);
}

/// A ring of two whose work takes three moves and one: what is left, and where that is refused.
#[test]
fn requests_of_works() {
    let zeros = vec!["0"; 5 + 64 + 64 * 15].join(" ");
    let mut fields = vec!["0"; 5 + 64 + 64 * 15];
    for (place, value) in [(0, "2"), (1, "2"), (69, "11"), (79, "1"), (81, "3"), (82, "2")] {
        fields[place] = value;
    }
    for (place, value) in [(84, "12"), (94, "1"), (96, "1"), (97, "1")] {
        fields[place] = value;
    }
    let run = format!("done 3 0 3 {} 11 1 11 1 12 1", vec!["0"; 127].join(" "));
    check_replay(&[
        ("10 2 2 0 0 0 2 3 1", "0"),
        ("2 0", "1 0"),
        ("2 1", "1 0"),
        ("5", &fields.join(" ")),
        ("4 3 6 0 0 0", &run),
        ("6 19 0 0", "ok"),
        ("3", "refused 7"),
        ("6 19 0 4", "ok"),
        ("2 0", "refused 7"),
        ("6 19 0 1", "ok"),
        ("3", "task 0"),
        ("6 18 0 0", "ok"),
        ("3", "refused 7"),
        ("6 18 0 255", "ok"),
        ("6 18 0 256", "bad line"),
        ("6 19 0 256", "bad line"),
        ("2 0", "1 0"),
        ("6 18 2 1", "ok"),
        ("3", "refused 7"),
        ("10 2 2 0 0 0 2 0 1", "refused 15"),
        ("5", &zeros),
        ("10 2 2 0 0 0 1 1", "refused 15"),
        ("10 2 2 0 0 2 2 0 0 0 1", "refused 12"),
        ("11 2 2 0 0 0 2 3 1 0 11 1 0 11 1 0 11 1 0 12 1", "agrees"),
        ("11 2 2 0 0 0 2 3 1 0 11 1 0 11 1 0 12 1", "differs 2"),
        ("11 2 2 0 0 0 2 3 1 0 11 1 0 11 1 0 11 1 0 11 1", "differs 3"),
        ("11 2 2 0 0 0 2 3 0 0 11", "refused 15"),
    ]);
}

/// Two tasks of kind 4: own senses, arrivals that fall, and where both are refused.
#[test]
fn requests_of_own_senses() {
    let mut fields = vec!["0"; 5 + 64 + 64 * 15];
    for (place, value) in [(0, "4"), (1, "2"), (69, "16"), (79, "3"), (84, "11")] {
        fields[place] = value;
    }
    for place in [3, 4, 70, 80, 98] {
        fields[place] = "1";
    }
    one_move_each(&mut fields);
    let run = format!("done 4 0 3 {} 1 {}", vec!["0"; 63].join(" "), vec!["0"; 63].join(" "));
    check_replay(&[
        ("1 4 2 0", "0"),
        ("4 4 8 0 0 0 0", &format!("{run} 11 1 12 1 13 1 16 0")),
        ("5", &fields.join(" ")),
        ("6 20 0 1", "ok"),
        ("2 0", "1 0"),
        ("6 20 0 2", "ok"),
        ("3", "refused 7"),
        ("6 20 0 256", "bad line"),
        ("6 20 0 0", "ok"),
        ("6 20 2 1", "ok"),
        ("2 0", "refused 7"),
        ("6 20 2 0", "ok"),
        ("6 6 0 1", "ok"),
        ("2 0", "refused 7"),
        ("6 6 0 0", "ok"),
        ("2 1", "1 0"),
        ("2 1", "1 0"),
        ("6 12 0 0", "ok"),
        ("2 1", "refused 7"),
        ("3", "task 0"),
        ("6 12 0 3", "ok"),
        ("2 0", "refused 7"),
        ("6 12 0 1", "ok"),
        ("2 1", "1 1"),
        ("1 5 2 0", "refused 2"),
        ("11 4 2 0 0 0 2 2 1 0 11 1 0 11 1 0 12 1", "agrees"),
        ("11 5 2 0 0 0 0", "refused 2"),
    ]);
}

#[test]
fn requests_of_the_other_calls() {
    check_replay(&[
        ("7 2 5 0 0 1 0 1 1", "2 0 3 3 2 4294967295"),
        ("7 2 3 0 0 1 0 1 1", "refused 10 4294967295 4294967295 4294967295"),
        ("7 2 1 0 2", "refused 9 place 1 4294967295"),
        ("7 65 0", "refused 3"),
        ("8 2 1 0 0 1 0", "2 0 1"),
        ("8 2 3 0 0 1 0", "0"),
        ("9 2 6 7", "ok 0 0 0 1 1 2 255"),
        ("9 2 6 5", "refused 10 255 255 255 255 255"),
        ("9 4 0 1", "refused 2 255"),
    ]);
}

#[test]
fn bad_lines() {
    for line in [
        "",
        " ",
        " 3",
        "3 ",
        "2  0",
        "3\r",
        "a",
        "-1",
        "0",
        "10",
        "2",
        "2 0 0",
        "3 0",
        "1 1 2",
        "4 0",
        "5 0",
        "6 0 0",
        "6 0 0 1 1",
        "7 1",
        "8 1",
        "9 0 1",
        "9 0 1 1 1",
        "10 0 2 3",
        "10 0 2 3 0 0",
        "10 0 2 3 0 0 1",
        "10 0 2 3 0 0 1 1 1",
        "10 0 2 3 0 0 2 1",
        "10 2 1 0 0 0 1 256",
        "10 2 1 0 0 0 4097",
        "10 0 2 3 0 0 0 0",
        "10 0 2 3 0 2 0 1",
        "10 0 2 3 0 2 0 1 0 0",
        "10 3 2 0 2 0 0 0",
        "10 0 2 3 0 2 0 256 0",
        "10 0 2 3 0 2 0 0 256",
        "10 3 2 0 2 0 0 0 256",
        "10 0 2 3 18446744073709551615 3 0 0 0",
        "10 0 2 3 3 18446744073709551615 0 0 0",
        "10 0 2 3 9223372036854775808 9223372036854775808 0",
        "10 0 2 3 0 0 18446744073709551615",
        "11 2 2 0 0 0",
        "11 2 2 0 0 0 1",
        "11 2 2 0 0 0 2 1",
        "11 2 2 0 0 0 1 256 0 11 1",
        "11 2 2 0 0 0 1 1 0 11 256",
        "11 2 2 0 0 0 0 256 11 1",
        "11 2 2 0 0 0 0 0 11 256",
        "11 3 2 0 2 0 0 0",
        "11 0 2 3 0 2 0 1",
        "11 0 2 3 0 2 0 1 256 0 11 1",
        "11 3 2 0 2 0 0 256 0 0 11 1",
        "11 0 2 3 18446744073709551615 1 0",
        "11 0 2 3 9223372036854775808 9223372036854775808 0",
        "12 0 2 3 0 0 0",
        "6 21 0 0",
        "6 20 64 0",
        "6 20 0 256",
        "6 18 64 0",
        "6 19 64 0",
        "6 18 0 256",
        "6 19 0 256",
        "6 16 64 0",
        "6 17 64 0",
        "6 16 0 4294967296",
        "6 17 0 4294967296",
        "6 15 64 0",
        "6 15 0 256",
        "6 0 64 1",
        "6 9 1 1",
        "6 14 64 0",
        "6 0 0 256",
        "6 1 0 4294967296",
        "6 14 0 256",
        "6 4 0 18446744073709551616",
        "000000000000000000003",
        "1 3 2 0 0 256",
        "4 1 2 256",
        "7 1 2 256",
        "8 1 2 256",
        "4 0 131073",
        "7 1 131073",
        "9 0 1 4097",
    ] {
        check_replay(&[(line, "bad line")]);
    }
    check_replay(&[
        ("00000000000000000003", "refused 7"),
        ("2 18446744073709551615", "refused 7"),
        ("6 4 63 18446744073709551615", "ok"),
        ("6 1 63 4294967295", "ok"),
        ("6 14 63 255", "ok"),
        ("6 15 63 255", "ok"),
        ("6 16 63 4294967295", "ok"),
        ("6 17 63 4294967295", "ok"),
        ("6 18 63 255", "ok"),
        ("6 19 63 255", "ok"),
        ("6 20 63 255", "ok"),
    ]);
}

#[test]
fn longest_requests() {
    let turns = |length: usize| vec!["0"; length].join(" ");
    let none = vec!["0"; 130].join(" ");
    check_replay(&[
        ("1 2 1 0", "0"),
        (&format!("4 0 0 {}", turns(70_000)), &format!("refused 8 {none}")),
        (&format!("4 0 0 {}", turns(70_001)), "bad line"),
        (&format!("8 1 69999 {}", turns(70_000)), "1 0"),
        (&format!("8 1 70000 {}", turns(70_001)), "bad line"),
        (&format!("1 3 64 0 {}", turns(4_096)), "refused 5"),
        (&format!("1 3 64 0 {}", turns(4_097)), "bad line"),
        (&format!("10 3 64 0 4096 4096 0 {}", turns(8_192)), "refused 5"),
        (&format!("10 3 64 0 4097 4095 0 {}", turns(8_192)), "bad line"),
        (&format!("10 0 64 3 0 4096 0 {}", turns(4_096)), "refused 12"),
        (&format!("10 0 64 3 0 4097 0 {}", turns(4_097)), "bad line"),
        (&format!("11 3 64 0 4096 0 0 {}", turns(4_096)), "refused 5"),
        (&format!("11 3 64 0 4097 0 0 {}", turns(4_097)), "bad line"),
        (&format!("11 0 64 3 0 4096 0 {}", turns(4_096)), "refused 12"),
        (&format!("11 0 64 3 0 4097 0 {}", turns(4_097)), "bad line"),
        (&format!("10 2 64 0 0 0 4096 {}", turns(4_096)), "refused 15"),
        (&format!("10 2 64 0 0 0 4097 {}", turns(4_097)), "bad line"),
        (&format!("11 2 64 0 0 0 4096 {}", turns(4_096)), "refused 15"),
        (&format!("11 2 64 0 0 0 4097 {}", turns(4_097)), "bad line"),
        (&format!("11 2 2 0 0 0 0 {}", turns(65_535)), "differs 0"),
        (&format!("11 2 2 0 0 0 0 {}", turns(70_000)), "refused 8"),
        (&format!("11 2 2 0 0 0 0 {}", turns(70_001)), "bad line"),
        (&format!("11 0 2 3 0 2 0 2 {}", turns(70_001)), "refused 12"),
        (&format!("11 0 2 3 0 2 0 2 {}", turns(70_002)), "bad line"),
    ]);
}

/// What the replay writes for an input.
fn served(input: &[u8]) -> String {
    let (mut replay, mut output) = (Replay::default(), Vec::new());
    let mut input = input;
    let mut answer = |line: &[u8]| replay.answer(line);
    assert!(lines::answer(&mut input, &mut output, &mut answer).is_ok());
    String::from_utf8(output).unwrap_or_default()
}

#[test]
fn ends_of_lines() {
    assert_eq!(served(b""), "");
    assert_eq!(served(b"\n"), "bad line\n");
    assert_eq!(served(b"3"), "refused 7\n");
    assert_eq!(served(b"3\n"), "refused 7\n");
    assert_eq!(served(b"3\n\n3"), "refused 7\nbad line\nrefused 7\n");
}

#[test]
fn longest_line() {
    let longest = first_pass_line(MAX_LINE);
    let longer = first_pass_line(MAX_LINE + 1);
    assert_eq!((longest.len(), longer.len()), (1_048_576, 1_048_577));
    assert_eq!(served(longest.as_bytes()), "1 0\n");
    assert_eq!(served(longer.as_bytes()), "bad line\n");
    let text = [&longer[..], "3", &longest[..], &longer[..], ""].join("\n");
    assert_eq!(served(text.as_bytes()), "bad line\nrefused 7\n1 0\nbad line\n");
}
