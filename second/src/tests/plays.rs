//! The plays: texts of setups by hand, and the names of the plays against their answers.

use super::playback::is_variant;
use crate::play::play;
use crate::plays::all;
use crate::sheet::numbers;
use crate::sheets::texts::wide;
use crate::traces;
use std::collections::HashSet;

#[test]
fn setups_by_hand() {
    for (setup, expected) in [
        ("2 2 0 0 0 0", "agrees\n"),
        ("\n 2\n\n2  0 0 0 00000\n", "agrees\n"),
        ("3 2 0 2 0 0 0 0", "agrees\n"),
        ("0 2 3 0 2 0 1 1", "agrees\n"),
        ("", "refused 1\n"),
        ("2 2 0 0 0", "refused 1\n"),
        ("2 2 0 0 0 0 0", "refused 1\n"),
        ("2 2 0 0 0 1", "refused 1\n"),
        ("2 2 0 0 0 1 1", "refused 15\n"),
        ("2 2 0 0 0 2 1 1", "agrees\n"),
        ("2 2 0 0 0 2 255 1", "agrees\n"),
        ("2 2 0 0 0 2 256 1", "refused 15\n"),
        ("2 2 0 0 0 2 1 99999", "refused 15\n"),
        ("2 2 0 0 0 2 0 1", "refused 15\n"),
        ("2 2 0 0 0 2 1", "refused 1\n"),
        ("2 2 0 0 0 2 1 1 1", "refused 1\n"),
        ("2 2 0 0 0 99999", "refused 1\n"),
        ("0 2 3 0 2 2 1 0 3 2", "agrees\n"),
        ("0 2 3 0 2 2 3 2 1 0", "refused 12\n"),
        ("0 2 3 0 2 2 1 256 256 1", "refused 12\n"),
        ("3 2 0 2 0 2 0 0 9 9", "agrees\n"),
        ("2 2 0 0 0 000000", "refused 1\n"),
        ("2 2 0 0 0 0\r\n", "refused 1\n"),
        ("3 2 0 2 0 0 0", "refused 1\n"),
        ("3 2 0 2 0 0 0 0 0", "refused 1\n"),
        ("0 2 3 99999 99999 0", "refused 1\n"),
        ("5 0 2 1 1 0 9 9", "refused 2\n"),
        ("3 65 2 1 1 0 9 9", "refused 3\n"),
        ("3 2 2 1 1 0 9 9", "refused 4\n"),
        ("3 2 0 1 1 0 256 9", "refused 5\n"),
        ("3 2 0 2 1 0 0 256 9", "refused 6\n"),
        ("3 2 0 2 1 0 256 0 9", "refused 6\n"),
        ("3 2 0 2 1 0 0 0 0", "refused 12\n"),
        ("0 2 3 0 1 0 0", "refused 12\n"),
        ("0 2 3 0 2 0 0 256", "refused 12\n"),
        ("0 2 3 0 2 0 99999 0", "refused 12\n"),
    ] {
        assert_eq!(play(setup.as_bytes(), &[0, 11, 1]), expected, "{setup}");
    }
}

#[test]
fn setups_of_kinds_4_and_5() {
    for (setup, expected) in [
        ("5 2 0 0 0 0", "refused 2\n"),
        ("4 2 0 0 0 0", "agrees\n"),
        ("4 2 0 0 0 2 255 1", "agrees\n"),
        ("4 65 2 1 1 0 9 9", "refused 3\n"),
        ("4 2 3 2 0 0 0 0", "refused 4\n"),
        ("4 2 0 2 2 0 0 0 0 0", "refused 5\n"),
        ("4 2 0 0 2 2 0 0 0 1", "refused 12\n"),
        ("4 2 0 0 0 2 0 1", "refused 15\n"),
    ] {
        assert_eq!(play(setup.as_bytes(), &[0, 11, 1]), expected, "{setup}");
    }
}

#[test]
fn traces_by_hand() {
    let long = vec![0; 65_538];
    for (trace, expected) in [
        (&[][..], "agrees\n"),
        (&[1, 11, 1, 1, 12, 0], "agrees\n"),
        (&[1, 11, 1, 1, 12, 1], "differs 1\n"),
        (&[2, 11, 1], "differs 0\n"),
        (&[0, 11], "refused 14\n"),
        (&long[..65_535], "differs 0\n"),
        (&long[..65_536], "refused 14\n"),
        (&long[..65_537], "refused 8\n"),
        (&long[..], "refused 8\n"),
    ] {
        assert_eq!(play(b"2 2 0 0 0 0\n", trace), expected);
        assert_eq!(play(b"2 2 0 0 0\n", trace), "refused 1\n");
        assert_eq!(play(b"2 2 1 0 0 0\n", trace), "refused 4\n");
    }
}

#[test]
fn longest_setup() {
    let mut setup = b"2 2 0 0 0 0".to_vec();
    setup.resize(65_536, b' ');
    assert_eq!(play(&setup, &[]), "agrees\n");
    setup.push(b' ');
    assert_eq!(play(&setup, &[]), "refused 1\n");
}

// ---- the plays that are written ----

/// Whether the answer is what the name says.
fn fits(name: &str, answer: &str) -> bool {
    let words: Vec<&str> = name.split('-').collect();
    match words[..] {
        ["agrees", ..] => answer == "agrees\n",
        ["differs", index, ..] => answer == format!("differs {index}\n"),
        ["refused", reason, ..] => answer == format!("refused {reason}\n"),
        _ => false,
    }
}

#[test]
fn answers_are_what_the_names_say() {
    for written in all().list() {
        let answer = play(&written.setup, &written.trace);
        assert!(fits(&written.name, &answer), "{}: {answer}", written.name);
    }
}

#[test]
fn names_differ() {
    let plays = all();
    let names: HashSet<_> = plays.list().iter().map(|play| &play.name).collect();
    assert_eq!(names.len(), plays.list().len());
}

/// The names with a length are those of setups or traces of that many bytes.
#[test]
fn lengths_are_what_the_names_say() {
    for written in all().list() {
        let words: Vec<&str> = written.name.split('-').collect();
        if let Some(place) = words.iter().position(|&word| word == "bytes") {
            let length = words[place + 1].parse();
            let lengths = [written.setup.len(), written.trace.len()];
            assert!(lengths.iter().any(|&other| length == Ok(other)), "{}", written.name);
        }
    }
}

/// Every answer is there, and so are the two sides of each limit.
#[test]
fn every_answer_is_there() {
    let plays = all();
    for begin in ["agrees", "differs-0", "differs-1", "differs-21844"] {
        assert!(plays.list().iter().any(|play| play.name.starts_with(begin)), "{begin}");
    }
    for reason in [1, 2, 3, 4, 5, 6, 8, 12, 14, 15] {
        let begin = format!("refused-{reason}-");
        assert!(plays.list().iter().any(|play| play.name.starts_with(&begin)), "{begin}");
    }
    let lengths: HashSet<_> = plays.list().iter().map(|play| play.trace.len()).collect();
    assert!([0, 1, 2, 3, 65_535, 65_536, 65_537, 65_538].iter().all(|n| lengths.contains(n)));
    let lengths: HashSet<_> = plays.list().iter().map(|play| play.setup.len()).collect();
    assert!([0, 65_536, 65_537].iter().all(|length| lengths.contains(length)));
}

/// As among the stored cases, the plays of kind 0 without a start table are the named traces'.
#[test]
fn plays_without_starts_are_named() {
    let named = traces::all();
    let mut found = 0;
    for written in all().list().iter().filter(|play| !play.name.starts_with("refused")) {
        let setup = numbers(&written.setup).unwrap_or_default();
        if let [0, _, _, _, 0, ..] = setup[..] {
            let request = [&[11][..], &setup, &wide(&written.trace)].concat();
            assert!(named.iter().any(|named| is_variant(named, &request)), "{}", written.name);
            found += 1;
        }
    }
    assert!(found >= 4, "{found}");
}
