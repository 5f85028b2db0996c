//! Setups that are refused for causes at many places: on the first line and on later ones, after
//! runs of spaces and blank lines, at the text's end, and where several causes of one reason apply.
//! Lengths of traces too.

use super::list::Plays;
use crate::schedules::repeat;
use crate::sheet::MAX_TEXT;
use crate::sheets::texts::apart;

pub fn add(plays: &mut Plays) {
    limit(plays);
    wrong_bytes(plays);
    marks(plays);
    long_numbers(plays);
    ends(plays);
    fewer_than_said(plays);
    more_than_said(plays);
    heads(plays);
    parents_lengths(plays);
    parents(plays);
    starts_lengths(plays);
    starts(plays);
    works_lengths(plays);
    works(plays);
    traces(plays);
}

/// Plays of setups with names that all begin alike.
fn each<const COUNT: usize>(plays: &mut Plays, begin: &str, named: [(&str, &str); COUNT]) {
    for (name, setup) in named {
        plays.text(format!("{begin}-{name}"), setup);
    }
}

// ---- reason 1 ----

/// Causes around the last byte that a setup may have.
fn limit(plays: &mut Plays) {
    let more = MAX_TEXT + 1;
    for (name, before, after, length) in [
        ("65537-first-of-its-line", "2 2 0 0 0 0", "\n ", more),
        ("65537-on-a-later-line", "2 2 0\n0 0 0\n", "0", more),
        ("65539-six-digits-across-the-limit", "2 2 0 0 0 0\n", "000000", more + 2),
        ("65538-tab-behind-the-limit", "2 2 0 0 0", " 0\t", more + 1),
        ("65537-tab-and-six-digits-before", "2\t2 0 0 0 000000\n", "", more),
        ("65537-fewer-numbers-than-said", "2 2 0 0 0 1\n", "", more),
        ("65536-six-digits-at-the-limit", "2 2 0 0 0\n", "000000", MAX_TEXT),
        ("65536-tab-at-the-limit", "2 2 0 0 0 0\n", "\t", MAX_TEXT),
        ("65536-fewer-than-six-line-feed-last", "2 2 0 0 0", "\n", MAX_TEXT),
        ("65536-fewer-than-said-line-feed-last", "2 2 0 0 0 2\n1", "\n", MAX_TEXT),
        ("65536-more-than-said-on-a-later-line", "2 2 0 0 0 0\n", "7", MAX_TEXT),
    ] {
        plays.text(format!("refused-1-bytes-{name}"), apart(before, " ", after, length));
    }
}

/// Wrong bytes of every sort, on the first line and on later ones, and several at once.
fn wrong_bytes(plays: &mut Plays) {
    for (name, wrong) in [("carriage-return", '\r'), ("tab", '\t'), ("comma", ',')]
        .into_iter()
        .chain([("letter", 'q'), ("apostrophe", '\''), ("delete", '\u{7f}'), ("nul", '\0')])
    {
        plays.text(format!("refused-1-{name}-before-all"), format!("{wrong}2 2 0 0 0 0"));
        plays.text(format!("refused-1-{name}-after-spaces"), format!("2 2 0    {wrong}0 0 0"));
        plays.text(format!("refused-1-{name}-on-a-line"), format!("2 2 0\n\n  {wrong}\n0 0 0\n"));
    }
    each(
        plays,
        "refused-1",
        [
            ("comma-before-a-carriage-return", "2,2,0\r\n0,0,0\r\n"),
            ("carriage-return-before-a-comma", "2 2 0\r\n0,0,0\r\n"),
            ("carriage-return-and-comma", "2 2 0 0 0 0\r,"),
            ("comma-and-carriage-return", "2 2 0 0 0 0,\r"),
            ("six-digits-before-a-tab", "2 2 0 0 0 000000\n\t"),
            ("six-digits-after-a-tab", "2 2 0\n\t000000 0 0"),
            ("tab-and-fewer-than-six", "2 2 0\n0\t"),
            ("letter-and-more-than-said", "2 2 0 0 0 0\n0 0 x"),
        ],
    );
}

/// Byte-order marks, whole and cut short, first and later.
fn marks(plays: &mut Plays) {
    for (name, setup) in [
        ("mark-on-a-later-line", &b"2 2 0\n \xef\xbb\xbf0 0 0"[..]),
        ("mark-last", b"2 2 0 0 0 0\n\xef\xbb\xbf"),
        ("two-thirds-of-a-mark-alone", b"\xef\xbb"),
        ("two-thirds-of-a-mark-last", b"2 2 0 0 0 0\n\xef\xbb"),
        ("utf-16", b"\xff\xfe2\0 \x002\0 \x000\0"),
        ("other-utf-16", b"\xfe\xff\x002\0 \x002\0 \x000"),
        ("utf-16-mark-on-a-later-line", b"2 2 0\n0 0 \xff\xfe0"),
        ("utf-16-mark-last", b"2 2 0 0 0 0\n\xfe\xff"),
        ("byte-255-alone", b"\xff"),
        ("byte-254-last-on-a-later-line", b"2 2 0 0 0 0\n\xfe"),
    ] {
        plays.text(format!("refused-1-{name}"), setup);
    }
}

/// Numbers of many digits.
fn long_numbers(plays: &mut Plays) {
    each(
        plays,
        "refused-1",
        [
            ("six-digits-on-a-later-line", "2 2 0\n0 0 100000\n"),
            ("six-digits-after-blank-lines", "2 2 0 0 0 0\n\n \n  000000"),
            ("six-digits-first-of-two", "2 2 000000     0 0 0000000"),
            ("seven-digits-first-of-two", "2\n2\n0000000\n000000\n0\n0\n"),
            ("six-digits-and-fewer-than-six", "2 2 0\n000000"),
            ("six-digits-and-more-than-said", "2 2 0 0 0 0 0\n000000"),
        ],
    );
}

/// Fewer than six numbers, so that the cause stands at the text's end.
fn ends(plays: &mut Plays) {
    each(
        plays,
        "refused-1-numbers",
        [
            ("0-on-three-lines", "\n\n  "),
            ("1-line-feed-last", "2\n"),
            ("2-after-blank-lines", "\n\n 2   2"),
            ("3-spaces-on-the-last-line", "2\n2\n0\n   "),
            ("4-blank-lines-last", "2 2 0 0\n\n\n"),
            ("5-line-feed-last", "00002 00002 00000 00000 00000\n"),
            ("5-spaces-last", "2 2 0 99999 99999   "),
        ],
    );
}

/// Fewer numbers than the lengths say.
fn fewer_than_said(plays: &mut Plays) {
    each(
        plays,
        "refused-1-fewer-than-said",
        [
            ("no-works", "2 2 0 0 0 2"),
            ("no-works-line-feed-last", "2 2 0 0 0 00002\n"),
            ("no-starts-spaces-last", "0 2 3 0 2 0   "),
            ("a-work-on-a-later-line", "2 2 0\n0 0 2\n\n1"),
            ("a-work-line-feed-last", "0 2 3 0 2 2\n1 0\n1\n"),
            ("all-three-lengths", "3 2 0 00002 00003 00004\n0 0\n0 0 0\n1 1 1\n"),
            ("blank-lines-last", "3 3 0 3 0 0\n0 0\n\n \n"),
            ("lengths-99999", "0 2 3 99999 99999 99999\n"),
        ],
    );
}

/// More numbers than the lengths say, of which the first is given.
fn more_than_said(plays: &mut Plays) {
    each(
        plays,
        "refused-1-more-than-said",
        [
            ("on-a-later-line", "2 2 0 0 0 0\n7"),
            ("three-on-later-lines", "2 2 0 0 0 0\n\n   7\n8 9\n"),
            ("after-spaces", "2 2 0 0 0 0     00007\n"),
            ("after-works", "2 2 0 0 0 2\n1 1\n1\n"),
            ("after-all-tables", "3 2 0 00002 1 1\n0 0\n0\n1 5 5"),
            ("after-blank-lines", "3 2 0 2 0 0 0 0\n\n \n 0\n"),
            ("the-tenth-of-ten", "0 2 3 0 2 0001 1\n0 1 0"),
            ("a-wrong-kind", "9 9 9 0 0 0\n9"),
        ],
    );
}

// ---- reasons 2 to 6 ----

/// Kinds, task counts and moduli.
fn heads(plays: &mut Plays) {
    each(
        plays,
        "refused-2-kind",
        [("with-zeros", "00005 2 0 0 0 0"), ("after-blank-lines", "\n\n   6 2 0 0 0 0\n")],
    );
    each(
        plays,
        "refused-3-n",
        [("with-zeros", "2     00065 0 0 0 0"), ("on-a-later-line", "2\n00000\n0 0 0 0\n")],
    );
    each(
        plays,
        "refused-4-modulus",
        [
            ("with-zeros", "0 2     00002 0 0 0"),
            ("on-a-later-line", "0\n2\n256 0 0 0"),
            ("with-zeros-kind-1", "00001 2     00007 0 0 0"),
            ("on-a-later-line-kind-3", "3 2\n\n 1 2 0 0 0 0\n"),
        ],
    );
}

/// NP, for a tree and for other kinds, whatever the parents are.
fn parents_lengths(plays: &mut Plays) {
    each(
        plays,
        "refused-5-length",
        [
            ("of-a-tree-with-zeros", "00003 002 0 00003 0 0 0 0 0"),
            ("of-a-tree-on-a-later-line", "3 2 0\n1 0 0\n0\n"),
            ("of-a-tree-after-blank-lines", "3 64 0\n\n \n  0 0 0"),
            ("of-a-tree-and-its-parents", "3 3 0     2 0 0 9 9"),
            ("of-a-ring-with-zeros", "2 2 0 00002 0 0 0 0"),
            ("of-a-ring-on-a-later-line", "00002 2 0\n1 0 0 1"),
            ("of-kind-0-after-spaces", "00000 2 3     2 2 0 0 0 1 0"),
            ("of-kind-1-after-blank-lines", "1 1 0\n\n \n   3 0 0\n0 0 0\n"),
        ],
    );
}

/// Wrong parents, several at once too.
fn parents(plays: &mut Plays) {
    each(
        plays,
        "refused-6",
        [
            ("root-with-zeros", "3 2 0 2 0 0 00001 0"),
            ("root-on-a-later-line", "3 2 0 2 0 0\n9 0"),
            ("root-and-all-others", "3 3 0 3 0 0\n\n   3 3 3\n"),
            ("parent-with-zeros", "3 2 0 2 0 0 0 00001"),
            ("parent-on-a-later-line", "3 3 0\n3 0 0\n0 0\n2\n"),
            ("two-parents-the-higher-first", "3 4 0 4 0 0 0 0 99999 3"),
            ("two-parents-the-lower-first", "3 4 0 4 0 0\n0 1\n1 99999"),
            ("parent-before-works", "3 2 0 2 0 2\n0 1\n1 1\n"),
        ],
    );
}

// ---- reasons 12 and 15 ----

/// NS, for kind 0 and for others, whatever the starts are.
fn starts_lengths(plays: &mut Plays) {
    each(
        plays,
        "refused-12-length",
        [
            ("with-zeros", "0 002 3 0 00003 0 0 0 0"),
            ("on-a-later-line", "0 2 3 0\n1 0 1"),
            ("and-its-starts", "0 3 3 0     2 0 9 9"),
            ("after-blank-lines", "0 2 3 0\n\n \n  4 0\n0 0 0 0\n"),
            ("of-a-ring-with-zeros", "2 2 0 0 00002 0 0 0"),
            ("of-a-tree-on-a-later-line", "3 2 0 2\n1 0 0 0\n0\n"),
            ("of-kind-4-and-its-starts", "00004 2 0 0     2 0 9 9"),
            ("of-kind-1-after-blank-lines", "1 1 0 0\n\n \n   1 0 0"),
        ],
    );
}

/// Wrong starts, several at once too.
fn starts(plays: &mut Plays) {
    each(
        plays,
        "refused-12-start",
        [
            ("with-zeros", "0 002 3 0 2 0 0 00002"),
            ("on-a-later-line", "0 2 3 0 2 0\n2 0\n"),
            ("all-wrong", "0 3 3 0 3 0\n\n   9 8 7"),
            ("the-higher-first", "0 3 3 0 3 0 0     99999 3"),
            ("the-lower-first", "0 3 3 0 3 0\n2\n3\n99999\n"),
            ("last-of-three", "0 3 3 0 3 0 2 2\n\n3"),
            ("before-works", "0 2 3 0 2 2\n0 2\n1 1\n"),
        ],
    );
}

/// NW, whatever the work lengths are.
fn works_lengths(plays: &mut Plays) {
    each(
        plays,
        "refused-15-length",
        [
            ("with-zeros", "2 002 0 0 0 00003 1 1 1"),
            ("on-a-later-line", "2 2 0 0 0\n1 1"),
            ("and-its-works", "2 3 0 0 0     2 0 256"),
            ("after-blank-lines", "3 2 0 2 0\n\n \n  4\n0 0\n1 1 1 1\n"),
            ("after-starts", "0 2 3 0 2 00001\n1 0\n1"),
        ],
    );
}

/// Wrong work lengths, several at once too.
fn works(plays: &mut Plays) {
    each(
        plays,
        "refused-15-work",
        [
            ("of-zeros", "2 2 0 0 0 2 1 00000"),
            ("with-zeros", "2 2 0 0 0 2     00256 1"),
            ("on-a-later-line", "2 2 0 0 0 2\n0 1\n"),
            ("none-before-a-large-one", "2 3 0 0 0 3\n1\n0\n256\n"),
            ("large-one-before-none", "2 3 0 0 0 3 1\n\n   99999 0"),
            ("last-of-three", "2 3 0 0 0 3 255 255 0\n"),
            ("after-starts", "0 2 3 0 2 2\n1 0\n1 300\n"),
            ("after-parents", "3 2 0 2 0 2 0 0\n\n  00000 00000"),
            ("after-as-many-starts", "0 3 3 0 3 3\n0 0 0 1 0 1"),
        ],
    );
}

// ---- reasons 8 and 14 ----

/// Traces of lengths that are no multiple of three, and one that is too long in whole triples.
fn traces(plays: &mut Plays) {
    for length in [5, 7, 10, 100, 1_000, 10_000, 65_533] {
        plays.add(
            format!("refused-14-bytes-{length}-setup-on-lines"),
            "2\n1\n0\n0\n0\n0\n",
            repeat(0, length),
        );
    }
    plays.add("refused-8-bytes-99999-setup-on-lines", "2\n1\n0\n0\n0\n0\n", repeat(0, 99_999));
}
