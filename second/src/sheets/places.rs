//! Texts that are refused for causes at many places: on the first line and on later ones, after
//! runs of spaces and blank lines, at the text's end, and where several causes of one reason apply.

use super::texts::{apart, Texts};
use crate::sheet::MAX_TEXT;

/// The bytes of byte-order marks.
const MARK: &[u8] = &[239, 187, 191];
const LITTLE: &[u8] = &[255, 254];
const BIG: &[u8] = &[254, 255];

pub fn add(texts: &mut Texts) {
    byte_65537(texts);
    marks_across_the_limit(texts);
    before_the_limit(texts);
    wrong_bytes(texts);
    cut_marks(texts);
    wide_texts(texts);
    several_bytes(texts);
    long_numbers(texts);
    ends(texts);
    heads(texts);
    moduli(texts);
    few_parents(texts);
    parents(texts);
    turns(texts);
}

/// Texts with names that all begin alike.
fn each<const COUNT: usize>(texts: &mut Texts, begin: &str, named: [(&str, &str); COUNT]) {
    for (name, text) in named {
        texts.add(format!("{begin}-{name}"), text);
    }
}

// ---- reason 1: the length ----

/// Byte 65,537 on several lines, and with every other cause of 1 before or behind it.
fn byte_65537(texts: &mut Texts) {
    let more = MAX_TEXT + 1;
    for (name, before, gap, after, length) in [
        ("65537-first-of-its-line", "2 1 0", " ", "\n0", more),
        ("65537-first-of-the-third-line", "2 1 0\n", " ", "\n ", more),
        ("65537-line-feed-on-the-third-line", "2 1 0\n\n", " ", "\n", more),
        ("65537-line-feeds-alone", "", "\n", "", more),
        ("65539-first-of-many-lines", "2 1 0", "\n", "0 0", more + 2),
        ("65537-two-numbers", "2", " ", "1", more),
        ("65537-tab-before", "2\t1 0", "\n", "", more),
        ("65538-tab-behind", "2 1 0", "\n", "\t", more + 1),
        ("65540-tabs-before-and-behind", "\t2 1 0", " ", "0\t0", more + 3),
        ("65540-comma-behind", "2 1 0\n0", " ", "0, 0", more + 3),
        ("65537-six-digits-before", "2 1 000000", "\n", "0", more),
        ("65539-six-digits-across-the-limit", "2 1 0", " ", "000000", more + 2),
        ("65539-six-digits-across-on-a-later-line", "2 1 0\n", " ", "100000", more + 2),
        ("65542-six-digits-behind-the-limit", "2 1 0", " ", "000000", more + 5),
    ] {
        texts.add(format!("refused-1-bytes-{name}"), apart(before, gap, after, length));
    }
}

/// Marks that the limit cuts: one byte is behind it, or two.
fn marks_across_the_limit(texts: &mut Texts) {
    for behind in [1, 2] {
        let length = MAX_TEXT + behind;
        let text = apart("2 1 0\n", " ", "\u{feff}", length);
        texts.add(format!("refused-1-bytes-{length}-mark-across-the-limit"), text);
    }
}

/// Causes in the last bytes of a text of 65,536.
fn before_the_limit(texts: &mut Texts) {
    for (name, before, after) in [
        ("six-digits-last-on-a-later-line", "2 1 0\n", "100000"),
        ("six-digits-and-a-line-feed-last", "2 1 0", "000000\n"),
        ("mark-last", "2 1 0", "\u{feff}"),
        ("comma-last-on-a-later-line", "2 1 0\n", "0,"),
        ("two-numbers-line-feed-last", "2 1", "\n"),
    ] {
        let text = apart(before, " ", after, MAX_TEXT);
        texts.add(format!("refused-1-bytes-65536-{name}"), text);
    }
    let mut text = apart("2 1 0", " ", "\u{feff}", MAX_TEXT + 1).into_bytes();
    text.truncate(MAX_TEXT);
    texts.add("refused-1-bytes-65536-mark-cut-by-the-end", text);
}

// ---- reason 1: the bytes ----

/// Wrong bytes of every sort at every sort of place.
fn wrong_bytes(texts: &mut Texts) {
    for (name, wrong) in [
        ("mark", MARK),
        ("utf-16-mark", LITTLE),
        ("other-utf-16-mark", BIG),
        ("lone-carriage-return", b"\r"),
        ("lone-tab", b"\t"),
        ("lone-comma", b","),
        ("apostrophe", b"'"),
        ("first-character", b"!"),
        ("last-character", b"~"),
        ("byte-after-the-characters", &[127]),
        ("byte-before-the-space", &[31]),
    ] {
        at_places(texts, name, wrong);
    }
}

/// The bytes at the front, among the others, and at the end.
fn at_places(texts: &mut Texts, name: &str, wrong: &[u8]) {
    for (place, before, after) in [
        ("before-all", "", "2 1 0"),
        ("after-spaces", "2 1    ", " 0\n"),
        ("after-a-line-feed", "2 1 0\n", "0 0\n"),
        ("within-a-later-line", "2 1\n0 0 0", "0\n0\n"),
        ("after-blank-lines", "2 1 0\n\n \n  ", ""),
        ("at-the-end", "2 1 0\n0 0 ", ""),
        ("before-the-last-line-feed", "2 1 0\n0", "\n"),
    ] {
        let text = [before.as_bytes(), wrong, after.as_bytes()].concat();
        texts.add(format!("refused-1-{name}-{place}"), text);
    }
}

/// Marks that the text's end or another byte cuts short.
fn cut_marks(texts: &mut Texts) {
    for (name, text) in [
        ("two-thirds-of-a-mark-alone", &[239, 187][..]),
        ("a-third-of-a-mark-alone", &[239]),
        ("two-thirds-of-a-mark-last", b"2 1 0\n0 \xef\xbb"),
        ("a-third-of-a-mark-last", b"2 1 0\n\xef"),
        ("two-thirds-of-a-mark-before-a-digit", b"\xef\xbb2 1 0"),
        ("two-thirds-of-a-mark-before-a-line-feed", b"\xef\xbb\n\xbf2 1 0"),
        ("mark-with-another-third-byte", b"\xef\xbb\xbe2 1 0"),
        ("mark-with-another-second-byte", b" \xef\xba\xbf2 1 0"),
        ("mark-turned-round", b"\xbf\xbb\xef2 1 0"),
        ("mark-without-its-first-byte", b"\xbb\xbf2 1 0"),
        ("utf-16-mark-cut-by-the-end", b"2 1 0\n\xff"),
        ("other-utf-16-mark-cut-by-the-end", b"2 1 0\n  \xfe"),
        ("other-utf-16-mark-alone", &[254]),
        ("utf-16-mark-parted", b"\xff \xfe2 1 0"),
        ("twice-255", &[255, 255]),
        ("twice-254", &[254, 254]),
        ("255-then-a-utf-16-mark", &[255, 255, 254]),
    ] {
        texts.add(format!("refused-1-{name}"), text);
    }
}

/// A text in words of two bytes.
fn wide_text(text: &str, bytes: impl Fn(u16) -> [u8; 2]) -> Vec<u8> {
    text.encode_utf16().flat_map(bytes).collect()
}

/// Whole texts of two or four bytes a character, with a mark and without.
fn wide_texts(texts: &mut Texts) {
    let (marked, plain) = ("\u{feff}2 1 0\n0\n", "2 1 0\n0\n");
    texts.add("refused-1-utf-16", wide_text(marked, u16::to_le_bytes));
    texts.add("refused-1-other-utf-16", wide_text(marked, u16::to_be_bytes));
    texts.add("refused-1-utf-16-without-a-mark", wide_text(plain, u16::to_le_bytes));
    texts.add("refused-1-other-utf-16-without-a-mark", wide_text(plain, u16::to_be_bytes));
    let wide = marked.chars().flat_map(|letter| u32::from(letter).to_le_bytes());
    texts.add("refused-1-utf-32", wide.collect::<Vec<u8>>());
}

/// Several wrong bytes, of which the first is given.
fn several_bytes(texts: &mut Texts) {
    each(
        texts,
        "refused-1",
        [
            ("comma-before-a-carriage-return", "2 1 0\n0,0\r\n"),
            ("carriage-return-before-a-comma", "2 1 0\r\n0,0\r\n"),
            ("comma-and-carriage-return", "2 1 0,\r\n"),
            ("carriage-return-and-comma", "2 1 0\r,\n"),
            ("tab-before-a-carriage-return", "2\t1\t0\r\n"),
            ("carriage-returns-alone", "2 1 0\r0\r"),
            ("mark-before-a-comma", "\u{feff}2,1,0"),
            ("comma-before-a-mark", "2,1,0\n\u{feff}"),
            ("mark-before-a-mark", "\u{feff}\u{feff}2 1 0"),
            ("letter-before-a-tab", "2 1 0\nx\t"),
            ("tab-before-a-letter", "2 1 0\n\tx"),
            ("wide-line-end", "2 1 0\u{2028}0"),
            ("last-line-of-windows", "2 1 0\n0 0\n0\r\n"),
            ("two-numbers-and-a-tab", "2 1\t"),
        ],
    );
    texts.add("refused-1-mark-before-a-utf-16-mark", [MARK, LITTLE, b"2 1 0"].concat());
    texts.add("refused-1-utf-16-mark-before-a-mark", [b" ", BIG, MARK, b"2 1 0"].concat());
}

// ---- reason 1: the digits and the numbers ----

/// Long numbers, alone and beside other causes of 1. A wrong byte is given before any of them.
fn long_numbers(texts: &mut Texts) {
    each(
        texts,
        "refused-1",
        [
            ("six-digits-before-a-tab", "2 1 0 000000\t0"),
            ("six-digits-after-a-tab", "2 1 0\t000000"),
            ("six-digits-before-a-comma-on-a-later-line", "2 1 000000\n0 0\n0,0\n"),
            ("six-digits-before-a-mark", "000002 1 0\n\u{feff}"),
            ("six-digits-first-of-two", "2 1 0 000000 1234567"),
            ("seven-digits-first-of-two", "2 1 0\n1234567 000000"),
            ("six-digits-on-a-later-line", "2 1 0\n0 0\n0 0 000000 0\n"),
            ("six-digits-first-of-a-line", "2 1 0\n999999\n"),
            ("six-digits-after-spaces", "2 1 0      100000"),
            ("six-digits-after-blank-lines", "2 1 0\n\n\n   000001\n"),
            ("six-digits-before-the-last-line-feed", "2 1 0 0 654321\n"),
            ("six-digits-and-one-number", "000002\n"),
            ("six-digits-and-two-numbers", "2\n  000001"),
            ("ten-digits-between-spaces", " \n 2 1 0  0000000000  0"),
            ("twenty-digits", "2 1 0\n18446744073709551616\n"),
            ("fifty-digits", "2 1 0 99999999999999999999999999999999999999999999999999"),
        ],
    );
}

/// Too few numbers, so that the cause stands at the text's end.
fn ends(texts: &mut Texts) {
    each(
        texts,
        "refused-1",
        [
            ("no-numbers-on-three-lines", "\n\n   "),
            ("no-numbers-three-line-feeds", "\n\n\n"),
            ("no-numbers-spaces", "     "),
            ("one-number-line-feed-last", "2\n"),
            ("one-number-spaces-last", "00002   "),
            ("one-number-after-blank-lines", "\n\n  2"),
            ("one-number-of-a-later-line", "\n2 \n \n"),
            ("two-numbers-on-lines", "2\n1"),
            ("two-numbers-on-lines-line-feed-last", "2\n1\n"),
            ("two-numbers-blank-lines-last", "2 1\n\n\n"),
            ("two-numbers-spaces-on-the-last-line", "2 1\n\n   "),
            ("two-numbers-after-spaces", "     2     00001"),
        ],
    );
}

// ---- reasons 2 to 4 ----

/// Kinds and task counts.
fn heads(texts: &mut Texts) {
    each(
        texts,
        "refused-2-kind",
        [
            ("with-zeros", "00005 2 0"),
            ("after-spaces", "     5 2 0\n"),
            ("after-blank-lines", "\n\n \n00099 2 0"),
            ("on-the-second-line", "\n6\n2\n0"),
            ("of-five-digits", "  12345 0 99999 99999"),
        ],
    );
    each(
        texts,
        "refused-3-n",
        [
            ("with-zeros", "2 00065 0"),
            ("of-zeros", "2 00000 0"),
            ("after-spaces", "2     100 0\n"),
            ("after-blank-lines", "2\n\n \n  00000\n0"),
            ("on-the-second-line", "4\n0066 0"),
            ("at-the-end-but-one", "0\n1000\n 2"),
        ],
    );
}

/// R, for kind 0 and for others.
fn moduli(texts: &mut Texts) {
    each(
        texts,
        "refused-4-modulus",
        [
            ("with-zeros", "0 2 00002"),
            ("of-zeros", "00000 2\n00000\n"),
            ("after-spaces", "0 2     256 0"),
            ("after-blank-lines", "0\n2\n\n  \n   00001"),
            ("first-of-a-line", "0 2\n99999"),
            ("with-zeros-kind-1", "00001 2 00003"),
            ("after-spaces-kind-2", "02 2     255\n"),
            ("after-blank-lines-kind-3", "3 1\n\n \n 00001\n0"),
            ("first-of-a-line-kind-4", "0004\n0002\n0030\n"),
            ("alone-on-a-line-kind-1", "1\n1\n\n65536\n\n0"),
        ],
    );
}

// ---- reasons 5, 6 and 9 ----

/// Texts that end before the parents do.
fn few_parents(texts: &mut Texts) {
    each(
        texts,
        "refused-5-parents",
        [
            ("none-line-feed-last", "3 3 0\n"),
            ("none-spaces-last", "3 00003 0   "),
            ("none-blank-lines-last", "00003\n1\n0\n\n\n"),
            ("one-line-feed-last", "3 2 0 0\n"),
            ("one-on-a-later-line", "3 2 0\n\n  0"),
            ("two-on-lines", "3 00003 0\n0\n\n00000\n"),
            ("two-spaces-on-the-last-line", "3 64 0 0 0\n\n     "),
            ("three-wrong-ones", "3 4 0\n9 9\n9"),
        ],
    );
    let zeros = " 0".repeat(63);
    texts.add("refused-5-parents-all-but-one-on-lines", format!("3 64\n0\n{zeros}\n"));
}

/// Wrong parents at many places, several at once too.
fn parents(texts: &mut Texts) {
    each(
        texts,
        "refused-6",
        [
            ("root-with-zeros", "3 2 0 00001 0"),
            ("root-first-of-a-line", "3 2 0\n2 0 0"),
            ("root-after-spaces", "3 2 0     9 0\n"),
            ("root-after-blank-lines", "3 1 0\n\n \n  00256"),
            ("root-and-all-others", "3 3 0 5 5 5"),
            ("root-and-the-last", "3 3 0\n3 0 2 1\n"),
            ("parent-with-zeros", "3 2 0 0 00001"),
            ("parent-first-of-a-line", "3 3 0\n0 0\n2\n"),
            ("parent-after-spaces", "3 3 0 0     00099 0 1"),
            ("parent-after-blank-lines", "3 3 0 0 0\n\n \n    65536"),
            ("two-parents-the-higher-first", "3 4 0 0 0 99999 3"),
            ("two-parents-the-lower-first", "3 4 0 0 1 1 99999"),
            ("three-parents-on-lines", "3 4 0\n0\n1\n2\n3\n"),
            ("third-parent-of-five", "00003 5 0\n00000 00000 00002 00002 00004\n9"),
            ("parent-before-a-wrong-turn", "3 2 0\n0\n2\n2\n"),
        ],
    );
}

/// Wrong turns at many places, several at once too.
fn turns(texts: &mut Texts) {
    each(
        texts,
        "refused-9-place",
        [
            ("0-first-of-a-line", "2 2 0\n2"),
            ("0-with-zeros", "2 00002 0 00002\n"),
            ("0-after-blank-lines", "2 2 0\n\n \n  00100"),
            ("0-after-parents-on-lines", "3 2 0\n0\n0\n\n    2\n"),
            ("1-after-spaces", "2 2 0 1      99999 0"),
            ("1-of-three-wrong", "1 3 0\n0 3\n4 5\n"),
            ("2-on-the-third-line", "4 64 0\n63 62\n64 65\n"),
            ("2-after-parents-with-zeros", "3 1 0 0\n0 0 00001 00002"),
            ("3-alone-on-a-line", "0 2 3\n0\n1\n0\n256\n1\n"),
            ("4-two-wrong-the-higher-first", "2 5 0\n0 1 2 3 00255 5"),
            ("4-two-wrong-the-lower-first", "2 5 0\n0 1 2 3\n5 255"),
        ],
    );
}
