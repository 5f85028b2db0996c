//! Texts around reason 1: the length, the bytes, the digits and the numbers of a text.

use super::texts::{apart, Texts};
use crate::sheet::MAX_TEXT;

pub fn add(texts: &mut Texts) {
    longest(texts);
    longest_refused(texts);
    one_byte_more(texts);
    too_long(texts);
    other_bytes(texts);
    places_of_other_bytes(texts);
    other_texts(texts);
    digits(texts);
    many_digits(texts);
    few_numbers(texts);
    white_space(texts);
}

// ---- the length ----

/// A ring of one task in so many bytes, the last of which is a turn.
fn full(length: usize) -> Vec<u8> {
    let begin = if length % 2 == 0 { "\n2 1 0" } else { "2 1 0" };
    let turns = " 0".repeat((length - begin.len()) / 2);
    format!("{begin}{turns}").into_bytes()
}

/// Texts of 65,536 bytes that are taken, and one of a byte less.
fn longest(texts: &mut Texts) {
    texts.add("taken-bytes-65535", full(MAX_TEXT - 1));
    texts.add("taken-bytes-65536", full(MAX_TEXT));
    texts.add("taken-bytes-65536-spaces-last", apart("2 1 0", " ", "", MAX_TEXT));
    texts.add("taken-bytes-65536-line-feeds-last", apart("2 1 0", "\n", "", MAX_TEXT));
    texts.add("taken-bytes-65536-spaces-first", apart("", " ", "2 1 0", MAX_TEXT));
    texts.add("taken-bytes-65536-line-feeds-first", apart("", "\n", "2 1 0", MAX_TEXT));
    texts.add("taken-bytes-65536-modulus-last", apart("2 1", " ", "0", MAX_TEXT));
    texts.add("taken-bytes-65536-turn-last", apart("2 1 0", " ", "0", MAX_TEXT));
    texts.add("taken-bytes-65536-five-digits-last", apart("2 1 0", " ", "00000", MAX_TEXT));
}

/// Texts of 65,536 bytes that are refused for what stands at their end.
fn longest_refused(texts: &mut Texts) {
    texts.add("refused-1-bytes-65536-spaces-alone", apart("", " ", "", MAX_TEXT));
    texts.add("refused-1-bytes-65536-two-numbers", apart("2", "\n", "1", MAX_TEXT));
    texts.add("refused-1-bytes-65536-six-digits-last", apart("2 1 0", " ", "000000", MAX_TEXT));
    texts.add("refused-1-bytes-65536-digits-alone", apart("", "0", "", MAX_TEXT));
    texts.add("refused-9-place-0-bytes-65536-turn-last", apart("2 1 0", " ", "1", MAX_TEXT));
    let mut text = full(MAX_TEXT);
    text[MAX_TEXT - 1] = b'1';
    texts.add("refused-9-place-32764-bytes-65536", text.clone());
    text[MAX_TEXT - 1] = b'\t';
    texts.add("refused-1-bytes-65536-tab-last", text.clone());
    text[MAX_TEXT - 1] = 0;
    texts.add("refused-1-bytes-65536-nul-last", text);
}

/// The 65,537th byte alone is too many, whatever it is.
fn one_byte_more(texts: &mut Texts) {
    for (name, byte) in [
        ("digit", b'0'),
        ("other-digit", b'1'),
        ("space", b' '),
        ("line-feed", b'\n'),
        ("tab", b'\t'),
        ("carriage-return", b'\r'),
        ("minus", b'-'),
        ("letter", b'x'),
        ("nul", 0),
        ("255", 255),
    ] {
        let mut text = full(MAX_TEXT);
        text.push(byte);
        texts.add(format!("refused-1-bytes-65537-{name}-last"), text);
    }
}

/// Texts that are too long, with numbers, white space or wrong bytes beyond 65,536 bytes.
fn too_long(texts: &mut Texts) {
    let more = MAX_TEXT + 1;
    texts.add("refused-1-bytes-65537-another-turn", full(more));
    texts.add("refused-1-bytes-65537-turn-of-no-task", apart("2 1 0", " ", "1", more));
    texts.add("refused-1-bytes-65537-spaces-last", apart("2 1 0", " ", "", more));
    texts.add("refused-1-bytes-65537-spaces-first", apart("", " ", "2 1 0", more));
    texts.add("refused-1-bytes-65537-third-number-last", apart("2 1", " ", "0", more));
    texts.add("refused-1-bytes-65537-sixth-digit", apart("2 1 0", " ", "000000", more));
    texts.add("refused-1-bytes-65538-carriage-return", apart("2 1 0", "\n", "\r\n", more + 1));
    texts.add("refused-1-bytes-65541", apart("2 1 0", " ", "", MAX_TEXT + 5));
    texts.add("refused-1-bytes-70000", full(70_000));
    texts.add("refused-1-bytes-131072", full(2 * MAX_TEXT));
    texts.add("refused-1-bytes-131077", apart("2 1 0", " ", "", 2 * MAX_TEXT + 5));
    texts.add("refused-1-bytes-300000", full(300_000));
}

// ---- the bytes ----

/// Each byte that a text can't have, among the turns.
fn other_bytes(texts: &mut Texts) {
    let known = |byte: &u8| byte.is_ascii_digit() || *byte == b' ' || *byte == b'\n';
    for byte in (0..=255).filter(|byte| !known(byte)) {
        let text = [b"2 1 0 0 ", &[byte][..], b" 0"].concat();
        texts.add(format!("refused-1-byte-{byte:03}"), text);
    }
}

/// Wrong bytes at the begin, in and between numbers, at the end and alone.
fn places_of_other_bytes(texts: &mut Texts) {
    for (name, byte) in [
        ("tab", b'\t'),
        ("carriage-return", b'\r'),
        ("minus", b'-'),
        ("plus", b'+'),
        ("letter", b'x'),
        ("nul", 0),
        ("255", 255),
    ] {
        let byte = &[byte][..];
        texts.add(format!("refused-1-{name}-first"), [byte, b"2 1 0 0 0"].concat());
        texts.add(format!("refused-1-{name}-in-the-head"), [b"2", byte, b"1 0 0 0"].concat());
        texts.add(format!("refused-1-{name}-in-a-number"), [b"2 1 0 0", byte, b"0 0"].concat());
        texts.add(format!("refused-1-{name}-last"), [b"2 1 0 0 0", byte].concat());
        texts.add(format!("refused-1-{name}-on-a-line"), [b"2 1 0\n", byte, b"\n0\n"].concat());
        texts.add(format!("refused-1-{name}-alone"), byte);
    }
}

/// Texts that other readers of numbers might take.
fn other_texts(texts: &mut Texts) {
    texts.add("refused-1-lines-of-windows", "2 1 0\r\n0 0\r\n");
    texts.add("refused-1-commas", "2,1,0,0,0");
    texts.add("refused-1-minus-zero", "2 1 -0");
    texts.add("refused-1-fraction", "2 1 0.0");
    texts.add("refused-1-hexadecimal", "2 1 0x0");
    texts.add("refused-1-exponent", "2 1 0e0");
    texts.add("refused-1-byte-order-mark", "\u{feff}2 1 0");
    texts.add("refused-1-wide-space", "2\u{a0}1\u{a0}0");
    texts.add("refused-1-other-digits", "2 1 0 \u{660}");
    texts.add("refused-1-comment", "2 1 0 # no turns");
}

// ---- the digits ----

/// A kind, N, R, parent and turn of many digits.
fn digits(texts: &mut Texts) {
    for (place, name) in ["kind", "n", "modulus", "parent", "turn"].into_iter().enumerate() {
        digits_at(texts, place, name);
    }
}

/// One number of five digits, then of more.
fn digits_at(texts: &mut Texts, place: usize, name: &str) {
    for (answer, width) in [("taken", 5), ("refused-1", 6), ("refused-1", 7)] {
        let mut words = ["3", "1", "0", "0", "0"].map(String::from);
        words[place] = format!("{:0>width$}", words[place]);
        texts.add(format!("{answer}-{name}-of-{width}-digits"), words.join(" "));
    }
}

/// Long numbers, some of which are small once they are cut to 32 or 64 bits.
fn many_digits(texts: &mut Texts) {
    texts.add("taken-all-of-five-digits", "00003 00001 00000 00000 00000");
    texts.add("refused-9-place-0-turn-of-five-digits", "2 1 0 99999");
    texts.add("refused-1-turn-100000", "2 1 0 100000");
    texts.add("refused-1-turn-2-to-the-32", "2 1 0 4294967296");
    texts.add("refused-1-turn-2-to-the-64", "2 1 0 18446744073709551616");
    texts.add("refused-1-kind-2-to-the-64", "18446744073709551617 1 0");
    texts.add("refused-1-hundred-zeros", format!("2 1 0 {}", "0".repeat(100)));
    texts.add("refused-1-six-digits-after-many-turns", format!("2 1 0{} 000000", " 0".repeat(999)));
    texts.add("refused-1-numbers-without-a-gap", "210000");
}

// ---- the numbers ----

/// Texts with fewer than three numbers, and with just three.
fn few_numbers(texts: &mut Texts) {
    texts.add("refused-1-empty", "");
    texts.add("refused-1-one-space", " ");
    texts.add("refused-1-one-line-feed", "\n");
    texts.add("refused-1-white-space-alone", " \n\n   \n ");
    texts.add("refused-1-one-number", "2");
    texts.add("refused-1-two-numbers", "2 1");
    texts.add("refused-1-two-numbers-space-last", "2 1 ");
    texts.add("refused-1-two-numbers-line-feed-last", "2 1\n");
    texts.add("refused-1-two-numbers-of-five-digits", "00002 00001");
    texts.add("refused-1-two-numbers-three-digits", "2 10");
    texts.add("refused-1-two-numbers-tree", "3 1");
    texts.add("taken-three-numbers", "2 1 0");
    texts.add("taken-three-numbers-line-feed-last", "2 1 0\n");
    texts.add("taken-three-numbers-on-lines", "2\n1\n0");
}

/// White space of every sort in texts that are taken.
fn white_space(texts: &mut Texts) {
    texts.add("taken-no-line-feed-last", "2 2 0 0 1 0 1");
    texts.add("taken-line-feed-last", "2 2 0 0 1 0 1\n");
    texts.add("taken-line-feeds-last", "2 2 0 0 1 0 1\n\n\n");
    texts.add("taken-spaces-last", "2 2 0 0 1 0 1   ");
    texts.add("taken-spaces-first", "    2 2 0 0 1 0 1");
    texts.add("taken-line-feeds-first", "\n\n\n2 2 0 0 1 0 1");
    texts.add("taken-mixed-white-space-first", " \n  \n\n 2 2 0 0 1 0 1");
    texts.add("taken-mixed-white-space-last", "2 2 0 0 1 0 1 \n  \n\n ");
    texts.add("taken-mixed-white-space-between", "2 \n 2\n\n0   0\n1 \n\n \n0\n 1");
    texts.add("taken-mixed-white-space", "\n  2\n2 \n0 \n\n\n0 1  0\n \n1\n \n");
    texts.add("taken-each-number-on-a-line", "2\n2\n0\n0\n1\n0\n1\n");
    texts.add("taken-parents-over-lines", "3\n3 0 0\n\n0 \n 1\n2 2 2 2\n1 1 1 0\n");
}
