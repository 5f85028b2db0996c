//! Setups around reason 1: the length, the bytes, the digits and the numbers of their texts.

use super::list::Plays;
use crate::sheet::MAX_TEXT;
use crate::sheets::texts::apart;

/// A ring of two tasks.
const RING: &str = "2 2 0 0 0 0";

pub fn add(plays: &mut Plays) {
    longest(plays);
    too_long(plays);
    other_bytes(plays);
    digits(plays);
    few_numbers(plays);
    other_lengths(plays);
    work_tables(plays);
    white_space(plays);
}

/// A tree's setup in so many bytes, most of which are zeros before the zeros of too many parents.
fn full(length: usize) -> String {
    let parents = " 00000".repeat(10_919);
    apart("", "\n", &format!("3 2 0 10919 0 0{parents}"), length)
}

/// Texts of 65,536 bytes.
fn longest(plays: &mut Plays) {
    plays.text("agrees-bytes-65536-spaces-last", apart(RING, " ", "", MAX_TEXT));
    plays.text("agrees-bytes-65536-line-feeds-first", apart("", "\n", RING, MAX_TEXT));
    plays.text("agrees-bytes-65536-spaces-between", apart("2 2 0 0 0", " ", "0", MAX_TEXT));
    plays.text("refused-5-bytes-65536-many-zeros", full(MAX_TEXT));
    plays.text("refused-1-bytes-65536-five-numbers", apart("2 2 0 0", " ", "0", MAX_TEXT));
    plays.text("refused-1-bytes-65536-one-number-more", apart(RING, " ", "0", MAX_TEXT));
}

/// Texts of more bytes.
fn too_long(plays: &mut Plays) {
    let more = MAX_TEXT + 1;
    plays.text("refused-1-bytes-65537-spaces-last", apart(RING, " ", "", more));
    plays.text("refused-1-bytes-65537-line-feed-last", apart(RING, " ", "\n", more));
    plays.text("refused-1-bytes-65537-spaces-between", apart("2 2 0 0 0", " ", "0", more));
    plays.text("refused-1-bytes-65537-many-zeros", full(more));
    plays.text("refused-1-bytes-131083", apart(RING, " ", "", 2 * MAX_TEXT + RING.len()));
}

/// Bytes other than digits, spaces and line feeds.
fn other_bytes(plays: &mut Plays) {
    for (name, byte) in [("carriage-return", "\r"), ("tab", "\t"), ("comma", ","), ("nul", "\0")] {
        plays.text(format!("refused-1-{name}-between"), format!("2 2 0{byte}0 0 0"));
        plays.text(format!("refused-1-{name}-last"), format!("{RING}{byte}"));
    }
    plays.text("refused-1-minus", "2 2 -0 0 0 0");
    plays.text("refused-1-letter-last", format!("{RING}x"));
    plays.text("refused-1-byte-255-last", [RING.as_bytes(), &[255]].concat());
    plays.text("refused-1-lines-of-windows", format!("{RING}\r\n"));
    plays.text("refused-1-byte-order-mark", format!("\u{feff}{RING}"));
}

/// Six digits of each number and of a parent, a start and a work length, and five.
fn digits(plays: &mut Plays) {
    for (setup, place, name) in [
        (RING, 0, "kind"),
        (RING, 1, "n"),
        (RING, 2, "modulus"),
        (RING, 3, "parents-length"),
        (RING, 4, "starts-length"),
        (RING, 5, "works-length"),
        ("3 2 0 2 0 0 0 0", 7, "parent"),
        ("0 2 3 0 2 0 1 0", 7, "start"),
        ("2 2 0 0 0 2 1 1", 7, "work"),
    ] {
        let mut words: Vec<String> = setup.split(' ').map(String::from).collect();
        words[place] = format!("{:0>6}", words[place]);
        plays.text(format!("refused-1-{name}-of-six-digits"), words.join(" "));
    }
    plays.text("agrees-five-digits", "00002 00002 00000 00000 00000 00000");
    plays.text("agrees-parents-of-five-digits", "3 2 0 2 0 0 00000 00000");
    plays.text("agrees-starts-of-five-digits", "0 2 3 0 2 0 00001 00000");
    plays.text("agrees-works-of-five-digits", "2 2 0 0 0 2 00003 00001");
    plays.text("refused-1-kind-2-to-the-64-and-2", "18446744073709551618 2 0 0 0 0");
    plays.text("refused-1-parent-100000", "3 2 0 2 0 0 0 100000");
}

/// Fewer than six numbers, and just six.
fn few_numbers(plays: &mut Plays) {
    plays.text("refused-1-empty", "");
    plays.text("refused-1-white-space-alone", " \n\n  ");
    for numbers in [1, 3, 5] {
        plays.text(format!("refused-1-numbers-{numbers}"), &RING[..2 * numbers - 1]);
    }
    plays.text("agrees-numbers-6", RING);
    plays.text("refused-1-numbers-without-a-gap", "22000");
}

/// One number more and one fewer than the lengths say, and lengths that no text can have.
fn other_lengths(plays: &mut Plays) {
    plays.text("refused-1-one-more-than-none", "2 2 0 0 0 0 0");
    plays.text("refused-1-a-turn-after-the-numbers", "2 2 0 0 0 0 0 11 1");
    plays.text("refused-1-one-parent-fewer", "3 2 0 2 0 0 0");
    plays.text("refused-1-one-parent-more", "3 2 0 2 0 0 0 0 0");
    plays.text("refused-1-one-start-fewer", "0 2 3 0 2 0 1");
    plays.text("refused-1-one-start-more", "0 2 3 0 2 0 1 0 0");
    plays.text("refused-1-one-work-fewer", "2 2 0 0 0 2 1");
    plays.text("refused-1-one-work-more", "2 2 0 0 0 2 1 1 1");
    plays.text("refused-1-works-length-65536", "2 2 0 0 0 65536");
    plays.text("refused-1-all-lengths-99999", "0 2 3 99999 99999 99999 0");
    plays.text("refused-1-parents-length-99999", "3 2 0 99999 0 0 0 0");
    plays.text("refused-1-starts-length-65536", "0 2 3 0 65536 0");
    plays.text("refused-1-both-lengths-99999", "0 2 3 99999 99999 0 0");
    plays.text("refused-5-both-tables", "0 2 3 1 1 0 0 0");
    plays.text("refused-12-both-tables", "3 2 0 2 2 0 0 0 1 0");
}

/// Work tables, alone and after the others: just the numbers that the lengths say, one more and one
/// fewer.
fn work_tables(plays: &mut Plays) {
    plays.text("refused-15-works-length-1", "2 2 0 0 0 1 1");
    plays.text("refused-1-works-length-1-no-works", "2 2 0 0 0 1");
    plays.text("agrees-works-after-starts", "0 2 3 0 2 2 1 0 1 1");
    plays.text("refused-1-works-after-starts-one-fewer", "0 2 3 0 2 2 1 0 1");
    plays.text("refused-1-works-after-starts-one-more", "0 2 3 0 2 2 1 0 1 1 1");
    plays.text("agrees-works-after-parents", "3 2 0 2 0 2 0 0 1 1");
    plays.text("refused-1-works-after-parents-one-fewer", "3 2 0 2 0 2 0 0 1");
    plays.text("refused-1-works-after-parents-one-more", "3 2 0 2 0 2 0 0 1 1 1");
    // In another order of the tables the works would be starts.
    plays.text("refused-12-works-before-starts", "0 2 3 0 2 2 3 2 1 0");
}

/// White space of every sort in texts that are taken.
fn white_space(plays: &mut Plays) {
    plays.text("agrees-line-feed-last", format!("{RING}\n"));
    plays.text("agrees-line-feeds-last", format!("{RING}\n\n\n"));
    plays.text("agrees-each-number-on-a-line", RING.replace(' ', "\n"));
    plays.text("agrees-several-spaces", RING.replace(' ', "    "));
    plays.text("agrees-mixed-white-space", "\n 2\n\n2 \n 0  0\n0 \n \n0 \n");
    plays.text("agrees-parents-over-lines", "3 3 0 3 0 0\n0\n\n0 1\n");
    plays.text("agrees-tables-on-lines", "00 03 003\n0 3 0\n\n01 002 00000");
    plays.text("agrees-works-on-lines", "00 03 003\n0 3 3\n\n01 002 00000\n\n255 1\n\n2");
}
