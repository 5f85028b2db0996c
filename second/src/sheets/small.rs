//! Small random texts: good ones, and ones with a number or a few bytes changed.

use super::texts::{strewn, wide, Texts, LARGE};
use crate::parents;
use crate::random::Random;
use crate::schedules;
use crate::spelling::misspell;

/// How many texts there are of each sort.
const EACH: usize = 60;

/// The bytes that are put in; most of them leave the text readable.
const BYTES: &[u8] = b"0123456789001122      \n\n\n-x\t\r\0\xff";

pub fn add(texts: &mut Texts, random: &mut Random) {
    for number in 0..EACH {
        let numbers = good(random);
        texts.add(format!("taken-random-{number:03}"), spelt(random, &numbers));
        let numbers = with_another_number(random);
        texts.add(format!("varied-number-{number:03}"), spelt(random, &numbers));
        let numbers = cut(random);
        texts.add(format!("varied-cut-{number:03}"), spelt(random, &numbers));
        texts.add(format!("varied-bytes-{number:03}"), misspelt(random));
    }
}

/// The numbers of a text that is taken.
fn good(random: &mut Random) -> Vec<u64> {
    let kind = random.below(5);
    let n = if random.once_in(6) { random.length(1, 64) } else { random.length(1, 5) };
    let modulus = if kind == 0 { random.pick(&[3, 3, 4, 5, 254, 255]) } else { 0 };
    let parents = parents::any(random, if kind == 3 { n } else { 0 });
    let length = random.length(0, 20 + 30 * n);
    let schedule = schedules::any(random, n, length);
    [vec![kind, n as u64, modulus], wide(&parents), wide(&schedule)].concat()
}

/// Good numbers, one of which is changed: any, one of the first three, or one soon after them.
fn with_another_number(random: &mut Random) -> Vec<u64> {
    let mut numbers = good(random);
    let last = numbers.len() - 1;
    let place = match random.below(3) {
        0 => random.length(0, last),
        1 => random.length(0, 2),
        _ => random.length(2, last.min(7)),
    };
    numbers[place] = if random.once_in(2) { random.pick(&LARGE) } else { random.below(7) };
    numbers
}

/// Good numbers, of which the last are missing.
fn cut(random: &mut Random) -> Vec<u64> {
    let mut numbers = good(random);
    let last = if random.once_in(2) { numbers.len() } else { numbers.len().min(9) };
    numbers.truncate(random.length(0, last));
    numbers
}

/// A good text with one byte changed, or up to three.
fn misspelt(random: &mut Random) -> Vec<u8> {
    let numbers = good(random);
    let mut text = spelt(random, &numbers);
    for _ in 0..random.length(1, 3) {
        misspell(random, &mut text, BYTES);
    }
    text
}

/// The numbers in strewn words, now and then with white space before them.
fn spelt(random: &mut Random, numbers: &[u64]) -> Vec<u8> {
    let before = random.pick(&["", "", "", " ", "\n", " \n  "]);
    let words: String = numbers.iter().map(|&number| strewn(random, number)).collect();
    let whole = format!("{before}{words}");
    let text = if random.once_in(2) { whole.trim_end() } else { &whole };
    text.as_bytes().to_vec()
}
