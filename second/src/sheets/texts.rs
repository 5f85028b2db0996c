//! The list of sheet texts with their names, and what the texts are put together from.

use crate::machine::{SYMMETRIC, TREE};
use crate::random::Random;

/// Texts with names that say what they show. A text is refused for reason K where its name begins
/// with `refused-K`, at turn P with `refused-9-place-P`, and taken with `taken`; those that begin
/// with `varied` may be either. A test holds the names against the sheets.
#[derive(Default)]
pub struct Texts {
    list: Vec<(String, Vec<u8>)>,
}

impl Texts {
    pub fn add(&mut self, name: impl Into<String>, text: impl Into<Vec<u8>>) {
        self.list.push((name.into(), text.into()));
    }

    /// The names and texts so far.
    pub fn list(&self) -> &[(String, Vec<u8>)] {
        &self.list
    }
}

/// Numbers at and beyond the ends of a byte and of 16 bits, and the largest that a text can have.
/// Some would be 0 or 1 if they were cut to a byte or to 16 bits.
pub const LARGE: [u64; 7] = [255, 256, 257, 65_535, 65_536, 65_537, 99_999];

/// The kind, N, and an R and parents that fit them.
pub fn head(kind: u8, n: u64) -> Vec<u64> {
    let modulus = if kind == SYMMETRIC { 3 } else { 0 };
    let entries = if kind == TREE { n as usize } else { 0 };
    [vec![kind.into(), n, modulus], vec![0; entries]].concat()
}

/// The numbers with a space between any two.
pub fn spaced(numbers: &[u64]) -> String {
    numbers.iter().map(u64::to_string).collect::<Vec<_>>().join(" ")
}

/// Bytes as numbers.
pub fn wide(bytes: &[u8]) -> Vec<u64> {
    bytes.iter().map(|&byte| byte.into()).collect()
}

/// The two parts with a byte repeated between them, so that the text has this length.
pub fn apart(before: &str, byte: &str, after: &str, length: usize) -> String {
    let gap = byte.repeat(length - before.len() - after.len());
    format!("{before}{gap}{after}")
}

/// A number with needless zeros now and then, and the white space after it.
pub fn strewn(random: &mut Random, number: u64) -> String {
    let width = if random.once_in(4) { random.length(1, 5) } else { 1 };
    let gap = random.pick(&[" ", " ", " ", " ", "\n", "  ", "\n\n", " \n ", "\n   \n"]);
    format!("{number:0width$}{gap}")
}
