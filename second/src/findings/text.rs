//! A text with its numbers and the places of its bytes.

/// A number of a text: how many bytes stand before its first digit, how many digits it has, and
/// what they write. One that doesn't fit is the largest; it has too many digits anyway.
pub struct Number {
    pub at: usize,
    pub digits: usize,
    pub value: u64,
}

pub struct Text<'a> {
    pub bytes: &'a [u8],
    pub numbers: Vec<Number>,
}

impl Text<'_> {
    pub fn new(bytes: &[u8]) -> Text<'_> {
        let digit = |at: usize| bytes[at].is_ascii_digit();
        let begins = |&at: &usize| digit(at) && (at == 0 || !digit(at - 1));
        let numbers = (0..bytes.len()).filter(begins).map(|at| number_at(bytes, at)).collect();
        Text { bytes, numbers }
    }

    /// A number by its place from the front, from 1; the text has it.
    pub fn number(&self, place: usize) -> &Number {
        &self.numbers[place - 1]
    }

    /// The line and the column of a byte, or of the text's end, before which so many bytes stand.
    pub fn place(&self, at: usize) -> String {
        let before = &self.bytes[..at];
        let feeds = before.iter().filter(|&&byte| byte == b'\n').count();
        let begin = before.iter().rposition(|&byte| byte == b'\n').map_or(0, |feed| feed + 1);
        format!("line {}, column {}", feeds + 1, at - begin + 1)
    }
}

/// The number whose first digit stands here.
fn number_at(bytes: &[u8], at: usize) -> Number {
    let digits = bytes[at..].iter().take_while(|byte| byte.is_ascii_digit());
    let append =
        |value: u64, digit: &u8| value.saturating_mul(10).saturating_add((digit - b'0').into());
    Number { at, digits: digits.clone().count(), value: digits.fold(0, append) }
}
