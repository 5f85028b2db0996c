//! Where the numbers of a text stand: their places, digits and values. What the numbers mean is the proved library's to say.

/// A run of digits.
#[derive(Clone, Copy, Debug, PartialEq, Eq)]
pub struct Number {
    /// Of its first digit, from the text's first byte.
    pub offset: usize,
    pub digits: usize,
    /// As far as it goes: a longer number has the greatest value.
    pub value: usize,
}

/// A byte that a text may have.
pub fn is_readable(byte: u8) -> bool {
    byte.is_ascii_digit() || byte == b' ' || byte == b'\n'
}

/// The numbers of a text, in their order. Every byte that is no digit ends a number.
pub fn of(text: &[u8]) -> Vec<Number> {
    let mut numbers = Vec::new();
    let mut offset = 0;
    for run in text.split(|byte| !byte.is_ascii_digit()) {
        if !run.is_empty() {
            numbers.push(Number { offset, digits: run.len(), value: value(run) });
        }
        offset += run.len() + 1;
    }
    numbers
}

fn value(digits: &[u8]) -> usize {
    digits.iter().fold(0, |value: usize, digit| {
        value.saturating_mul(10).saturating_add(usize::from(digit - b'0'))
    })
}

/// The line and the column of a byte, both from 1.
pub fn line_and_column(text: &[u8], offset: usize) -> (usize, usize) {
    let before = &text[..offset.min(text.len())];
    let line = before.iter().filter(|&&byte| byte == b'\n').count() + 1;
    let begin = before.iter().rposition(|&byte| byte == b'\n').map_or(0, |feed| feed + 1);
    (line, offset - begin + 1)
}
