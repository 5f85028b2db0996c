//! Lines of numbers: the requests of an input and the answers to them. `second/try` builds this file
//! once, as a library, and the wrong variants over it: they spend most of their time here.

use std::io::{self, BufRead, Write};

/// The most bytes of a request line, its line feed left out.
pub const MAX_LINE: usize = 1_048_576;

/// The most digits of a number.
const MAX_DIGITS: usize = 20;

/// Answers every line, the replay's or the calls'; the last one may be without a line feed.
pub fn answer(
    input: &mut dyn BufRead,
    output: &mut dyn Write,
    answer: &mut dyn FnMut(&[u8]) -> String,
) -> io::Result<()> {
    let mut line = Vec::new();
    while read_line(input, &mut line)? {
        output.write_all(answer(&line).as_bytes())?;
        output.write_all(b"\n")?;
    }
    output.flush()
}

/// Reads a line without its line feed, and of too long a line no more than shows that it is.
/// Gives false where the input has ended.
fn read_line(input: &mut dyn BufRead, line: &mut Vec<u8>) -> io::Result<bool> {
    line.clear();
    let mut begun = false;
    loop {
        let chunk = input.fill_buf()?;
        if chunk.is_empty() {
            return Ok(begun);
        }
        begun = true;
        let end = chunk.iter().position(|&byte| byte == b'\n');
        let part = &chunk[..end.unwrap_or(chunk.len())];
        let room = MAX_LINE + 1 - line.len();
        line.extend_from_slice(&part[..part.len().min(room)]);
        let used = part.len() + usize::from(end.is_some());
        input.consume(used);
        if end.is_some() {
            return Ok(true);
        }
    }
}

/// The numbers of a line, or none if it isn't a line of numbers.
pub fn numbers(line: &[u8]) -> Option<Vec<u64>> {
    if line.len() > MAX_LINE {
        return None;
    }
    line.split(|&byte| byte == b' ').map(number).collect()
}

/// The number that the digits write, or none if there are other bytes, none or too many of them,
/// or the number is 2^64 or more.
fn number(digits: &[u8]) -> Option<u64> {
    if digits.is_empty() || digits.len() > MAX_DIGITS {
        return None;
    }
    digits.iter().try_fold(0_u64, |number, digit| {
        let digit = digit.is_ascii_digit().then(|| u64::from(digit - b'0'))?;
        number.checked_mul(10)?.checked_add(digit)
    })
}

/// The numbers as bytes, if they fit and aren't too many.
pub fn bytes(numbers: &[u64], most: usize) -> Option<Vec<u8>> {
    if numbers.len() > most {
        return None;
    }
    numbers.iter().map(|&number| u8::try_from(number).ok()).collect()
}

/// Appends numbers to a line, with a single space between any two.
pub fn append(line: &mut String, numbers: &[u64]) {
    for &number in numbers {
        append_number(line, number);
    }
}

/// The same of bytes.
pub fn append_bytes(line: &mut String, bytes: &[u8]) {
    for &byte in bytes {
        append_number(line, byte.into());
    }
}

/// The same of numbers of 32 bits.
pub fn append_words(line: &mut String, words: &[u32]) {
    for &word in words {
        append_number(line, word.into());
    }
}

fn append_number(line: &mut String, mut number: u64) {
    let mut digits = [0; MAX_DIGITS];
    let mut first = MAX_DIGITS;
    loop {
        first -= 1;
        digits[first] = b'0' + (number % 10) as u8;
        number /= 10;
        if number == 0 {
            break;
        }
    }
    if !line.is_empty() {
        line.push(' ');
    }
    line.push_str(str::from_utf8(&digits[first..]).unwrap_or_default());
}
