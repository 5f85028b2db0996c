//! The causes of reason 1. Where several apply, the first in this order is given: the length, the
//! bytes, the digits, then how many numbers there are.

use super::text::Text;
use super::{Cause, HEAD_OF_A_SETUP, HEAD_OF_A_SHEET};
use crate::sheet::{is_known, MAX_DIGITS, MAX_TEXT};

/// The cause in a sheet's text.
pub fn of_sheet(text: &Text) -> Option<Cause> {
    spelling(text).or_else(|| too_few(text, HEAD_OF_A_SHEET))
}

/// The cause in a setup.
pub fn of_setup(text: &Text) -> Option<Cause> {
    spelling(text).or_else(|| too_few(text, HEAD_OF_A_SETUP)).or_else(|| other_count(text))
}

/// A cause that has nothing to do with how many numbers there are.
fn spelling(text: &Text) -> Option<Cause> {
    too_long(text).or_else(|| other_byte(text)).or_else(|| long_number(text))
}

fn too_long(text: &Text) -> Option<Cause> {
    let cause = || Cause::new(MAX_TEXT, "byte 65537 of the text, which may have 65536");
    (text.bytes.len() > MAX_TEXT).then(cause)
}

fn other_byte(text: &Text) -> Option<Cause> {
    let at = text.bytes.iter().position(|byte| !is_known(byte))?;
    let what = what(text.bytes[at], &text.bytes[at + 1..]);
    Some(Cause::new(at, format!("{what}, which isn't a digit, a space or a line feed")))
}

/// What a wrong byte is called, by itself and by what follows it.
fn what(byte: u8, after: &[u8]) -> String {
    match (byte, after) {
        (239, [187, 191, ..]) => "a byte-order mark".into(),
        (255, [254, ..]) | (254, [255, ..]) => "a byte-order mark of UTF-16".into(),
        (13, _) => "a carriage return".into(),
        (9, _) => "a tab".into(),
        (44, _) => "a comma".into(),
        (33..=126, _) => format!("the character '{}'", char::from(byte)),
        _ => format!("the byte {byte}"),
    }
}

fn long_number(text: &Text) -> Option<Cause> {
    let number = text.numbers.iter().find(|number| number.digits > MAX_DIGITS)?;
    let words = format!("a number of {} digits, which may have 5", number.digits);
    Some(Cause::new(number.at, words))
}

/// Fewer numbers than the head has.
fn too_few(text: &Text, head: usize) -> Option<Cause> {
    let count = text.numbers.len();
    let words = || format!("the text ends here with {count} numbers, and needs {head} or more");
    (count < head).then(|| Cause::new(text.bytes.len(), words()))
}

/// Fewer or more numbers than a setup's lengths say. A text with its head has the lengths.
fn other_count(text: &Text) -> Option<Cause> {
    let lengths: u64 = [4, 5, 6].map(|place| text.number(place).value).iter().sum();
    let (said, count) = (HEAD_OF_A_SETUP + lengths as usize, text.numbers.len());
    if count < said {
        let words = format!("the text ends here with {count} numbers, and its lengths say {said}");
        return Some(Cause::new(text.bytes.len(), words));
    }
    let next = text.numbers.get(said)?;
    let words = format!("number {} of the text, and its lengths say {said}", said + 1);
    Some(Cause::new(next.at, words))
}
