//! The causes among the numbers before the tables: the kind, N and R, which every text begins with,
//! and a setup's lengths.

use super::text::Text;
use super::Cause;
use crate::machine::{SYMMETRIC, TREE};
use crate::refusal::Refusal;

/// The cause of 2, 3 or 4.
pub fn number_of_both(text: &Text, refusal: Refusal) -> Option<Cause> {
    let kind = text.number(1).value;
    let (place, name, range) = match refusal {
        Refusal::Kind => (1, "the kind", "0 to 4".into()),
        Refusal::TaskCount => (2, "N", "1 to 64".into()),
        Refusal::Modulus if is_symmetric(text) => (3, "R", "3 to 255 for kind 0".into()),
        Refusal::Modulus => (3, "R", format!("0 for kind {kind}")),
        _ => return None,
    };
    Some(wrong(text, place, name, &range))
}

/// The cause of 5: NP.
pub fn parents_length(text: &Text) -> Cause {
    let (kind, n) = (text.number(1).value, text.number(2).value);
    let length = if kind == u64::from(TREE) { n } else { 0 };
    wrong(text, 4, "NP", &format!("{length} for kind {kind}"))
}

/// NS, if it is a cause of 12.
pub fn starts_length(text: &Text) -> Option<Cause> {
    let (kind, n, length) = (text.number(1).value, text.number(2).value, text.number(5).value);
    if !is_symmetric(text) {
        return (length != 0).then(|| wrong(text, 5, "NS", &format!("0 for kind {kind}")));
    }
    (length != 0 && length != n).then(|| wrong(text, 5, "NS", &format!("0 or {n}")))
}

/// NW, if it is a cause of 15.
pub fn works_length(text: &Text) -> Option<Cause> {
    let (n, length) = (text.number(2).value, text.number(6).value);
    (length != 0 && length != n).then(|| wrong(text, 6, "NW", &format!("0 or {n}")))
}

fn is_symmetric(text: &Text) -> bool {
    text.number(1).value == u64::from(SYMMETRIC)
}

/// A number that isn't what it must be.
fn wrong(text: &Text, place: usize, name: &str, range: &str) -> Cause {
    let number = text.number(place);
    Cause::new(number.at, format!("{name} is {}, and must be {range}", number.value))
}
