//! Holds the answers of another program against those that were written, line by line.

use super::{ANSWERS, REQUESTS};
use std::fmt;
use std::fs;
use std::io;
use std::path::Path;

/// The most bytes that are shown of a request or of an answer, and those of an answer that are shown
/// before the number that differs.
const SHOWN: usize = 150;
const BEFORE: usize = 60;

/// The first request to which the answers differ.
#[derive(Debug, PartialEq, Eq)]
pub struct Difference {
    /// The request's number, from 1.
    pub number: usize,
    pub request: String,
    /// Which number of the answer differs first, from 1.
    pub place: usize,
    pub expected: String,
    pub answered: String,
}

impl fmt::Display for Difference {
    fn fmt(&self, out: &mut fmt::Formatter<'_>) -> fmt::Result {
        writeln!(out, "a difference in request {}: {}", self.number, self.request)?;
        writeln!(out, "at number {} of the answer", self.place)?;
        writeln!(out, "expected: {}", self.expected)?;
        writeln!(out, "answered: {}", self.answered)
    }
}

/// Compares the answers in a file with those in a folder. Gives the number of requests, or the
/// first difference.
pub fn compare(folder: &Path, answered: &Path) -> io::Result<Result<usize, Difference>> {
    let (requests, answers) = (fs::read(folder.join(REQUESTS))?, fs::read(folder.join(ANSWERS))?);
    Ok(difference(&requests, &answers, &fs::read(answered)?))
}

/// The same of texts.
pub fn difference(requests: &[u8], answers: &[u8], answered: &[u8]) -> Result<usize, Difference> {
    let [requests, answers, answered] = [requests, answers, answered].map(lines);
    let longest = answers.len().max(answered.len());
    let Some(line) = (0..longest).find(|&line| answers.get(line) != answered.get(line)) else {
        return Ok(answers.len());
    };
    let (expected, given) = (answers.get(line).copied(), answered.get(line).copied());
    let byte = first_other_byte(expected.unwrap_or(b""), given.unwrap_or(b""));
    let common = &expected.or(given).unwrap_or(b"")[..byte];
    let number = common.iter().rposition(|&byte| byte == b' ').map_or(0, |space| space + 1);
    let shown = |answer: Option<&[u8]>| match answer {
        Some(answer) => part(answer, number.saturating_sub(BEFORE)),
        None => "no line".to_string(),
    };
    Err(Difference {
        number: line + 1,
        request: requests.get(line).map_or("none".to_string(), |request| part(request, 0)),
        place: common[..number].iter().filter(|&&byte| byte == b' ').count() + 1,
        expected: shown(expected),
        answered: shown(given),
    })
}

/// The lines of a text; the last one may be without a line feed.
fn lines(text: &[u8]) -> Vec<&[u8]> {
    let mut lines: Vec<&[u8]> = text.split(|&byte| byte == b'\n').collect();
    if lines.last().is_some_and(|last| last.is_empty()) {
        lines.pop();
    }
    lines
}

/// How many bytes the two have in common at their begin.
fn first_other_byte(one: &[u8], other: &[u8]) -> usize {
    one.iter().zip(other).take_while(|(one, other)| one == other).count()
}

/// The part that is shown, from a byte on.
fn part(line: &[u8], from: usize) -> String {
    let rest = &line[from.min(line.len())..];
    rest[..rest.len().min(SHOWN)].escape_ascii().to_string()
}
