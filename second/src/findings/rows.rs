//! The rows of the tables of findings as they are written down, and those that the texts and the
//! plays have met. The rows are apart from the code that finds, so that words which are in no row
//! show.

use std::collections::BTreeSet;

/// A reason and the words of one of its causes. `#` is a number without needless zeros, and `?` any
/// character.
pub type Row = (u8, &'static str);

/// The rows that a sheet's text and a setup can meet.
const OF_BOTH: [Row; 15] = [
    (1, "byte 65537 of the text, which may have 65536"),
    (1, "a byte-order mark, which isn't a digit, a space or a line feed"),
    (1, "a byte-order mark of UTF-16, which isn't a digit, a space or a line feed"),
    (1, "a carriage return, which isn't a digit, a space or a line feed"),
    (1, "a tab, which isn't a digit, a space or a line feed"),
    (1, "a comma, which isn't a digit, a space or a line feed"),
    (1, "the character '?', which isn't a digit, a space or a line feed"),
    (1, "the byte #, which isn't a digit, a space or a line feed"),
    (1, "a number of # digits, which may have 5"),
    (2, "the kind is #, and must be 0 to 4"),
    (3, "N is #, and must be 1 to 64"),
    (4, "R is #, and must be 3 to 255 for kind 0"),
    (4, "R is #, and must be 0 for kind #"),
    (6, "the parent of task 0 is #, and must be 0"),
    (6, "the parent of task # is #, and must be below #"),
];

/// The rows that a sheet's text alone can meet.
const OF_SHEETS: [Row; 3] = [
    (1, "the text ends here with # numbers, and needs 3 or more"),
    (5, "the text ends here with # parents, and must have #"),
    (9, "turn # is #, and must be below #"),
];

/// The rows that a play alone can meet.
const OF_PLAYS: [Row; 12] = [
    (1, "the text ends here with # numbers, and needs 6 or more"),
    (1, "the text ends here with # numbers, and its lengths say #"),
    (1, "number # of the text, and its lengths say #"),
    (5, "NP is #, and must be # for kind 3"),
    (5, "NP is #, and must be 0 for kind #"),
    (8, "the trace has more than 65536 bytes"),
    (12, "NS is #, and must be 0 for kind #"),
    (12, "NS is #, and must be 0 or #"),
    (12, "the start of task # is #, and must be below #"),
    (14, "the trace has # bytes, which is no multiple of 3"),
    (15, "NW is #, and must be 0 or #"),
    (15, "the work length of task # is #, and must be 1 to 255"),
];

/// The rows of a sort of refused cases, with what has met them.
pub struct Met {
    rows: Vec<MetRow>,
    /// Findings that are of no row, or of several.
    strange: Vec<String>,
}

struct MetRow {
    row: Row,
    times: usize,
    places: BTreeSet<String>,
}

impl Met {
    /// None of the rows of sheets.
    pub fn sheets() -> Met {
        Met::of(&[&OF_BOTH[..], &OF_SHEETS].concat())
    }

    /// None of the rows of plays.
    pub fn plays() -> Met {
        Met::of(&[&OF_BOTH[..], &OF_PLAYS].concat())
    }

    fn of(rows: &[Row]) -> Met {
        let none = |&row: &Row| MetRow { row, times: 0, places: BTreeSet::new() };
        Met { rows: rows.iter().map(none).collect(), strange: Vec::new() }
    }

    /// Takes in a finding, a line.
    pub fn take(&mut self, finding: &str) {
        let places = self.rows.iter_mut().map(|met| (place_in(met.row, finding), met));
        let mut fitting = places.filter_map(|(place, met)| place.map(|place| (place, met)));
        match (fitting.next(), fitting.next()) {
            (Some((place, met)), None) => {
                met.times += 1;
                met.places.insert(place);
            }
            _ => self.strange.push(finding.to_string()),
        }
    }

    /// Whether each row was met twice, and at two places if it has one, and each finding is of one
    /// row; the words say which isn't.
    pub fn check(&self) -> Result<(), String> {
        if let Some(finding) = self.strange.first() {
            return Err(format!("'{}' isn't of one row", finding.escape_debug()));
        }
        let seldom = |met: &&MetRow| met.times < 2 || (has_place(met.row) && met.places.len() < 2);
        match self.rows.iter().find(seldom) {
            Some(met) => {
                let ((number, words), times, places) = (met.row, met.times, met.places.len());
                Err(format!("'{number}: {words}' is met {times} times, at {places} places"))
            }
            None => Ok(()),
        }
    }
}

/// Whether the row's cause stands in a text, and not in a trace.
fn has_place((number, _): Row) -> bool {
    number != 8 && number != 14
}

/// The place in a finding of this row, which is empty where the row has none; nothing if it isn't
/// of this row.
fn place_in(row: Row, finding: &str) -> Option<String> {
    let said = finding.strip_prefix(&format!("refused {}: ", row.0))?.strip_suffix('\n')?;
    let (place, words) = if has_place(row) { said.split_once(": ")? } else { ("", said) };
    let placed = !has_place(row) || fits("line #, column #", place);
    (placed && fits(row.1, words)).then(|| place.to_string())
}

/// Whether the words are those of the row.
fn fits(row: &str, words: &str) -> bool {
    let mut rest = words;
    for part in row.chars() {
        let length = match part {
            '#' => number_length(rest),
            '?' => rest.chars().next().map(char::len_utf8),
            _ => rest.starts_with(part).then(|| part.len_utf8()),
        };
        let Some(length) = length else {
            return false;
        };
        rest = &rest[length..];
    }
    rest.is_empty()
}

/// The length of the number that the words begin with, if it has no needless zero.
fn number_length(words: &str) -> Option<usize> {
    let digits = words.bytes().take_while(u8::is_ascii_digit).count();
    (digits == 1 || (digits > 1 && !words.starts_with('0'))).then_some(digits)
}
