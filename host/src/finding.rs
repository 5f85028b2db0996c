//! Where the cause of a refusal stands in a text, and which it is, in the words of docs/refusals.md. The number of a refusal is the proved
//! library's; what is looked for here is only the place that it speaks of.

use crate::numbers::{self, Number};
use crate::words;

/// The most bytes of a text or a trace.
pub const MOST: usize = 65_536;

/// The texts that are read: a sheet's begins with KIND N R, a setup with KIND N R NP NS NW.
#[derive(Clone, Copy, PartialEq, Eq)]
pub enum Form {
    Sheet,
    Setup,
}

impl Form {
    /// How many numbers the head has.
    const fn head(self) -> usize {
        match self {
            Form::Sheet => 3,
            Form::Setup => 6,
        }
    }
}

/// A text with the numbers that stand in it.
struct Text<'a> {
    bytes: &'a [u8],
    form: Form,
    numbers: Vec<Number>,
}

/// The finding for a refused text; none for a number that the text isn't the cause of. The place is that of a 9.
pub fn of_text(form: Form, bytes: &[u8], reason: u8, place: usize) -> Option<String> {
    let text = Text { bytes, form, numbers: numbers::of(bytes) };
    let (offset, words) = match reason {
        1 => text.unreadable(),
        2 => text.at(0, words::kind(text.kind())),
        3 => text.at(1, words::tasks(text.n())),
        4 => text.at(2, words::modulus(text.kind(), text.value(2))),
        5 => text.parents_length(),
        6 => text.parent(),
        9 => text.turn(place),
        12 => text.start(),
        15 => text.work(),
        _ => None,
    }?;
    let (line, column) = numbers::line_and_column(bytes, offset);
    Some(format!("line {line}, column {column}: {words}"))
}

/// The finding for a refused trace.
pub fn of_trace(length: usize, reason: u8) -> Option<String> {
    match reason {
        8 => Some(format!("the trace has more than {MOST} bytes")),
        14 => Some(format!("the trace has {length} bytes, which is no multiple of 3")),
        _ => None,
    }
}

/// A place in the text and the words for it.
type Found = Option<(usize, String)>;

impl Text<'_> {
    /// A number's value, counted from 0; 0 for one that isn't there.
    fn value(&self, index: usize) -> usize {
        self.numbers.get(index).map_or(0, |number| number.value)
    }

    fn at(&self, index: usize, words: String) -> Found {
        self.numbers.get(index).map(|number| (number.offset, words))
    }

    fn at_end(&self, words: String) -> Found {
        Some((self.bytes.len(), words))
    }

    fn must(&self, index: usize, name: &str, range: &str) -> Found {
        self.at(index, words::must(name, self.value(index), range))
    }

    fn kind(&self) -> usize {
        self.value(0)
    }

    fn n(&self) -> usize {
        self.value(1)
    }

    /// The causes of 1, in the order of 01's sentence.
    fn unreadable(&self) -> Found {
        if self.bytes.len() > MOST {
            return Some((MOST, format!("byte {} of the text, which may have {MOST}", MOST + 1)));
        }
        if let Some(offset) = self.bytes.iter().position(|&byte| !numbers::is_readable(byte)) {
            let what = what(&self.bytes[offset..]);
            return Some((offset, format!("{what}, which isn't a digit, a space or a line feed")));
        }
        if let Some(long) = self.numbers.iter().find(|number| number.digits > 5) {
            return Some((
                long.offset,
                format!("a number of {} digits, which may have 5", long.digits),
            ));
        }
        self.too_few().or_else(|| self.other_than_said())
    }

    fn too_few(&self) -> Found {
        let (count, need) = (self.numbers.len(), self.form.head());
        if count >= need {
            return None;
        }
        self.at_end(format!("the text ends here with {count} numbers, and needs {need} or more"))
    }

    /// A setup's numbers are more or fewer than its lengths say.
    fn other_than_said(&self) -> Found {
        if self.form == Form::Sheet {
            return None;
        }
        let count = self.numbers.len();
        let said = 6 + self.value(3) + self.value(4) + self.value(5);
        if count < said {
            return self.at_end(format!(
                "the text ends here with {count} numbers, and its lengths say {said}"
            ));
        }
        self.at(said, format!("number {} of the text, and its lengths say {said}", said + 1))
    }

    fn parents_length(&self) -> Found {
        let (kind, n) = (self.kind(), self.n());
        match (self.form, kind) {
            (Form::Sheet, _) => {
                let count = self.numbers.len() - self.form.head();
                self.at_end(format!("the text ends here with {count} parents, and must have {n}"))
            }
            (Form::Setup, 3) => self.must(3, "NP", &format!("{n} for kind 3")),
            (Form::Setup, _) => self.must(3, "NP", &format!("0 for kind {kind}")),
        }
    }

    /// The first entry of a table that is wrong; the table begins behind so many numbers.
    fn entry(
        &self,
        begin: usize,
        name: &str,
        is_wrong: fn(usize, usize, usize) -> bool,
        range: impl Fn(usize) -> String,
    ) -> Found {
        let n = self.n();
        let task = (0..n).find(|&task| is_wrong(task, self.value(begin + task), n))?;
        let value = self.value(begin + task);
        self.at(begin + task, words::entry(name, task, value, &range(task)))
    }

    fn parent(&self) -> Found {
        self.entry(
            self.form.head(),
            "parent",
            |task, parent, _| if task == 0 { parent != 0 } else { parent >= task },
            |task| if task == 0 { "0".to_string() } else { words::below(task) },
        )
    }

    fn turn(&self, place: usize) -> Found {
        let parents = if self.kind() == 3 { self.n() } else { 0 };
        let index = self.form.head() + parents + place;
        self.must(index, &format!("turn {place}"), &words::below(self.n()))
    }

    fn start(&self) -> Found {
        let (kind, n) = (self.kind(), self.n());
        match self.value(4) {
            0 => None,
            _ if kind != 0 => self.must(4, "NS", &format!("0 for kind {kind}")),
            length if length != n => self.must(4, "NS", &format!("0 or {n}")),
            _ => self.entry(
                6 + self.value(3),
                "start",
                |_, start, n| start >= n,
                |_| words::below(n),
            ),
        }
    }

    fn work(&self) -> Found {
        let n = self.n();
        match self.value(5) {
            0 => None,
            length if length != n => self.must(5, "NW", &format!("0 or {n}")),
            _ => self.entry(
                6 + self.value(3) + self.value(4),
                "work length",
                |_, work, _| work == 0 || work > 255,
                |_| words::WORK.to_string(),
            ),
        }
    }
}

/// What stands at the front of these bytes, by name.
fn what(bytes: &[u8]) -> String {
    match bytes {
        [0xef, 0xbb, 0xbf, ..] => "a byte-order mark".to_string(),
        [0xff, 0xfe, ..] | [0xfe, 0xff, ..] => "a byte-order mark of UTF-16".to_string(),
        [b'\r', ..] => "a carriage return".to_string(),
        [b'\t', ..] => "a tab".to_string(),
        [b',', ..] => "a comma".to_string(),
        [byte @ 33..=126, ..] => format!("the character '{}'", *byte as char),
        [byte, ..] => format!("the byte {byte}"),
        [] => String::new(),
    }
}
