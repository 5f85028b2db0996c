//! The words of a call: options with a value, options without, and the others in their order. A word need not be text, since a file's name may be
//! any bytes.

use crate::stop::Stop;
use std::ffi::{OsStr, OsString};
use std::os::unix::ffi::OsStrExt;

pub struct Arguments {
    others: Vec<OsString>,
    flags: Vec<String>,
    values: Vec<(String, OsString)>,
}

impl Arguments {
    /// Sorts the words by the options that a command has. Each option is given once at most; `--work 1,2` and `--work=1,2` are the same.
    pub fn of(
        words: &[OsString],
        with_value: &[&str],
        without: &[&str],
    ) -> Result<Arguments, Stop> {
        let mut sorted = Arguments { others: Vec::new(), flags: Vec::new(), values: Vec::new() };
        let mut words = words.iter();
        while let Some(word) = words.next() {
            let Some(shown) = option_in(word) else {
                sorted.others.push(word.clone());
                continue;
            };
            let (option, joined) = split(word);
            sorted.once(&option)?;
            if without.contains(&option.as_str()) && joined.is_none() {
                sorted.flags.push(option);
            } else if with_value.contains(&option.as_str()) {
                let value = joined.or_else(|| words.next().filter(|next| is_value(next)).cloned());
                let value = value.ok_or_else(|| usage(format!("{option} needs a value")))?;
                sorted.values.push((option, value));
            } else {
                return Err(usage(format!("no such option here: {shown}")));
            }
        }
        Ok(sorted)
    }

    fn once(&self, option: &str) -> Result<(), Stop> {
        if self.has(option) || self.path(option).is_some() {
            return Err(usage(format!("{option} is given twice")));
        }
        Ok(())
    }

    pub fn has(&self, flag: &str) -> bool {
        self.flags.iter().any(|given| given == flag)
    }

    /// An option's value, as a file's name.
    pub fn path(&self, option: &str) -> Option<&OsStr> {
        self.values.iter().find(|(given, _)| given == option).map(|(_, value)| value.as_os_str())
    }

    /// An option's value, as text.
    pub fn value(&self, option: &str) -> Result<Option<&str>, Stop> {
        self.path(option).map(text).transpose()
    }

    /// The words that are no options, as text.
    pub fn others(&self) -> Result<Vec<&str>, Stop> {
        self.others.iter().map(|word| text(word)).collect()
    }

    /// The one word that is no option; what it is, for the message.
    pub fn only(&self, what: &str) -> Result<&OsStr, Stop> {
        match &self.others[..] {
            [word] => Ok(word),
            [] => Err(usage(format!("{what} is needed"))),
            [_, more, ..] => Err(one_too_many(more)),
        }
    }

    /// A table of bytes, `a,b,..`; none where the option isn't given.
    pub fn table(&self, option: &str) -> Result<Vec<u8>, Stop> {
        let Some(list) = self.value(option)? else {
            return Ok(Vec::new());
        };
        let entry = |word: &str| {
            let value = number(word, option).ok().and_then(|value| u8::try_from(value).ok());
            value.ok_or_else(|| {
                usage(format!("'{word}' in {option} {list} isn't a number below 256"))
            })
        };
        list.split(',').map(entry).collect()
    }
}

/// An option as it is shown; none for another word, `-` among them.
fn option_in(word: &OsStr) -> Option<String> {
    let shown = word.to_string_lossy();
    (shown.starts_with('-') && shown != "-").then(|| shown.into_owned())
}

/// Whether a word behind an option can be its value, and is no further option.
fn is_value(word: &OsStr) -> bool {
    !word.to_string_lossy().starts_with("--")
}

/// An option, and the value that is joined to it.
fn split(word: &OsStr) -> (String, Option<OsString>) {
    let mut parts = word.as_bytes().splitn(2, |&byte| byte == b'=').map(OsStr::from_bytes);
    let option = parts.next().unwrap_or_default().to_string_lossy().into_owned();
    (option, parts.next().map(OsStr::to_os_string))
}

pub fn usage(words: String) -> Stop {
    Stop::Usage(words)
}

pub fn one_too_many(word: &OsStr) -> Stop {
    usage(format!("'{}' is one word too many", word.to_string_lossy()))
}

/// A word that must be text.
pub fn text(word: &OsStr) -> Result<&str, Stop> {
    word.to_str().ok_or_else(|| usage(format!("'{}' isn't text in UTF-8", word.to_string_lossy())))
}

/// A whole number, which has a name in the message.
pub fn number(word: &str, name: &str) -> Result<usize, Stop> {
    let is_number = !word.is_empty() && word.bytes().all(|byte| byte.is_ascii_digit());
    if !is_number {
        return Err(usage(format!("{name} is a whole number, and '{word}' isn't one")));
    }
    word.parse().map_err(|_| usage(format!("{name} is too large: {word}")))
}
