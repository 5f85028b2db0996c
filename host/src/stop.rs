//! Why a command ends without its answer, and the exit status for it.

use crate::tungwaff::reason_text;

#[derive(Debug, PartialEq, Eq)]
pub enum Stop {
    /// A file that cannot be read or written, or the like.
    Failed(String),
    /// A wrong call.
    Usage(String),
    /// The library turned the input away: its reason, in words, and what else helps.
    Refused { reason: u8, words: String, mend: Option<String> },
    /// Nobody reads standard output any more.
    Quiet,
}

impl Stop {
    pub fn status(&self) -> u8 {
        match self {
            Stop::Failed(_) | Stop::Quiet => 1,
            Stop::Usage(_) => 2,
            Stop::Refused { .. } => 3,
        }
    }

    /// What is said on standard error, a line each. The command is the one whose help explains a wrong call, with a space before it.
    pub fn lines(&self, command: &str) -> Vec<String> {
        match self {
            Stop::Quiet => Vec::new(),
            Stop::Failed(words) => vec![words.clone()],
            Stop::Usage(words) => vec![format!("{words} (bin/barrier{command} --help explains)")],
            Stop::Refused { reason, words, mend } => {
                let first = format!("refused {reason}: {words}");
                std::iter::once(first).chain(mend.clone()).collect()
            }
        }
    }
}

/// Goes on only where the library refused nothing; else with these words for it.
pub fn accepted_or(reason: u8, words: impl FnOnce() -> String) -> Result<(), Stop> {
    match reason {
        0 => Ok(()),
        _ => Err(Stop::Refused { reason, words: words(), mend: None }),
    }
}

/// The same in the library's own words.
pub fn accepted(reason: u8) -> Result<(), Stop> {
    accepted_or(reason, || reason_text(reason).to_string())
}
