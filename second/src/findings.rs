//! Findings: what is said of a refused sheet text and of a refused play. The number is the sheet's
//! or the play's own; what is looked for here is where its cause stands, and which one it is.

mod entries;
mod heads;
mod reading;
pub mod rows;
mod text;

use super::play::whole_play;
use super::refusal::Refusal;
use super::sheet::read;
use text::Text;

/// How many numbers a sheet's text has before its parents, and a setup before its tables.
const HEAD_OF_A_SHEET: usize = 3;
const HEAD_OF_A_SETUP: usize = 6;

/// The cause of a refusal: how many bytes of the text stand before it, and the words for it.
struct Cause {
    at: usize,
    words: String,
}

impl Cause {
    fn new(at: usize, words: impl Into<String>) -> Cause {
        Cause { at, words: words.into() }
    }
}

/// The line for a sheet's text. There is none where the text is taken.
pub fn of_sheet(text: &[u8]) -> Option<String> {
    let refusal = read(text).err()?;
    let text = Text::new(text);
    let cause = match refusal {
        Refusal::Text => reading::of_sheet(&text),
        Refusal::TableLength => Some(entries::missing_parents(&text)),
        Refusal::Parent => entries::wrong_parent(&text, HEAD_OF_A_SHEET),
        Refusal::TaskAt(turn) => Some(entries::wrong_turn(&text, turn)),
        _ => heads::number_of_both(&text, refusal),
    };
    cause.map(|cause| line(refusal, &text, &cause))
}

/// The line for a play. There is none where the play isn't refused.
pub fn of_play(setup: &[u8], trace: &[u8]) -> Option<String> {
    let refusal = whole_play(setup, trace).err()?;
    let number = refusal.number();
    match refusal {
        Refusal::ScheduleLength => {
            Some(format!("refused {number}: the trace has more than 65536 bytes\n"))
        }
        Refusal::TraceLength => {
            let length = trace.len();
            Some(format!(
                "refused {number}: the trace has {length} bytes, which is no multiple of 3\n"
            ))
        }
        _ => of_setup(setup, refusal),
    }
}

/// The line for a setup that is refused.
fn of_setup(text: &[u8], refusal: Refusal) -> Option<String> {
    let text = Text::new(text);
    let cause = match refusal {
        Refusal::Text => reading::of_setup(&text),
        Refusal::TableLength => Some(heads::parents_length(&text)),
        Refusal::Parent => entries::wrong_parent(&text, HEAD_OF_A_SETUP),
        Refusal::Starts => heads::starts_length(&text).or_else(|| entries::wrong_start(&text)),
        Refusal::Works => heads::works_length(&text).or_else(|| entries::wrong_work(&text)),
        _ => heads::number_of_both(&text, refusal),
    };
    cause.map(|cause| line(refusal, &text, &cause))
}

/// The number, the place and the words. The number of a 9 is without the turn's place.
fn line(refusal: Refusal, text: &Text, cause: &Cause) -> String {
    format!("refused {}: {}: {}\n", refusal.number(), text.place(cause.at), cause.words)
}
