//! The play: the text of a setup and a trace in, what the play-back found or a refusal out.

use super::machine::{State, Tables};
use super::playback::{self, Verdict};
use super::refusal::Refusal;
use super::sheet::{bytes, numbers};

/// The line that a play prints.
pub fn play(setup: &[u8], trace: &[u8]) -> String {
    match whole_play(setup, trace) {
        Ok(verdict) => format!("{verdict}\n"),
        Err(refusal) => format!("{refusal}\n"),
    }
}

/// Reads the setup, KIND N R NP NS NW and then the tables of these lengths, and plays the trace.
pub fn whole_play(setup: &[u8], trace: &[u8]) -> Result<Verdict, Refusal> {
    let numbers = numbers(setup)?;
    let [kind, n, modulus, parents, starts, works, entries @ ..] = &numbers[..] else {
        return Err(Refusal::Text);
    };
    if entries.len() as u64 != parents + starts + works {
        return Err(Refusal::Text);
    }
    let (parents, entries) = entries.split_at(*parents as usize);
    let (starts, works) = entries.split_at(*starts as usize);
    let (parents, starts, works) = (bytes(parents), bytes(starts), work_lengths(works));
    let tables = Tables { parents: &parents, starts: &starts, works: &works };
    let mut state = State::ZERO;
    playback::play(&mut state, *kind, *n, *modulus, tables, trace)
}

/// The numbers as work lengths. One that is too large for a byte becomes 0, which is none either:
/// 255 is one, unlike in the other tables.
fn work_lengths(numbers: &[u64]) -> Vec<u8> {
    numbers.iter().map(|&number| u8::try_from(number).unwrap_or(0)).collect()
}
