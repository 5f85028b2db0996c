//! The plays: every part in its order, and the files they, their answers and what is said of those
//! that are refused are written to.

pub mod list;
mod named;
mod order;
mod places;
mod reading;
mod setups;
mod traces;

use super::files;
use super::findings::of_play;
use super::findings::rows::Met;
use super::play::play;
use list::{Play, Plays};
use std::fs;
use std::io;
use std::path::Path;

/// Writes each play to `NAME.setup` and `NAME.trace`, its answer to `NAME.played`, and the finding
/// of one that is refused to `NAME.finding`. Gives the number of plays. It is an error if a row of
/// the findings isn't met.
pub fn write(folder: &Path) -> io::Result<usize> {
    let plays = all();
    met(&plays).check().map_err(io::Error::other)?;
    fs::create_dir_all(folder)?;
    for Play { name, setup, trace } in plays.list() {
        files::write(&folder.join(format!("{name}.setup")), setup)?;
        files::write(&folder.join(format!("{name}.trace")), trace)?;
        files::write(&folder.join(format!("{name}.played")), play(setup, trace))?;
        if let Some(finding) = of_play(setup, trace) {
            files::write(&folder.join(format!("{name}.finding")), finding)?;
        }
    }
    Ok(plays.list().len())
}

/// The rows that the findings of the plays meet.
pub fn met(plays: &Plays) -> Met {
    let mut met = Met::plays();
    let findings = plays.list().iter().filter_map(|play| of_play(&play.setup, &play.trace));
    for finding in findings {
        met.take(&finding);
    }
    met
}

/// All plays.
pub fn all() -> Plays {
    let mut plays = Plays::default();
    named::add(&mut plays);
    reading::add(&mut plays);
    setups::add(&mut plays);
    traces::add(&mut plays);
    order::add(&mut plays);
    places::add(&mut plays);
    plays
}
