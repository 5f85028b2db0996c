//! The stored cases: every part in its order, and the files they are written to.

mod calls;
mod centralized;
mod damage;
mod fields;
mod fresh;
mod limits;
mod long;
pub mod malformed;
mod playback;
mod plays;
mod ranges;
mod refusals;
pub mod rounds;
pub mod scenes;
mod starts;
mod steps;
mod table;
mod tallies;
mod trees;
mod values;
mod works;

use super::random::Random;
use super::recorder::Recorder;
use std::fs;
use std::io;
use std::path::Path;

/// The seed of the stored random cases.
const SEED: u64 = 20_230_924;

/// Writes the stored cases to the files `stdin` and `stdout`. Gives the number of requests.
pub fn write(folder: &Path) -> io::Result<usize> {
    let stored = stored();
    fs::create_dir_all(folder)?;
    fs::write(folder.join("stdin"), stored.requests())?;
    fs::write(folder.join("stdout"), stored.answers())?;
    Ok(stored.count())
}

/// The stored cases.
pub fn stored() -> Recorder {
    let mut recorder = Recorder::default();
    let mut random = Random::new(SEED);
    recorder.show();
    table::cases(&mut recorder);
    table::traps(&mut recorder);
    refusals::cases(&mut recorder);
    limits::cases(&mut recorder);
    ranges::cases(&mut recorder);
    starts::cases(&mut recorder);
    rounds::cases(&mut recorder);
    tallies::cases(&mut recorder);
    works::cases(&mut recorder);
    playback::cases(&mut recorder);
    centralized::cases(&mut recorder);
    trees::cases(&mut recorder);
    malformed::cases(&mut recorder);
    long::cases(&mut recorder, &mut random);
    scenes::stored_runs(&mut recorder, &mut random);
    scenes::stored_scenes(&mut recorder, &mut random);
    recorder
}
