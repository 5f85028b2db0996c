//! The sheet texts: every part in its order, and the files they, their sheets and what is said of
//! those that are refused are written to.

mod heads;
mod known;
mod long;
mod order;
mod places;
mod reading;
mod small;
mod tables;
pub mod texts;
mod turns;

use super::files;
use super::findings::of_sheet;
use super::findings::rows::Met;
use super::random::Random;
use super::sheet::sheet;
use std::fs;
use std::io;
use std::path::Path;
use texts::Texts;

/// The seed of the random texts.
const SEED: u64 = 20_230_925;

/// Writes each text to `NAME.text` and its sheet to `NAME.sheet`, and the finding of one that is
/// refused to `NAME.finding`. Gives the number of texts. It is an error if a row of the findings
/// isn't met.
pub fn write(folder: &Path) -> io::Result<usize> {
    let texts = all();
    met(&texts).check().map_err(io::Error::other)?;
    fs::create_dir_all(folder)?;
    for (name, text) in texts.list() {
        files::write(&folder.join(format!("{name}.text")), text)?;
        files::write(&folder.join(format!("{name}.sheet")), sheet(text))?;
        if let Some(finding) = of_sheet(text) {
            files::write(&folder.join(format!("{name}.finding")), finding)?;
        }
    }
    Ok(texts.list().len())
}

/// The rows that the findings of the texts meet.
pub fn met(texts: &Texts) -> Met {
    let mut met = Met::sheets();
    for finding in texts.list().iter().filter_map(|(_, text)| of_sheet(text)) {
        met.take(&finding);
    }
    met
}

/// All texts.
pub fn all() -> Texts {
    let mut texts = Texts::default();
    let mut random = Random::new(SEED);
    known::add(&mut texts);
    reading::add(&mut texts);
    heads::add(&mut texts);
    tables::add(&mut texts);
    turns::add(&mut texts);
    order::add(&mut texts);
    places::add(&mut texts);
    long::add(&mut texts, &mut random);
    small::add(&mut texts, &mut random);
    texts
}
