//! `barrier trace`: the rows of a sheet's text, as a table, as comma-separated values, as a timeline or as a picture.

use crate::arguments::{usage, Arguments};
use crate::stop::Stop;
use crate::{output, picture, rows, table, timeline};
use std::ffi::OsString;

pub fn command(words: &[OsString]) -> Result<(), Stop> {
    let given = Arguments::of(words, &["--starts", "--work", "--svg"], &["--csv", "--timeline"])?;
    let path = given.only("a file, or - for standard input,")?;
    one_form(&given)?;
    let starts = given.table("--starts")?;
    let works = given.table("--work")?;
    let picture = given.path("--svg");
    if picture.is_some_and(|out| output::is_same(path, out)) {
        return Err(usage("the picture would take the place of the text".to_string()));
    }
    let sheet = rows::read(&output::text(path)?, output::callable(path))?;
    let told = rows::tell(&sheet, &starts, &works)?;
    match picture {
        Some(out) => output::save(out, &picture::drawn(&told)),
        None if given.has("--csv") => output::print(&table::csv(&told)),
        None if given.has("--timeline") => output::print(&timeline::drawn(&told)),
        None => output::print(&table::aligned(&told)),
    }
}

/// One of the forms at most is asked for, since one is written.
fn one_form(given: &Arguments) -> Result<(), Stop> {
    let forms = [given.has("--csv"), given.has("--timeline"), given.path("--svg").is_some()];
    if forms.iter().filter(|&&asked| asked).count() > 1 {
        return Err(usage("only one of --csv, --timeline and --svg can be asked for".to_string()));
    }
    Ok(())
}
