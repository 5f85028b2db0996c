//! `barrier bounds`: the passes that surely close a round, by kind, and how long they take.

use crate::arguments::{number, text, usage, Arguments};
use crate::kinds::KINDS;
use crate::output;
use crate::settings;
use crate::stop::{accepted_or, Stop};
use crate::tungwaff::{self, Setup};
use std::ffi::OsString;

pub fn command(words: &[OsString]) -> Result<(), Stop> {
    let given = Arguments::of(words, &["--work", "--pass-ms"], &[])?;
    let n = number(text(given.only("the number of tasks")?)?, "N")?;
    let works = given.table("--work")?;
    let pass = given.value("--pass-ms")?.map(Time::of).transpose()?;
    let heading = settings::heading(n, &[], &works);
    let mut page = format!("{heading}: the passes that surely close a round\n\n");
    page.push_str(if pass.is_some() { HEAD_WITH_SECONDS } else { HEAD });
    for (kind, name) in KINDS.iter().enumerate() {
        let passes = promised(kind, n, &works)?;
        let seconds = pass.as_ref().map(|pass| format!("  {:>7}", pass.seconds(passes)));
        page.push_str(&format!("{name:19}  {passes:6}{}\n", seconds.unwrap_or_default()));
    }
    output::print(&page)
}

const HEAD: &str = "barrier              passes\n";
const HEAD_WITH_SECONDS: &str = "barrier              passes  seconds\n";

/// What the library promises.
pub fn promised(kind: usize, n: usize, works: &[u8]) -> Result<usize, Stop> {
    let limit = tungwaff::limit(kind, n, works);
    let setup = Setup { kind, n, works, ..Setup::default() };
    accepted_or(limit.reason, || settings::refused(limit.reason, &setup))?;
    Ok(limit.passes)
}

/// Milliseconds, exactly as they were written: so many units of which there are 10^digits in one.
struct Time {
    units: u64,
    digits: usize,
}

impl Time {
    fn of(word: &str) -> Result<Time, Stop> {
        let wrong = || {
            let what = "a number of milliseconds above 0, such as 8 or 0.25, with at most 9 digits before the point and 6 behind it";
            usage(format!("--pass-ms is {what}, and '{word}' isn't one"))
        };
        let (whole, part) = word.split_once('.').unwrap_or((word, ""));
        let is_digits = |digits: &str| digits.bytes().all(|byte| byte.is_ascii_digit());
        let is_short = whole.len() <= 9 && part.len() <= 6;
        if whole.is_empty()
            || word.ends_with('.')
            || !is_short
            || !is_digits(whole)
            || !is_digits(part)
        {
            return Err(wrong());
        }
        let units: u64 = format!("{whole}{part}").parse().map_err(|_| wrong())?;
        if units == 0 {
            return Err(wrong());
        }
        Ok(Time { units, digits: part.len() })
    }

    /// So many passes of this length, in seconds, exactly.
    fn seconds(&self, passes: usize) -> String {
        let digits = self.digits + 3;
        let units = u128::from(self.units) * passes as u128;
        let one = 10u128.pow(digits as u32);
        format!("{}.{:0digits$}", units / one, units % one)
    }
}

#[cfg(test)]
mod tests {
    use super::*;

    #[test]
    fn seconds_are_exact() {
        let seconds = |word: &str, passes| Time::of(word).ok().map(|time| time.seconds(passes));
        assert_eq!(seconds("8", 120).as_deref(), Some("0.960"));
        assert_eq!(seconds("0.25", 121).as_deref(), Some("0.03025"));
        assert_eq!(seconds("1000", 120).as_deref(), Some("120.000"));
        assert_eq!(seconds("999999999.999999", 1).as_deref(), Some("999999.999999999"));
    }

    #[test]
    fn what_is_no_time_is_turned_away() {
        for word in ["", ".", "1.", ".5", "0", "0.0", "-1", "1e3", "1,5", "1.0000001", "1000000000"]
        {
            assert!(Time::of(word).is_err(), "{word}");
        }
    }
}
