//! Plays for which two or more reasons apply: the first in checking order is given.

use super::list::Plays;
use crate::playback::MAX_TRACE;
use crate::schedules::repeat;
use crate::sheet::MAX_TEXT;
use crate::sheets::texts::apart;

pub fn add(plays: &mut Plays) {
    reading_before_all(plays);
    setups_before_the_trace(plays);
    among_the_setups(plays);
    plays.add("refused-8-before-14", "2 2 0 0 0 0", repeat(0, MAX_TRACE + 1));
    plays.add("refused-8-before-a-difference", "2 2 0 0 0 0", repeat(255, MAX_TRACE + 2));
}

/// 1, for each of its causes, before 2, and before 8 and 14.
fn reading_before_all(plays: &mut Plays) {
    let (long, cut) = (repeat(0, MAX_TRACE + 1), [0]);
    plays.add("refused-1-before-2-too-long", apart("5 0 1 0 0 0", " ", "", MAX_TEXT + 1), []);
    plays.add("refused-1-before-2-letter", "5 0 1 0 0 0 x", []);
    plays.add("refused-1-before-2-six-digits", "000005 0 1 0 0 0", []);
    plays.add("refused-1-before-2-five-numbers", "5 0 1 0 0", []);
    plays.add("refused-1-before-2-one-number-more", "5 0 1 0 0 0 9", []);
    plays.add("refused-1-before-2-one-number-fewer", "5 0 1 1 0 0", []);
    plays.add("refused-1-before-2-works", "5 0 1 0 0 2 0", []);
    plays.add("refused-1-before-8-five-numbers", "2 2 0 0 0", &long[..]);
    plays.add("refused-1-before-8-letter", "2 2 0 0 0 0x", &long[..]);
    plays.add("refused-1-before-14-one-number-more", "2 2 0 0 0 0 0", cut);
    plays.add("refused-1-before-14-empty", "", cut);
}

/// 2 to 6, 12 and 15, each before 8 and before 14.
fn setups_before_the_trace(plays: &mut Plays) {
    for (number, setup) in [
        (2, "5 2 0 0 0 0"),
        (3, "2 65 0 0 0 0"),
        (4, "0 2 2 0 0 0"),
        (5, "3 2 0 1 0 0 0"),
        (6, "3 2 0 2 0 0 0 1"),
        (12, "0 2 3 0 2 0 0 2"),
        (15, "2 2 0 0 0 2 1 0"),
    ] {
        plays.add(format!("refused-{number}-before-8"), setup, repeat(0, MAX_TRACE + 1));
        plays.add(format!("refused-{number}-before-14"), setup, [0, 11]);
    }
    plays.add("refused-15-before-8-large", "0 2 3 0 0 2 1 256", repeat(0, MAX_TRACE + 1));
    plays.add("refused-15-before-14-length", "3 2 0 2 0 1 0 0 1", [0, 11]);
}

/// 2 to 6, 12 and 15 among each other.
fn among_the_setups(plays: &mut Plays) {
    plays.text("refused-2-before-3", "5 0 0 0 0 0");
    plays.text("refused-2-before-all", "99999 99999 99999 1 1 1 99999 99999 99999");
    plays.text("refused-2-before-15", "5 2 0 0 0 2 0 0");
    plays.text("refused-3-before-4", "0 65 2 0 0 0");
    plays.text("refused-3-before-15", "2 0 0 0 0 1 0");
    plays.text("refused-4-before-5", "3 2 3 0 0 0");
    plays.text("refused-4-before-12", "0 2 2 0 1 0 9");
    plays.text("refused-4-before-15", "2 2 3 0 0 1 1");
    plays.text("refused-5-before-6-own-number", "3 2 0 3 0 0 0 1 2");
    plays.text("refused-5-before-6-large", "3 3 0 2 0 0 0 256");
    plays.text("refused-5-before-12-large", "0 2 3 1 2 0 0 256 99999");
    plays.text("refused-6-before-12-large", "3 2 0 2 2 0 0 256 256 256");
    plays.text("refused-5-before-15", "3 2 0 1 0 2 0 1 0");
    plays.text("refused-6-before-15-large", "3 2 0 2 0 2 0 256 0 256");
    plays.text("refused-12-before-15", "0 2 3 0 2 2 0 2 0 1");
    plays.text("refused-12-before-15-length", "2 2 0 0 2 1 0 0 1");
    plays.text("refused-12-before-15-large", "0 2 3 0 2 2 0 256 256 1");
    plays.text("refused-12-length-and-entry", "0 2 3 0 3 0 9 9 256");
    plays.text("refused-4-before-5-centralized", "4 2 3 2 0 0 0 0");
    plays.text("refused-5-before-12-centralized", "4 2 0 2 2 0 0 0 0 0");
    plays.text("refused-12-before-15-centralized", "4 2 0 0 2 2 0 0 0 1");
}
