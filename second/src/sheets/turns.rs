//! Texts around reason 9: turns that name no task, with their places, and empty schedules.

use super::texts::{head, spaced, wide, Texts, LARGE};
use crate::machine::KINDS;
use crate::schedules::{cycle, repeat};

pub fn add(texts: &mut Texts) {
    for kind in KINDS {
        no_turns(texts, kind);
        ends_of_tasks(texts, kind);
        large_turns(texts, kind);
    }
    far_places(texts);
    several(texts);
}

/// The kind's text with these turns.
fn text(kind: u8, n: u64, turns: &[u64]) -> String {
    spaced(&[&head(kind, n), turns].concat())
}

/// Empty schedules.
fn no_turns(texts: &mut Texts, kind: u8) {
    for n in [1, 12, 64] {
        texts.add(format!("taken-no-turns-kind-{kind}-n-{n}"), text(kind, n, &[]));
    }
}

/// Turns N - 1 and N.
fn ends_of_tasks(texts: &mut Texts, kind: u8) {
    for n in [1, 2, 64] {
        end_of_tasks(texts, kind, n);
    }
}

/// Turn N - 1 is taken and turn N refused: the first of the schedule, one within, and the last.
fn end_of_tasks(texts: &mut Texts, kind: u8, n: u64) {
    for place in [0, 4, 9] {
        let mut turns = wide(&cycle(n as usize, 10));
        turns[place] = n - 1;
        let name = format!("kind-{kind}-n-{n}");
        texts.add(format!("taken-highest-task-place-{place}-{name}"), text(kind, n, &turns));
        turns[place] = n;
        texts.add(format!("refused-9-place-{place}-{name}"), text(kind, n, &turns));
    }
}

/// Turns that don't fit a byte, or that are 255.
fn large_turns(texts: &mut Texts, kind: u8) {
    for turn in LARGE {
        let name = format!("kind-{kind}-turn-{turn}");
        texts.add(format!("refused-9-place-0-{name}"), text(kind, 2, &[turn, 0]));
        texts.add(format!("refused-9-place-3-{name}"), text(kind, 2, &[0, 1, 0, turn]));
    }
}

/// Places beyond a byte and at the end of a long schedule.
fn far_places(texts: &mut Texts) {
    for place in [63, 64, 255, 256, 257, 9_999, 30_000] {
        let mut turns = wide(&repeat(0, place + 1));
        turns[place] = 2;
        texts.add(format!("refused-9-place-{place}-last-turn"), text(2, 2, &turns));
    }
}

/// The first of several wrong turns is given.
fn several(texts: &mut Texts) {
    texts.add("refused-9-place-4-example", "1 2 0 0 0 0 1 2");
    texts.add("refused-9-place-1-of-two", "1 2 0 0 2 0 3");
    texts.add("refused-9-place-1-lower-later", "1 2 0 0 255 2");
    texts.add("refused-9-place-1-higher-later", "1 2 0 0 2 99999");
    texts.add("refused-9-place-0-all-wrong", "1 2 0 9 9 9 9");
    texts.add("refused-9-place-0-one-turn", "2 1 0 1");
    texts.add("refused-9-place-2-parents-not-counted", "3 3 0 0 0 1 0 1 3 2");
    texts.add("refused-9-place-0-after-the-parents", "3 2 0 0 0 2");
    texts.add("refused-9-place-2-no-parents-of-kind-4", "4 2 0 0 0 2");
}
