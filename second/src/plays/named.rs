//! The named traces, and each one with a byte changed; the traces with a work table, and each one
//! with the end of some work too early and too late.

use super::list::{text, Plays};
use crate::traces::{all, worked, Named};

/// The changes that are played, one for a named trace in its turn. Each differs at its own triple.
const CHANGES: [&str; 4] =
    ["middle-other-outcome", "last-another-line", "last-task-n", "first-outcome-2"];

pub fn add(plays: &mut Plays) {
    for (named, change) in all().iter().zip(CHANGES.iter().cycle()) {
        let (name, setup) = (named.name, text(&named.setup));
        plays.add(format!("agrees-{name}"), &setup[..], &named.trace[..]);
        for changed in named.changes().into_iter().filter(|changed| changed.name == *change) {
            let index = changed.index;
            plays.add(format!("differs-{index}-{name}-{change}"), &setup[..], changed.trace);
        }
    }
    for worked in worked() {
        plays.add(format!("agrees-{}", worked.name), text(&worked.setup), &worked.trace[..]);
        early_and_late(plays, &worked);
    }
}

/// The task whose work is longest leaves 11 a move too early, and a move too late.
fn early_and_late(plays: &mut Plays, worked: &Named) {
    let works = &worked.setup.works;
    let longest = |&index: &usize| works[usize::from(worked.trace[3 * index])];
    let Some(end) = worked.ends_of_work().into_iter().max_by_key(longest) else {
        return;
    };
    let (name, setup) = (worked.name, text(&worked.setup));
    let mut early = worked.trace.clone();
    early[3 * end + 1] = 12;
    plays.add(format!("differs-{end}-{name}-early"), &setup[..], early);
    let (before, from) = worked.trace.split_at(3 * end + 3);
    let late = [before, &before[3 * end..], from].concat();
    plays.add(format!("differs-{}-{name}-late", end + 1), &setup[..], late);
}
