//! Random fresh states and setups: accepted ones, and ones that may be refused.

use super::values::{near, near_length};
use crate::machine::{KINDS, SYMMETRIC, TREE};
use crate::parents;
use crate::random::Random;
use crate::recorder::Recorder;
use crate::schedules::uniform;
use crate::setup::Setup;
use crate::starts;
use crate::works;

/// A setup that is accepted.
pub fn accepted_setup(random: &mut Random, kind: u8, n: usize) -> Setup {
    let modulus = match kind {
        SYMMETRIC => random.pick(&[3, 3, 4, 5, 7, 254, 255]),
        _ => 0,
    };
    let parents = match kind {
        TREE => parents::any(random, n),
        _ => Vec::new(),
    };
    let starts = match kind {
        SYMMETRIC => starts::any(random, n),
        _ => Vec::new(),
    };
    let works = works::any(random, n);
    Setup { kind: kind.into(), n: n as u64, modulus, parents, starts, works }
}

/// A fresh state that is accepted, by request 10 where it has starts or works, and now and then
/// elsewhere.
pub fn accepted_fresh(recorder: &mut Recorder, random: &mut Random, kind: u8, n: usize) {
    let setup = accepted_setup(random, kind, n);
    if setup.starts.is_empty() && setup.works.is_empty() && !random.once_in(4) {
        recorder.fresh(setup.kind, setup.n, setup.modulus, &setup.parents);
    } else {
        recorder.fresh_setup(&setup);
    }
}

/// Fresh states that may be refused.
pub fn any_fresh(recorder: &mut Recorder, random: &mut Random) {
    for _ in 0..random.length(1, 8) {
        let setup = any_setup(random);
        if random.once_in(2) {
            recorder.fresh(setup.kind, setup.n, setup.modulus, &setup.parents);
        } else {
            recorder.fresh_setup(&setup);
        }
        recorder.ready();
    }
    recorder.show();
}

/// Fresh states and shapes of which one number is a small one that may be refused.
pub fn small_numbers(recorder: &mut Recorder, random: &mut Random) {
    for kind in KINDS {
        let n = random.length(1, 4);
        let mut setup = accepted_setup(random, kind, n);
        match random.below(3) {
            0 => setup.modulus = random.below(4),
            1 => setup.works = works::up_to(random, 3, n + 1),
            _ => setup.kind = random.below(6),
        }
        recorder.fresh_setup(&setup);
        recorder.shape(random.below(6), n as u64, n as u64);
    }
}

/// A setup that may be refused.
pub fn any_setup(random: &mut Random) -> Setup {
    let kind = random.below(6);
    let n = if random.once_in(3) { near(random) } else { random.below(7) };
    let fits = if kind == 0 { 3 } else { 0 };
    let modulus = if random.once_in(3) { near(random) } else { fits };
    let parents = any_parents(random, kind, n);
    let starts = any_starts(random, kind, n);
    let works = any_works(random, n);
    Setup { kind, n, modulus, parents, starts, works }
}

/// A parent table whose length or one of whose entries may be wrong.
fn any_parents(random: &mut Random, kind: u64, n: u64) -> Vec<u8> {
    let fits = if kind == 3 { n.min(65) as usize } else { 0 };
    let length = if random.once_in(3) { random.length(0, 5) } else { fits };
    let mut parents = parents::any(random, length);
    if length > 0 && random.once_in(2) {
        let task = random.length(0, length - 1);
        parents[task] = random.pick(&[0, 1, 2, task as u8, task as u8 + 1, 64, 255]);
    }
    parents
}

/// A start table whose length or one of whose entries may be wrong.
fn any_starts(random: &mut Random, kind: u64, n: u64) -> Vec<u8> {
    let fits = if kind == 0 { n.min(65) } else { 0 };
    let length = if random.once_in(6) { n.min(65) } else { near_length(random, fits) } as usize;
    let n = n.clamp(1, 64) as u8;
    let mut starts = uniform(random, n.into(), length);
    if length > 0 && random.once_in(2) {
        let task = random.length(0, length - 1);
        starts[task] = random.pick(&[0, n - 1, n, n + 1, 64, 255]);
    }
    starts
}

/// A work table whose length or one of whose entries may be wrong; half the time there is none.
fn any_works(random: &mut Random, n: u64) -> Vec<u8> {
    if random.once_in(2) {
        return Vec::new();
    }
    let length = near_length(random, n.min(65)) as usize;
    let mut works = works::up_to(random, 3, length);
    if length > 0 && random.once_in(3) {
        works[random.length(0, length - 1)] = random.pick(&[0, 0, 1, 254, 255]);
    }
    works
}
