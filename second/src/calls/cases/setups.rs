//! Setups for fresh states, runs and plays: such as are taken, those around the ends of every check,
//! and those with several faults, of which the first is the reason.

use super::LARGE;
use crate::machine::{KINDS, RING, SYMMETRIC, TREE};
use crate::parents;
use crate::random::Random;
use crate::setup::Setup;
use crate::starts;
use crate::works;

/// A setup of a kind without starts and works; R is 3, and a tree is binary.
pub fn plain(kind: u8, n: usize) -> Setup {
    Setup {
        kind: kind.into(),
        n: n as u64,
        modulus: if kind == SYMMETRIC { 3 } else { 0 },
        parents: parents::of_shape(2, if kind == TREE { n } else { 0 }),
        ..Setup::default()
    }
}

/// The same with a work table.
pub fn worked(kind: u8, works: &[u8]) -> Setup {
    Setup { works: works.to_vec(), ..plain(kind, works.len()) }
}

/// A setup of a kind with tables of any manner, or without.
pub fn any(random: &mut Random, kind: u8, n: usize) -> Setup {
    let mut setup = plain(kind, n);
    setup.works = works::any(random, n);
    match kind {
        SYMMETRIC => {
            setup.modulus = random.pick(&[3, 4, 5, 255]);
            setup.starts = starts::any(random, n);
        }
        TREE => setup.parents = parents::any(random, n),
        _ => {}
    }
    setup
}

// ---- around the ends ----

/// Setups on both sides of every end.
pub fn around() -> Vec<Setup> {
    let mut setups = kinds();
    for kind in KINDS {
        setups.extend(counts(kind));
        setups.extend(moduli(kind));
        setups.extend(lengths(kind));
        setups.extend(work_lengths(kind));
    }
    setups.extend(entries());
    setups.push(Setup { parents: vec![0; 4_096], ..plain(TREE, 3) });
    setups.push(Setup { starts: vec![0; 4_096], ..plain(SYMMETRIC, 3) });
    setups.push(Setup { works: vec![1; 4_096], ..plain(RING, 3) });
    setups
}

/// Kinds from 5 on, with the R of either sort; cut to a byte or to 32 bits some would be one.
fn kinds() -> Vec<Setup> {
    let kinds = [5, 255, 256].into_iter().chain(LARGE);
    let of = |kind| [RING, SYMMETRIC].map(|other| Setup { kind, ..plain(other, 2) });
    kinds.flat_map(of).collect()
}

/// N 0 to 65 and such as would be one of them if they were cut; trees have their parents.
fn counts(kind: u8) -> Vec<Setup> {
    let counts = [0, 1, 64, 65, 320].into_iter().chain(LARGE);
    counts.map(|n| Setup { n, ..plain(kind, n.min(330) as usize) }).collect()
}

/// R at the ends of the symmetric range and around 0, and such as would fit if they were cut.
fn moduli(kind: u8) -> Vec<Setup> {
    let wide = 1 << 32;
    let moduli = [0, 1, 2, 3, 255, 256, 259, wide, wide + 3].into_iter().chain(LARGE);
    moduli.map(|modulus| Setup { modulus, ..plain(kind, 2) }).collect()
}

/// Tables of parents, starts and work lengths of all lengths around 3, and a long one.
fn lengths(kind: u8) -> Vec<Setup> {
    let mut setups = Vec::new();
    for length in [0, 1, 2, 3, 4, 259] {
        setups.push(Setup { parents: vec![0; length], ..plain(kind, 3) });
        setups.push(Setup { starts: vec![0; length], ..plain(kind, 3) });
        setups.push(Setup { works: vec![1; length], ..plain(kind, 3) });
    }
    setups
}

/// A work length of 0 at each place, and the others up to 255.
fn work_lengths(kind: u8) -> Vec<Setup> {
    let tables = [[0, 1, 1], [1, 0, 255], [255, 1, 0], [255; 3]];
    tables.map(|works| worked(kind, &works)).to_vec()
}

/// Parents and starts at and beyond their highest values.
fn entries() -> Vec<Setup> {
    let mut setups = Vec::new();
    for (task, parent) in
        [(0, 1), (0, 2), (0, 255), (1, 0), (1, 1), (1, 2), (2, 1), (2, 2), (2, 3), (63, 62)]
            .into_iter()
            .chain([(63, 63), (63, 64), (63, 255), (62, 63)])
    {
        let mut setup = plain(TREE, if task < 3 { 3 } else { 64 });
        setup.parents[task] = parent;
        setups.push(setup);
    }
    for (n, task, start) in
        [(1, 0, 0), (1, 0, 1), (3, 0, 2), (3, 0, 3), (3, 2, 2), (3, 2, 3), (3, 1, 255)]
            .into_iter()
            .chain([(64, 63, 63), (64, 63, 64), (64, 0, 64), (64, 0, 255)])
    {
        let mut setup = Setup { starts: vec![0; n], ..plain(SYMMETRIC, n) };
        setup.starts[task] = start;
        setups.push(setup);
    }
    setups
}

// ---- several faults ----

/// The faults of a setup, in the order of their reasons 2, 3, 4, 5, 6, 12 and 15.
const FAULTS: [fn(&mut Setup); 7] = [
    |setup| setup.kind = 5,
    |setup| setup.n = 65,
    |setup| setup.modulus = 2,
    |setup| setup.parents.truncate(2),
    |setup| setup.parents[0] = 1,
    |setup| setup.starts = vec![3],
    |setup| setup.works = vec![0],
];

/// A tree of three tasks with every two of its faults, with each one and all that follow it, and
/// without any.
pub fn faulty() -> Vec<Setup> {
    let mut setups = Vec::new();
    for (number, &first) in FAULTS.iter().enumerate() {
        for &second in &FAULTS[number..] {
            setups.push(with_faults(&[first, second]));
        }
        setups.push(with_faults(&FAULTS[number..]));
    }
    setups.push(with_faults(&[]));
    setups
}

/// The same tree with each fault alone.
pub fn each_fault() -> Vec<Setup> {
    FAULTS.iter().map(|&fault| with_faults(&[fault])).collect()
}

fn with_faults(faults: &[fn(&mut Setup)]) -> Setup {
    let mut setup = plain(TREE, 3);
    for fault in faults {
        fault(&mut setup);
    }
    setup
}
