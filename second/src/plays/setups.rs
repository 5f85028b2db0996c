//! Setups around reasons 2 to 6, 12 and 15: each at both sides of its ends, some with numbers that
//! would be good ones if they were cut to a byte.

use super::list::{text, Plays};
use crate::schedules::repeat;
use crate::setup::Setup;
use crate::sheets::texts::spaced;
use crate::starts::next;
use crate::works::unequal;

pub fn add(plays: &mut Plays) {
    heads(plays);
    table_lengths(plays);
    parents(plays);
    starts(plays);
    works(plays);
    large_works(plays);
    longest_work(plays);
    most_tasks(plays);
}

/// 2, 3 and 4.
fn heads(plays: &mut Plays) {
    for kind in [5, 258, 260, 99_999] {
        plays.text(format!("refused-2-kind-{kind}"), spaced(&[kind, 2, 0, 0, 0, 0]));
    }
    for n in [0, 65, 258, 65_538] {
        plays.text(format!("refused-3-n-{n}"), spaced(&[2, n, 0, 0, 0, 0]));
    }
    for modulus in [2, 256, 259] {
        let setup = spaced(&[0, 2, modulus, 0, 2, 0, 1, 0]);
        plays.text(format!("refused-4-symmetric-modulus-{modulus}"), setup);
    }
    for modulus in [3, 255] {
        let setup = spaced(&[0, 2, modulus, 0, 2, 0, 1, 0]);
        plays.text(format!("agrees-symmetric-modulus-{modulus}"), setup);
    }
    plays.text("refused-4-ring-modulus-3", "2 2 3 0 0 0");
    plays.text("refused-4-ring-modulus-256", "2 2 256 0 0 0");
    plays.text("refused-4-centralized-modulus-3", "4 2 3 0 0 0");
    plays.text("refused-4-centralized-modulus-256", "4 2 256 0 0 0");
    plays.text("agrees-centralized", "4 2 0 0 0 0");
}

/// 5, and 12 for the length of the start table.
fn table_lengths(plays: &mut Plays) {
    plays.text("refused-5-tree-without-parents", "3 2 0 0 0 0");
    plays.text("refused-5-tree-one-parent-too-few", "3 2 0 1 0 0 0");
    plays.text("refused-5-tree-one-parent-too-many", "3 2 0 3 0 0 0 0 0");
    plays.text("refused-5-ring-with-parents", "2 2 0 2 0 0 0 0");
    plays.text("refused-5-centralized-with-parents", "4 2 0 2 0 0 0 0");
    plays.text("refused-5-symmetric-with-a-parent", "0 2 3 1 2 0 0 1 0");
    plays.text("refused-12-one-start-too-few", "0 2 3 0 1 0 1");
    plays.text("refused-12-one-start-too-many", "0 2 3 0 3 0 1 0 0");
    plays.text("refused-12-ring-with-starts", "2 2 0 0 2 0 0 0");
    plays.text("refused-12-centralized-with-starts", "4 2 0 0 2 0 0 0");
    plays.text("refused-12-tree-with-starts", "3 2 0 2 2 0 0 0 0 0");
    let many = Setup { n: 2, modulus: 3, starts: vec![0; 258], ..Setup::default() };
    plays.text("refused-12-starts-258", text(&many));
    let many = Setup { kind: 3, n: 2, parents: vec![0; 258], ..Setup::default() };
    plays.text("refused-5-parents-258", text(&many));
}

/// 6: the root's entry and another parent, some too large for a byte.
fn parents(plays: &mut Plays) {
    for parent in [1, 255, 256, 65_536, 99_999] {
        let setup = spaced(&[3, 2, 0, 2, 0, 0, 0, parent]);
        plays.text(format!("refused-6-parent-{parent}"), setup);
    }
    plays.text("refused-6-root-1", "3 2 0 2 0 0 1 0");
    plays.text("refused-6-root-256", "3 2 0 2 0 0 256 0");
    plays.text("agrees-parent-highest", "3 3 0 3 0 0 0 0 1");
}

/// 12: entries of the start table, some too large for a byte.
fn starts(plays: &mut Plays) {
    for start in [2, 255, 256, 257, 65_536, 99_999] {
        let setup = spaced(&[0, 2, 3, 0, 2, 0, 0, start]);
        plays.text(format!("refused-12-start-{start}"), setup);
    }
    plays.text("refused-12-first-start-256", "0 2 3 0 2 0 256 0");
    plays.text("agrees-start-highest", "0 2 3 0 2 0 1 1");
}

/// A setup of two tasks that is accepted if its work table is.
fn two(kind: u64, works: &[u8]) -> Setup {
    let (modulus, starts) = if kind == 0 { (3, next(2)) } else { (0, Vec::new()) };
    let parents = vec![0; if kind == 3 { 2 } else { 0 }];
    Setup { kind, n: 2, modulus, parents, starts, works: works.to_vec() }
}

/// 15: the length and the entries of the work table, for each kind.
fn works(plays: &mut Plays) {
    for kind in 0..=4 {
        for (name, works) in [
            ("refused-15-one-work-too-few", &[1][..]),
            ("refused-15-one-work-too-many", &[1, 1, 1]),
            ("refused-15-works-258", &[1; 258]),
            ("refused-15-first-work-0", &[0, 1]),
            ("refused-15-last-work-0", &[1, 0]),
            ("agrees-works-1-255", &[1, 255]),
        ] {
            plays.text(format!("{name}-kind-{kind}"), text(&two(kind, works)));
        }
    }
    plays.text("refused-15-middle-work-0", "2 3 0 0 0 3 1 0 1");
}

/// 15: work lengths that are too large for a byte.
fn large_works(plays: &mut Plays) {
    for work in [256, 257, 511, 65_536, 65_537, 99_999] {
        plays.text(format!("refused-15-work-{work}"), spaced(&[2, 2, 0, 0, 0, 2, 1, work]));
    }
    plays.text("refused-15-first-work-256", "2 2 0 0 0 2 256 1");
    plays.text("agrees-work-highest", "2 2 0 0 0 2 255 255");
}

/// The longest work of one task of each kind: 255 moves, twice; one fewer and one more differ.
fn longest_work(plays: &mut Plays) {
    for kind in 0..=4 {
        let (modulus, starts) = if kind == 0 { (3, next(1)) } else { (0, Vec::new()) };
        let parents = vec![0; usize::from(kind == 3)];
        let setup = Setup { kind, n: 1, modulus, parents, starts, works: vec![255] };
        let trace = setup.trace(&repeat(0, 520));
        plays.add(format!("agrees-work-255-kind-{kind}"), text(&setup), &trace[..]);
        plays.add(format!("differs-254-work-254-kind-{kind}"), text(&setup), &trace[3..]);
        let more = [&trace[..3], &trace[..]].concat();
        plays.add(format!("differs-255-work-256-kind-{kind}"), text(&setup), more);
    }
}

/// 64 tasks of each kind, with all tables that the kind has.
fn most_tasks(plays: &mut Plays) {
    let none = Setup { kind: 2, n: 64, ..Setup::default() };
    let turns: Vec<u8> = (0..64).rev().collect();
    for setup in [
        Setup { kind: 0, modulus: 255, starts: next(64), ..none.clone() },
        Setup { kind: 1, ..none.clone() },
        Setup { kind: 3, parents: vec![0; 64], ..none.clone() },
        Setup { kind: 4, ..none.clone() },
        none,
    ] {
        let name = format!("agrees-kind-{}-n-64", setup.kind);
        plays.add(&name[..], text(&setup), setup.trace(&turns.repeat(9)));
        let setup = Setup { works: unequal(64), ..setup };
        plays.add(name + "-works", text(&setup), setup.trace(&turns.repeat(9)));
    }
}
