//! Runs from fresh states: every kind and every N, allowances and lengths around what is needed,
//! refused setups, turns of no task, and the longest schedules.

use super::setups::{any, around, faulty, plain, worked};
use crate::calls::recorder::{Lent, Recorder};
use crate::machine::{CENTRALIZED, FETCH_AND_INCREMENT, KINDS, RING, SYMMETRIC, TREE};
use crate::random::Random;
use crate::schedules::{self, cycle, repeat};
use crate::setup::Setup;

pub fn add(recorder: &mut Recorder, random: &mut Random) {
    every_count(recorder, random);
    around_what_is_needed(recorder);
    refused_setups(recorder);
    turns_of_no_task(recorder);
    order(recorder);
    longest(recorder, random);
}

/// Every kind with N 1 to 64, with and without tables.
fn every_count(recorder: &mut Recorder, random: &mut Random) {
    for kind in KINDS {
        for n in 1..=64 {
            let setup = if n % 3 == 0 { plain(kind, n) } else { any(random, kind, n) };
            let schedule = schedules::any(random, n, random_length(kind, n));
            recorder.run(&setup, Lent::tasks(n, schedule.len()), &schedule);
        }
    }
}

/// As many turns as close a few rounds of a small barrier.
fn random_length(kind: u8, n: usize) -> usize {
    match kind {
        SYMMETRIC if n < 8 => 30 * n,
        _ => 12 * n + 20,
    }
}

/// Allowances, logs and tasks lists of less, just enough and more.
fn around_what_is_needed(recorder: &mut Recorder) {
    for (kind, n) in [(SYMMETRIC, 1), (RING, 3), (TREE, 2), (CENTRALIZED, 64)] {
        let setup = plain(kind, n);
        let schedule = cycle(n, 7);
        for allowance in [0, 1, 6, 7, 8, 1 << 32, u64::MAX] {
            let exact = Lent { allowance, ..Lent::tasks(n, allowance.min(7) as usize) };
            recorder.run(&setup, Lent { allowance, ..exact }, &schedule);
            recorder.run(&setup, Lent { log: exact.log + 1, ..exact }, &schedule);
            recorder.run(&setup, Lent { list: exact.list + 1, ..exact }, &schedule);
            recorder.run(&setup, Lent { list: exact.list - 1, ..exact }, &schedule);
            if exact.log > 0 {
                recorder.run(&setup, Lent { log: exact.log - 1, ..exact }, &schedule);
                recorder.run(&setup, Lent { log: 0, list: 0, ..exact }, &schedule);
            }
            let more = Lent { log: exact.log + 9, list: exact.list + 9, ..exact };
            recorder.run(&setup, more, &schedule);
        }
    }
}

/// Setups around every end and with several faults. Their schedules are refused too, 9 and 10.
fn refused_setups(recorder: &mut Recorder) {
    for setup in around().iter().chain(&faulty()) {
        recorder.run(setup, Lent { allowance: 2, log: 4, list: 12 }, &[0, 0]);
    }
    for setup in faulty() {
        recorder.run(&setup, Lent { allowance: 2, log: 3, list: 5 }, &[0, 64]);
    }
}

/// Task numbers of N and more, at the first turn, later, at the last, and beyond the allowance.
fn turns_of_no_task(recorder: &mut Recorder) {
    for (kind, n) in [(FETCH_AND_INCREMENT, 1), (TREE, 2), (SYMMETRIC, 63), (RING, 64)] {
        for wrong in [n as u8 - 1, n as u8, n as u8 + 1, 255] {
            for place in [0, 4, 9] {
                let mut schedule = repeat(0, 10);
                schedule[place] = wrong;
                let lent = Lent::tasks(n, 10);
                recorder.run(&plain(kind, n), Lent { allowance: 5, ..lent }, &schedule);
            }
        }
    }
    recorder.run(&plain(RING, 3), Lent::tasks(3, 8), &[0, 1, 2, 3, 4, 255, 0, 3]);
    let late = |place| [repeat(0, place), vec![3]].concat();
    recorder.run(&plain(RING, 3), Lent::tasks(3, 0), &late(300));
    recorder.run(&plain(RING, 3), Lent::tasks(3, 0), &late(65_535));
    recorder.run(&plain(RING, 3), Lent::tasks(3, 0), &[0, 1, 2, 3]);
}

/// The reasons of a fresh state before 8, 8 before 9, 9 before 10.
fn order(recorder: &mut Recorder) {
    let too_long = repeat(3, 65_537);
    let short = Lent { allowance: u64::MAX, log: 0, list: 0 };
    recorder.run(&worked(RING, &[1, 0]), short, &too_long);
    recorder.run(&plain(RING, 2), short, &too_long);
    recorder.run(&plain(RING, 2), short, &[1, 2]);
    recorder.run(&plain(RING, 2), short, &[1, 1]);
    recorder.run(&plain(RING, 2), Lent { log: 4, list: 7, ..short }, &[1, 2]);
    recorder.run(&plain(RING, 2), Lent { log: 3, list: 8, ..short }, &[2, 1]);
    recorder.run(&Setup { starts: vec![0], ..plain(RING, 2) }, short, &[2]);
}

/// 65,536 turns: all of them made for two kinds, and few of them for another.
fn longest(recorder: &mut Recorder, random: &mut Random) {
    let whole = Lent::tasks(3, 65_536);
    recorder.run(&plain(CENTRALIZED, 3), whole, &schedules::uniform(random, 3, 65_536));
    let lent = Lent { log: whole.log + 1, ..whole };
    recorder.run(&worked(SYMMETRIC, &[1, 2, 1]), lent, &cycle(3, 65_536));
    recorder.run(&plain(TREE, 1), Lent::tasks(1, 40), &repeat(0, 65_536));
}
