//! Random calls: rounds of every kind and every N, each with a random setup, the same with one thing
//! wrong, state lists that are damaged, traces and texts. The same seed gives the same calls.

mod ends;
mod long;
mod plays;
pub mod scene;
pub mod sessions;
mod states;
mod texts;
mod turns;

use super::recorder::Recorder;
use crate::machine::KINDS;
use crate::random::Random;
use crate::refusal::MAX_TASKS;
use scene::Scene;
use std::iter::repeat_n;

/// The most tasks of which long stretches of single turns are made.
const FEW_TASKS: usize = 8;

/// The largest N of which all rounds are made. A larger one has longer lists.
const SMALL: usize = 16;

/// How often a round asks for a schedule, a trace or a text that is too long. These are most of the
/// bytes where they are; in 320 rounds each call that takes one comes at least once.
const SELDOM: usize = 41;

/// So many rounds of every kind and every N, and half as many of a large one.
pub fn calls(seed: u64, rounds: usize) -> Recorder {
    let mut recorder = Recorder::default();
    let mut random = Random::new(seed);
    for (number, (kind, n)) in barriers(rounds).enumerate() {
        let scene = Scene::any(&mut random, kind, n);
        round(&mut recorder, &mut random, number, &scene);
    }
    recorder
}

/// The kind and N of each round.
fn barriers(rounds: usize) -> impl Iterator<Item = (u8, usize)> {
    let counts = (1..=MAX_TASKS).flat_map(move |n| match n {
        0..=SMALL => repeat_n(n, rounds),
        _ => repeat_n(n, rounds.div_ceil(2)),
    });
    KINDS.into_iter().flat_map(move |kind| counts.clone().map(move |n| (kind, n)))
}

/// One round. What is damaged goes by its number, so that everything comes in its turn.
fn round(recorder: &mut Recorder, random: &mut Random, number: usize, scene: &Scene) {
    let damaged = scene.damaged(random, number);
    sessions::add(recorder, random, &damaged);
    sessions::add(recorder, random, scene);
    states::add(recorder, random, scene.setup.n as usize);
    plays::add(recorder, random, scene, &damaged);
    texts::add(recorder, random, &scene.setup, number);
    ends::add(recorder, random, &scene.setup, number);
    if scene.setup.n <= FEW_TASKS as u64 {
        turns::add(recorder, random, &scene.setup);
    }
    if number % SELDOM == 0 {
        long::add(recorder, &scene.setup, number / SELDOM);
    }
}
