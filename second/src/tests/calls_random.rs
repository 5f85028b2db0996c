//! The random calls: the same for the same seed, of every kind and N, with every reason of every
//! function, and what is refused has written nothing.

use super::calls_written::{asked_of, check_answers, check_lent, Asked};
use crate::calls::random;
use crate::calls::random::scene::{Scene, DAMAGES};
use crate::calls::random::sessions;
use crate::calls::reasons::REASONS;
use crate::calls::recorder::Recorder;
use crate::lines::MAX_LINE;
use crate::machine::KINDS;
use crate::random::Random;
use std::collections::{BTreeSet, HashSet};
use std::sync::OnceLock;

/// A round of every kind and N, which is made once for all tests.
fn calls() -> &'static Recorder {
    static CALLS: OnceLock<Recorder> = OnceLock::new();
    CALLS.get_or_init(|| random::calls(7, 1))
}

#[test]
fn every_reason_is_met() {
    assert_eq!(calls().met().check(), Ok(()));
}

#[test]
fn the_same_for_the_same_seed() {
    let again = random::calls(7, 1);
    assert!(again.requests() == calls().requests() && again.answers() == calls().answers());
    assert!(random::calls(8, 1).requests() != calls().requests());
}

#[test]
fn refused_calls() {
    check_answers(&asked_of(calls()));
    let met = check_lent(calls());
    assert!(met > 4_000, "{met}");
}

/// Every kind and N has accepted calls of each function that takes them.
#[test]
fn kinds_and_counts_are_met() {
    let asked = asked_of(calls());
    let accepted = asked.iter().filter(|asked| asked.answer[0] == 0);
    let met: HashSet<&[u64]> = accepted.filter_map(|asked| asked.request.get(..3)).collect();
    for function in [1, 2, 9, 11, 16] {
        for kind in 0..=4 {
            let counts = (1..=64).filter(|&n| met.contains(&[function, kind, n][..])).count();
            assert_eq!(counts, 64, "{function} {kind}");
        }
    }
}

/// Eight rounds are some 170 million bytes; one is so much less that it must be far below them.
#[test]
fn sizes() {
    let calls = calls();
    assert!(calls.requests().len() + calls.answers().len() < 40_000_000);
    assert!(calls.requests().lines().all(|line| line.len() <= MAX_LINE));
    assert_eq!(calls.requests().lines().count(), calls.count());
    assert_eq!(calls.answers().lines().count(), calls.count());
}

/// The reasons that the calls of a scene give.
fn reasons(scene: &Scene) -> BTreeSet<u64> {
    let mut recorder = Recorder::default();
    sessions::add(&mut recorder, &mut Random::new(1), scene);
    let asked = asked_of(&recorder);
    let with_reason = |asked: &&Asked| {
        // A turn may be of no task in any scene.
        let function = asked.request[0];
        function != 4 && REASONS.iter().any(|&(other, _)| other == function)
    };
    asked.iter().filter(with_reason).map(|asked| asked.answer[0]).collect()
}

#[test]
fn scenes_are_taken() {
    let mut random = Random::new(3);
    for kind in KINDS {
        for n in [1, 2, 7, 63, 64] {
            assert_eq!(reasons(&Scene::any(&mut random, kind, n)), BTreeSet::from([0]));
        }
    }
}

/// Every damage is found by a call, though not in each scene: what is missing may not be needed.
#[test]
fn damaged_scenes_are_refused() {
    let mut random = Random::new(4);
    for (number, damage) in DAMAGES.iter().enumerate() {
        let scenes = KINDS.iter().cycle().take(30);
        let is_refused = |kind: &&u8| {
            let mut scene = Scene::any(&mut random, **kind, 5);
            damage(&mut scene, &mut random);
            reasons(&scene).len() > 1
        };
        let refused = scenes.filter(is_refused).count();
        assert!(refused >= 10, "{number} {refused}");
    }
}
