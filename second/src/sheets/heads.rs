//! Texts around reasons 2 to 4: kinds, task counts and moduli on both sides of their ends.

use super::texts::{head, spaced, Texts, LARGE};
use crate::machine::{KINDS, SYMMETRIC};

pub fn add(texts: &mut Texts) {
    kinds_taken(texts);
    kinds_refused(texts);
    for kind in KINDS {
        counts_taken(texts, kind);
        counts_refused(texts, kind);
        moduli_refused(texts, kind);
    }
    moduli_taken(texts);
}

/// A text of the head and each task's number as a turn, twice.
fn with_turns(head: &[u64], tasks: u64) -> String {
    let turns: Vec<u64> = (0..tasks).collect();
    spaced(&[head, &turns, &turns].concat())
}

/// Kinds 0 to 4.
fn kinds_taken(texts: &mut Texts) {
    for kind in KINDS {
        texts.add(format!("taken-kind-{kind}"), with_turns(&head(kind, 2), 2));
    }
}

/// Kinds from 5 on, with the R of either sort; 260 and 65,540 would be 4 if they were cut.
fn kinds_refused(texts: &mut Texts) {
    for kind in [5, 6, 10, 260, 65_540].into_iter().chain(LARGE) {
        texts.add(format!("refused-2-kind-{kind}-modulus-0"), with_turns(&[kind, 2, 0], 2));
        texts.add(format!("refused-2-kind-{kind}-modulus-3"), with_turns(&[kind, 2, 3], 2));
    }
}

/// N from 1 to 64.
fn counts_taken(texts: &mut Texts, kind: u8) {
    for n in [1, 2, 63, 64] {
        texts.add(format!("taken-kind-{kind}-n-{n}"), with_turns(&head(kind, n), n));
    }
}

/// N 0, and N from 65 on; 320 and 65,600 would be 64 if they were cut. A tree has as many parents
/// as N asks for, up to some hundred.
fn counts_refused(texts: &mut Texts, kind: u8) {
    for n in [0, 65, 66, 320, 65_600].into_iter().chain(LARGE) {
        let mut head = head(kind, n.min(330));
        head[1] = n;
        texts.add(format!("refused-3-kind-{kind}-n-{n}"), with_turns(&head, 1));
    }
}

/// The moduli of the symmetric barrier.
fn moduli_taken(texts: &mut Texts) {
    for modulus in [3, 4, 5, 254, 255] {
        texts.add(format!("taken-modulus-{modulus}"), with_turns(&[0, 2, modulus], 2));
    }
}

/// R 0 to 2 and from 256 on for symmetric, and from 1 on for another kind; 259 and 65,539 would be
/// 3 if they were cut.
fn moduli_refused(texts: &mut Texts, kind: u8) {
    let fits = |modulus: &u64| match kind {
        SYMMETRIC => (3..=255).contains(modulus),
        _ => *modulus == 0,
    };
    let moduli = [0, 1, 2, 3, 259, 65_539].into_iter().chain(LARGE);
    for modulus in moduli.filter(|modulus| !fits(modulus)) {
        let mut head = head(kind, 2);
        head[2] = modulus;
        texts.add(format!("refused-4-kind-{kind}-modulus-{modulus}"), with_turns(&head, 2));
    }
}
