//! Long texts of every kind, at or just under 65,536 bytes: random schedules and round robin.

use super::texts::{strewn, wide, Texts};
use crate::parents::of_shape;
use crate::random::Random;
use crate::schedules::{cycle, uniform};
use crate::sheet::MAX_TEXT;

/// More turns than any text has.
const ENOUGH: usize = MAX_TEXT / 2;

pub fn add(texts: &mut Texts, random: &mut Random) {
    for n in [1, 12, 64] {
        symmetric(texts, random, n);
        schedules(texts, random, &format!("kind-1-n-{n}"), n, &[1, n as u64, 0]);
        schedules(texts, random, &format!("kind-2-n-{n}"), n, &[2, n as u64, 0]);
        trees(texts, random, n);
        schedules(texts, random, &format!("kind-4-n-{n}"), n, &[4, n as u64, 0]);
    }
}

/// Symmetric barriers whose tags go round soon and late.
fn symmetric(texts: &mut Texts, random: &mut Random, n: usize) {
    for modulus in [3, 255] {
        let name = format!("kind-0-modulus-{modulus}-n-{n}");
        schedules(texts, random, &name, n, &[0, n as u64, modulus]);
    }
}

/// Trees of all four shapes.
fn trees(texts: &mut Texts, random: &mut Random, n: usize) {
    for shape in 0..=3 {
        let head = [vec![3, n as u64, 0], wide(&of_shape(shape, n))].concat();
        schedules(texts, random, &format!("kind-3-shape-{shape}-n-{n}"), n, &head);
    }
}

/// Round robin in just 65,536 bytes, and a random schedule in strewn numbers.
fn schedules(texts: &mut Texts, random: &mut Random, name: &str, n: usize, head: &[u64]) {
    let numbers = [head, &wide(&cycle(n, ENOUGH))].concat();
    let mut text = as_many_as_fit(&numbers, |number| format!("{number} "));
    text.resize(MAX_TEXT, b'\n');
    texts.add(format!("taken-long-{name}-round-robin"), text);
    let numbers = [head, &wide(&uniform(random, n, ENOUGH))].concat();
    let text = as_many_as_fit(&numbers, |number| strewn(random, number));
    texts.add(format!("taken-long-{name}-random"), text);
}

/// The numbers as they are spelt, up to the first that doesn't fit any more.
fn as_many_as_fit(numbers: &[u64], mut spelt: impl FnMut(u64) -> String) -> Vec<u8> {
    let mut text = Vec::new();
    for &number in numbers {
        let word = spelt(number);
        if text.len() + word.len() > MAX_TEXT {
            break;
        }
        text.extend(word.into_bytes());
    }
    text
}
