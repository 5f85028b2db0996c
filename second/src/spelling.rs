//! Misspelling: texts that are almost right.

use super::random::Random;

/// Puts in, takes out or changes one byte. A byte that is put in is one of those given.
pub fn misspell(random: &mut Random, text: &mut Vec<u8>, bytes: &[u8]) {
    let byte = random.pick(bytes);
    let place = random.length(0, text.len());
    match random.below(3) {
        0 => text.insert(place, byte),
        1 if place < text.len() => text[place] = byte,
        2 if place < text.len() => {
            text.remove(place);
        }
        _ => {}
    }
}
