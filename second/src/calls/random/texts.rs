//! Sheet texts: that of a setup and a few turns, and the same with one thing wrong; read with buffers
//! of just enough, one less and one more, and printed.

use crate::calls::recorder::Recorder;
use crate::machine::TREE;
use crate::random::Random;
use crate::schedules;
use crate::setup::Setup;
use crate::sheet::read;
use crate::sheets::texts::{spaced, wide};
use crate::spelling::misspell;

/// The numbers before the parents.
const HEAD: usize = 3;

/// The bytes of which a misspelt text is made; most are no part of a text.
const OTHER_BYTES: &[u8] = b"09 \n\t\r\0-x\xff";

pub fn add(recorder: &mut Recorder, random: &mut Random, setup: &Setup, number: usize) {
    let length = random.length(1, 24);
    let turns = wide(&schedules::any(random, setup.n as usize, length));
    let head = [setup.kind, setup.n, setup.modulus];
    let mut numbers = [&head[..], &wide(&setup.parents), &turns].concat();
    let text = spaced(&numbers).into_bytes();
    both(recorder, random, &text);
    let damage = DAMAGES[number % DAMAGES.len()];
    damage(&mut numbers, random);
    let mut text = spaced(&numbers).into_bytes();
    if number % (DAMAGES.len() + 1) == 0 {
        misspell(random, &mut text, OTHER_BYTES);
    }
    both(recorder, random, &text);
}

/// Reads the text with several buffers, and most often prints its sheet, whose answer is long. A text
/// that is refused for another reason than its buffers is read once.
fn both(recorder: &mut Recorder, random: &mut Random, text: &[u8]) {
    if !random.once_in(3) {
        recorder.sheet(text);
    }
    let Ok((setup, schedule)) = read(text) else {
        recorder.read(random.below(4), random.below(4), text);
        return;
    };
    let (parents, turns) = (setup.parents.len() as u64, schedule.len() as u64);
    recorder.read(parents, turns, text);
    recorder.read(parents.saturating_sub(1), turns, text);
    recorder.read(parents, turns.saturating_sub(1), text);
    recorder.read(parents + 1, turns + 1, text);
}

/// Each makes one of the numbers wrong, or leaves some out.
const DAMAGES: [fn(&mut Vec<u64>, &mut Random); 8] = [
    |numbers, random| numbers[0] = random.pick(&[5, 255, 256, 99_999]),
    |numbers, random| numbers[1] = random.pick(&[0, 65, 256, 99_999]),
    |numbers, random| numbers[2] += random.pick(&[256, 512, 65_536]),
    |numbers, random| numbers[2] = random.pick(&[0, 1, 2, 99_999, 100_000]),
    parent,
    |numbers, random| numbers.truncate(random.length(0, HEAD + 3)),
    |numbers, random| {
        let last = numbers.len() - 1;
        numbers[last] = random.pick(&[numbers[1], numbers[1] + 1, 256, 65_536]);
    },
    |numbers, random| {
        let place = random.length(0, numbers.len() - 1);
        numbers[place] = random.pick(&[0, 1, 63, 64, 255, 256, 99_999, 100_000]);
    },
];

/// A parent that isn't below its task; where there are none, another kind's numbers are parents.
fn parent(numbers: &mut Vec<u64>, random: &mut Random) {
    if numbers[0] != u64::from(TREE) {
        numbers[0] = TREE.into();
        return;
    }
    let task = random.below(numbers[1]);
    let wrong = random.pick(&[task.max(1), task + 1, 256, 65_536]);
    numbers[HEAD + task as usize] = wrong;
}
