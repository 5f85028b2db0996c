//! The requests: every part in its order.

mod damage;
mod fresh;
mod known;
mod lengths;
mod limits;
mod lists;
mod passes;
mod play_states;
mod plays;
mod rows;
mod runs;
mod sessions;
pub mod setups;
mod shapes;
mod stops;
mod texts;
mod turns;

use super::recorder::Recorder;
use crate::random::Random;

/// The seed of the random requests.
const SEED: u64 = 20_240_613;

/// Numbers that would be 1 or 2 if they were cut to a byte or to 32 bits, and the largest.
const LARGE: [u64; 3] = [258, (1 << 32) + 1, u64::MAX];

/// Asks everything.
pub fn add(recorder: &mut Recorder) {
    let mut random = Random::new(SEED);
    known::add(recorder);
    lists::add(recorder);
    fresh::add(recorder, &mut random);
    runs::add(recorder, &mut random);
    turns::add(recorder);
    sessions::add(recorder, &mut random);
    rows::add(recorder, &mut random);
    lengths::add(recorder);
    stops::add(recorder);
    damage::add(recorder);
    passes::add(recorder, &mut random);
    shapes::add(recorder);
    plays::add(recorder);
    play_states::add(recorder, &mut random);
    limits::add(recorder, &mut random);
    texts::add(recorder);
}
