//! What a call answers beside the lists and buffers it is lent.

use crate::refusal::Refusal;

/// A reason and so many numbers. They are filled before the call, so that one which the call
/// doesn't write would show.
#[derive(Debug, PartialEq, Eq)]
pub struct Answer<const NUMBERS: usize> {
    pub reason: u8,
    pub numbers: [u64; NUMBERS],
}

impl<const NUMBERS: usize> Answer<NUMBERS> {
    /// What stands there before the call.
    pub fn filled() -> Answer<NUMBERS> {
        Answer { reason: u8::MAX, numbers: [u64::MAX; NUMBERS] }
    }

    /// Nothing was refused.
    pub fn accept(&mut self, numbers: [u64; NUMBERS]) {
        *self = Answer { reason: 0, numbers };
    }

    /// A turn was refused, but what was made before it stands.
    pub fn stop(&mut self, refusal: Refusal, numbers: [u64; NUMBERS]) {
        *self = Answer { reason: refusal.number(), numbers };
    }

    /// The call was refused, so that every number is 0.
    pub fn refuse(&mut self, refusal: Refusal) {
        *self = Answer { reason: refusal.number(), numbers: [0; NUMBERS] };
    }

    /// The same, where one of the numbers is the place of a schedule's 9.
    pub fn refuse_at(&mut self, refusal: Refusal, number: usize) {
        self.refuse(refusal);
        if let Refusal::TaskAt(place) = refusal {
            self.numbers[number] = place as u64;
        }
    }

    /// Accepted or refused, as the result says.
    pub fn give(&mut self, result: Result<[u64; NUMBERS], Refusal>) {
        match result {
            Ok(numbers) => self.accept(numbers),
            Err(refusal) => self.refuse(refusal),
        }
    }
}
