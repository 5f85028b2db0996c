//! The list of plays with their names, and what they are put together from.

use crate::setup::Setup;
use crate::sheets::texts::{spaced, wide};

/// The first turn of any setup that is accepted.
pub const FIRST: [u8; 3] = [0, 11, 1];

/// The text of a setup and the bytes of a trace, with a name that says what they show. A play is
/// refused for reason K where its name begins with `refused-K`, differs at triple I with
/// `differs-I`, and agrees with `agrees`. A test holds the names against the answers.
pub struct Play {
    pub name: String,
    pub setup: Vec<u8>,
    pub trace: Vec<u8>,
}

#[derive(Default)]
pub struct Plays {
    list: Vec<Play>,
}

impl Plays {
    pub fn add(
        &mut self,
        name: impl Into<String>,
        setup: impl Into<Vec<u8>>,
        trace: impl Into<Vec<u8>>,
    ) {
        self.list.push(Play { name: name.into(), setup: setup.into(), trace: trace.into() });
    }

    /// A setup's text with the first turn as its trace.
    pub fn text(&mut self, name: impl Into<String>, setup: impl Into<Vec<u8>>) {
        self.add(name, setup, FIRST);
    }

    /// The plays so far.
    pub fn list(&self) -> &[Play] {
        &self.list
    }
}

/// The text of a setup.
pub fn text(setup: &Setup) -> String {
    spaced(&[&setup.head()[..], &wide(&setup.entries())].concat()) + "\n"
}
