//! A schedule, and what its fresh state is made from.

use crate::library::Setup;

#[derive(Clone, Debug)]
pub struct Start {
    pub kind: usize,
    pub n: usize,
    pub modulus: usize,
    pub parents: Vec<u8>,
    pub starts: Vec<u8>,
    pub works: Vec<u8>,
    pub schedule: Vec<u8>,
}

impl Start {
    /// What the fresh state is made from, as the functions take it.
    pub fn setup(&self) -> Setup<'_> {
        Setup {
            kind: self.kind,
            n: self.n,
            modulus: self.modulus,
            parents: &self.parents,
            starts: &self.starts,
            works: &self.works,
        }
    }
}
