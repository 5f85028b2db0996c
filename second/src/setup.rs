//! Setups: what a fresh state is made of, and the trace that a schedule leaves from there.

use super::machine::{fresh, run, State, Tables};

/// A kind, N, R and tables, which may be refused.
#[derive(Clone, Debug, Default)]
pub struct Setup {
    pub kind: u64,
    pub n: u64,
    pub modulus: u64,
    pub parents: Vec<u8>,
    pub starts: Vec<u8>,
    pub works: Vec<u8>,
}

impl Setup {
    /// The numbers before the tables: the kind, N, R and the tables' lengths.
    pub fn head(&self) -> [u64; 6] {
        let tables = [&self.parents, &self.starts, &self.works];
        let [parents, starts, works] = tables.map(|table| table.len() as u64);
        [self.kind, self.n, self.modulus, parents, starts, works]
    }

    /// The entries of the tables, one table after another.
    pub fn entries(&self) -> Vec<u8> {
        [&self.parents[..], &self.starts, &self.works].concat()
    }

    /// The tables.
    pub fn tables(&self) -> Tables<'_> {
        Tables { parents: &self.parents, starts: &self.starts, works: &self.works }
    }

    /// The trace of a schedule; it says nothing true where the setup or the schedule is refused.
    pub fn trace(&self, schedule: &[u8]) -> Vec<u8> {
        let mut state = State::ZERO;
        let _ = fresh(&mut state, self.kind, self.n, self.modulus, self.tables());
        let mut log = vec![0; 2 * schedule.len()];
        run(&mut state, schedule, schedule.len() as u64, &mut log);
        woven(schedule, &log)
    }
}

/// The triples of a schedule and its log: each turn's task, then its two bytes.
fn woven(schedule: &[u8], log: &[u8]) -> Vec<u8> {
    let turns = schedule.iter().zip(log.chunks_exact(2));
    turns.flat_map(|(&task, entry)| [task, entry[0], entry[1]]).collect()
}
