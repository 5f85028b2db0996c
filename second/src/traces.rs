//! The named traces of every kind, for the stored cases and the plays, and each one with a byte
//! changed. Those of kind 0 without a start table rely on what the start is then, so they alone
//! stand for it among the stored cases, and a list of them can be printed. Beside the named traces,
//! which have no work table, there is one with such a table for each kind.

use super::machine::{CENTRALIZED, FETCH_AND_INCREMENT, RING, SYMMETRIC, TREE};
use super::schedules::{cycle, each, repeat};
use super::setup::Setup;
use std::fmt::Write;

/// A trace with its name and a few words on what it shows.
pub struct Named {
    pub name: &'static str,
    pub shows: &'static str,
    pub setup: Setup,
    pub trace: Vec<u8>,
}

/// A named trace with one byte of a triple changed.
pub struct Changed {
    pub name: String,
    /// The index of the triple.
    pub index: usize,
    pub trace: Vec<u8>,
}

/// What a named trace is made from: its schedule is run from the fresh state.
struct Row {
    name: &'static str,
    kind: u8,
    n: u8,
    modulus: u8,
    parents: &'static [u8],
    starts: &'static [u8],
    works: &'static [u8],
    schedule: fn() -> Vec<u8>,
    shows: &'static str,
}

/// A row of a ring of one task, for those that follow to name what is theirs.
const RING_OF_ONE: Row = Row {
    name: "ring-alone",
    kind: RING,
    n: 1,
    modulus: 0,
    parents: &[],
    starts: &[],
    works: &[],
    schedule: || repeat(0, 13),
    shows: "one task, which sets and clears its own toggle",
};

const ROWS: [Row; 15] = [
    Row {
        name: "symmetric-alone",
        kind: SYMMETRIC,
        modulus: 3,
        schedule: || repeat(0, 20),
        shows: "one task, which never waits; its tag comes back to 0",
        ..RING_OF_ONE
    },
    Row {
        name: "symmetric-one-ahead",
        kind: SYMMETRIC,
        n: 2,
        modulus: 3,
        schedule: || [repeat(0, 4), repeat(1, 5), repeat(0, 12), repeat(1, 12)].concat().repeat(2),
        shows: "task 0 a round ahead of task 1, which still looks at it",
        ..RING_OF_ONE
    },
    Row {
        name: "symmetric-last-first",
        kind: SYMMETRIC,
        n: 3,
        modulus: 5,
        schedule: || each((0..3).rev(), 5).repeat(5),
        shows: "the last task comes first, and the others wait for task 0",
        ..RING_OF_ONE
    },
    Row {
        name: "symmetric-next-starts",
        kind: SYMMETRIC,
        n: 3,
        modulus: 3,
        starts: &[1, 2, 0],
        schedule: || each(0..3, 5).repeat(5),
        shows: "each task looks at the next one first",
        ..RING_OF_ONE
    },
    Row {
        name: "increment-alone",
        kind: FETCH_AND_INCREMENT,
        schedule: || repeat(0, 16),
        shows: "one task, which is always the last to arrive",
        ..RING_OF_ONE
    },
    Row {
        name: "increment-overtaking",
        kind: FETCH_AND_INCREMENT,
        n: 2,
        schedule: overtaking,
        shows: "task 1 enters the second round while task 0 is still in the first",
        ..RING_OF_ONE
    },
    Row {
        name: "increment-last-first",
        kind: FETCH_AND_INCREMENT,
        n: 3,
        schedule: || each((0..3).rev(), 4).repeat(4),
        shows: "the last task comes first, and task 0 lets the others go",
        ..RING_OF_ONE
    },
    RING_OF_ONE,
    Row {
        name: "ring-round-robin",
        n: 3,
        schedule: || cycle(3, 43),
        shows: "the tasks in their order, again and again",
        ..RING_OF_ONE
    },
    Row {
        name: "ring-last-first",
        n: 4,
        schedule: || each((0..4).rev(), 2).repeat(12),
        shows: "the tasks against their order",
        ..RING_OF_ONE
    },
    Row {
        name: "tree-alone",
        kind: TREE,
        parents: &[0],
        schedule: || repeat(0, 18),
        shows: "the root without children",
        ..RING_OF_ONE
    },
    Row {
        name: "tree-flat",
        kind: TREE,
        n: 3,
        parents: &[0; 3],
        schedule: || each((0..3).rev(), 6).repeat(4),
        shows: "the root with two children",
        ..RING_OF_ONE
    },
    Row {
        name: "tree-linear",
        kind: TREE,
        n: 3,
        parents: &[0, 0, 1],
        schedule: || each((0..3).rev(), 4).repeat(6),
        shows: "a child that is a parent too",
        ..RING_OF_ONE
    },
    Row {
        name: "centralized-alone",
        kind: CENTRALIZED,
        schedule: || repeat(0, 16),
        shows: "one task, whose own sense is inverted in every round",
        ..RING_OF_ONE
    },
    Row {
        name: "centralized-overtaking",
        kind: CENTRALIZED,
        n: 2,
        schedule: overtaking,
        shows: "task 1 inverts its sense again while task 0 still waits for the first",
        ..RING_OF_ONE
    },
];

/// Of two tasks, the last to arrive for the first round arrives for the second while the other
/// still waits, which then ends that round.
pub fn overtaking() -> Vec<u8> {
    [0, 0, 0, 0, 1, 1, 1, 0, 1, 0, 1, 1, 1, 1, 1, 0, 0, 0, 0, 0, 1, 0, 1].to_vec()
}

/// A row of each kind with a work table.
const WORKED: [Row; 5] = [
    Row {
        name: "symmetric-worked",
        kind: SYMMETRIC,
        n: 3,
        modulus: 3,
        starts: &[1, 2, 0],
        works: &[3, 1, 2],
        schedule: || each((0..3).rev(), 7).repeat(5),
        shows: "the longest work is that of the last to come",
        ..RING_OF_ONE
    },
    Row {
        name: "increment-worked",
        kind: FETCH_AND_INCREMENT,
        n: 2,
        works: &[1, 4],
        schedule: || cycle(2, 44),
        shows: "task 0 waits while task 1 works",
        ..RING_OF_ONE
    },
    Row {
        name: "ring-worked",
        n: 3,
        works: &[2, 5, 1],
        schedule: || cycle(3, 63),
        shows: "the message stays with task 1 while it works",
        ..RING_OF_ONE
    },
    Row {
        name: "tree-worked",
        kind: TREE,
        n: 3,
        parents: &[0, 0, 1],
        works: &[4, 2, 3],
        schedule: || each((0..3).rev(), 5).repeat(6),
        shows: "the root works longest",
        ..RING_OF_ONE
    },
    Row {
        name: "centralized-worked",
        kind: CENTRALIZED,
        n: 3,
        works: &[1, 3, 2],
        schedule: || each((0..3).rev(), 5).repeat(4),
        shows: "the last to arrive has the shortest work",
        ..RING_OF_ONE
    },
];

impl Row {
    /// Runs the schedule.
    fn named(&self) -> Named {
        let setup = Setup {
            kind: self.kind.into(),
            n: self.n.into(),
            modulus: self.modulus.into(),
            parents: self.parents.to_vec(),
            starts: self.starts.to_vec(),
            works: self.works.to_vec(),
        };
        let trace = setup.trace(&(self.schedule)());
        Named { name: self.name, shows: self.shows, setup, trace }
    }
}

/// All named traces.
pub fn all() -> Vec<Named> {
    ROWS.iter().map(Row::named).collect()
}

/// The traces with a work table, one of each kind.
pub fn worked() -> Vec<Named> {
    WORKED.iter().map(Row::named).collect()
}

/// The rows of a table, one for each named trace of kind 0 without a start table: its name, the
/// head of its request, its triples, and what it shows.
pub fn table() -> String {
    let mut text = String::new();
    for named in all().iter().filter(|named| named.relies_on_the_start()) {
        let head = named.setup.head().map(|number| number.to_string()).join(" ");
        let (name, triples, shows) = (named.name, named.triples(), named.shows);
        let _ = writeln!(text, "| `{name}` | `11 {head}` | {triples} | {shows} |");
    }
    text
}

impl Named {
    /// Whether it is of kind 0 and gives no start table.
    pub fn relies_on_the_start(&self) -> bool {
        self.setup.kind == u64::from(SYMMETRIC) && self.setup.starts.is_empty()
    }

    /// The number of its triples.
    pub fn triples(&self) -> usize {
        self.trace.len() / 3
    }

    /// Its first triple, one in the middle, which waited if one from there on did, and its last.
    pub fn places(&self) -> [(&'static str, usize); 3] {
        let middle = self.triples() / 2;
        let waited = (middle..self.triples()).find(|index| self.trace[3 * index + 2] == 0);
        [("first", 0), ("middle", waited.unwrap_or(middle)), ("last", self.triples() - 1)]
    }

    /// The indices of the triples with which a task ends its work: at its next one it is at 12.
    pub fn ends_of_work(&self) -> Vec<usize> {
        let ends = |&index: &usize| {
            let task = self.trace[3 * index];
            let mut later = self.trace[3 * index + 3..].chunks_exact(3);
            let next = later.find(|triple| triple[0] == task);
            self.trace[3 * index + 1] == 11 && next.is_some_and(|triple| triple[1] == 12)
        };
        (0..self.triples()).filter(ends).collect()
    }

    /// The trace with one byte changed, for each byte of these three triples: another task, no
    /// task, another line, the other outcome, no outcome.
    pub fn changes(&self) -> Vec<Changed> {
        let mut changes = Vec::new();
        for (place, index) in self.places() {
            let triple = &self.trace[3 * index..][..3];
            let n = self.setup.n as u8;
            for (what, byte, value) in [
                ("another-task", 0, (triple[0] + 1) % n),
                ("task-n", 0, n),
                ("task-255", 0, 255),
                ("another-line", 1, triple[1] + 1),
                ("other-outcome", 2, 1 - triple[2]),
                ("outcome-2", 2, 2),
                ("outcome-255", 2, 255),
            ] {
                let mut trace = self.trace.clone();
                trace[3 * index + byte] = value;
                changes.push(Changed { name: format!("{place}-{what}"), index, trace });
            }
        }
        // One task alone has no other.
        changes.retain(|changed| changed.trace != self.trace);
        changes
    }
}
