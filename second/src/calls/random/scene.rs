//! Scenes: what the calls of a round are made of, and the same with one thing wrong.

use crate::calls::cases::setups;
use crate::calls::functions::{NUMBERS_OF_A_ROW, NUMBERS_OF_A_TASK};
use crate::calls::list::LENGTH;
use crate::calls::recorder::Lent;
use crate::machine::{fresh, State, SYMMETRIC, TREE};
use crate::passes::Passes;
use crate::random::Random;
use crate::refusal::MAX_TASKS;
use crate::schedules;
use crate::setup::Setup;

/// Beyond a byte and beyond 32 bits: such a number added to one that is right would be right if it
/// were cut.
const CUT: [u64; 2] = [1 << 8, 1 << 32];

#[derive(Clone)]
pub struct Scene {
    pub setup: Setup,
    pub schedule: Vec<u8>,
    pub allowance: u64,
    pub shape: u64,
    /// The numbers of the state list.
    pub length: usize,
    room: Room,
    passes: usize,
}

/// How much longer each list or buffer that is lent is than it must be; below 0 it is too short.
#[derive(Clone, Copy)]
struct Room {
    log: i64,
    list: i64,
    pairs: i64,
    table: i64,
}

impl Scene {
    /// A scene in which nothing is refused.
    pub fn any(random: &mut Random, kind: u8, n: usize) -> Scene {
        let setup = setups::any(random, kind, n);
        let length = random.length(0, 20 + 3 * n);
        let schedule = schedules::any(random, n, length);
        let mut more = || random.pick(&[0, 0, 0, 1, 3]);
        let room = Room { log: more(), list: more(), pairs: more(), table: more() };
        Scene {
            allowance: any_allowance(random, length as u64),
            shape: random.below(4),
            length: random.pick(&[LENGTH, LENGTH, LENGTH, LENGTH + 1, LENGTH + 3]),
            passes: Passes::new(n, &schedule).count(),
            setup,
            schedule,
            room,
        }
    }

    /// The same with one thing wrong. A list that stays filled is long to show, so that most such
    /// are short.
    pub fn damaged(&self, random: &mut Random, number: usize) -> Scene {
        let mut scene = self.clone();
        DAMAGES[number % DAMAGES.len()](&mut scene, random);
        let Setup { kind, n, modulus, .. } = scene.setup;
        let mut state = State::ZERO;
        let refused = fresh(&mut state, kind, n, modulus, scene.setup.tables()).is_err();
        if refused && !random.once_in(8) {
            scene.length = random.length(0, 3);
        }
        scene
    }

    /// N, at most 64.
    fn tasks(&self) -> usize {
        self.setup.n.min(MAX_TASKS as u64) as usize
    }

    /// The turns that would be made.
    fn turns(&self) -> usize {
        self.allowance.min(self.schedule.len() as u64) as usize
    }

    /// What a run is lent.
    pub fn for_tasks(&self) -> Lent {
        self.lent(NUMBERS_OF_A_TASK * self.tasks())
    }

    /// What a run that tells its rows is lent.
    pub fn for_rows(&self) -> Lent {
        self.lent(NUMBERS_OF_A_ROW * self.turns())
    }

    fn lent(&self, list: usize) -> Lent {
        Lent {
            allowance: self.allowance,
            log: around(2 * self.turns(), self.room.log),
            list: around(list, self.room.list),
        }
    }

    /// The numbers that the pairs are lent.
    pub fn for_pairs(&self) -> u64 {
        around(2 * self.passes, self.room.pairs)
    }

    /// The bytes that a table is lent.
    pub fn for_table(&self) -> u64 {
        around(self.tasks(), self.room.table)
    }
}

/// A length of so many, and some more or less.
fn around(length: usize, more: i64) -> u64 {
    (length as u64).saturating_add_signed(more)
}

/// An allowance below, at or above the length of a schedule, most often at it.
fn any_allowance(random: &mut Random, length: u64) -> u64 {
    match random.below(8) {
        0 => random.below(length + 1),
        1 => length.saturating_sub(1),
        2 => length + 1,
        3 => random.pick(&[1 << 32, u64::MAX]),
        _ => length,
    }
}

// ---- damage ----

/// Each makes one thing wrong.
pub const DAMAGES: [fn(&mut Scene, &mut Random); 15] = [
    kind,
    tasks,
    modulus,
    parents_length,
    parent,
    starts_length,
    start,
    works_length,
    work,
    turn,
    |scene, random| scene.room.log = -random.pick(&[1, 2]),
    |scene, random| scene.room.list = -random.pick(&[1, 4, 6]),
    |scene, random| scene.room.pairs = -random.pick(&[1, 2]),
    |scene, random| {
        (scene.shape, scene.room.table) = random.pick(&[(4, 0), (u64::MAX, 0), (1, -1)])
    },
    |scene, random| scene.length = LENGTH - random.pick(&[1, 2, 500, LENGTH]),
];

fn kind(scene: &mut Scene, random: &mut Random) {
    scene.setup.kind = match random.below(3) {
        0 => scene.setup.kind + random.pick(&CUT),
        _ => random.pick(&[5, 6, 255, u64::MAX]),
    };
}

fn tasks(scene: &mut Scene, random: &mut Random) {
    scene.setup.n = match random.below(3) {
        0 => scene.setup.n + random.pick(&CUT),
        _ => random.pick(&[0, 65, u64::MAX]),
    };
}

fn modulus(scene: &mut Scene, random: &mut Random) {
    let wrong = match scene.setup.kind == u64::from(SYMMETRIC) {
        true => [0, 1, 2, 256],
        false => [1, 3, 255, u64::MAX],
    };
    scene.setup.modulus = match random.below(3) {
        0 => scene.setup.modulus + random.pick(&CUT),
        _ => random.pick(&wrong),
    };
}

/// A table of another length; an empty one becomes one of a single entry.
fn resize(table: &mut Vec<u8>, random: &mut Random, entry: u8) {
    match random.below(3) {
        0 if table.len() > 1 => table.truncate(table.len() - 1),
        1 => table.resize(table.len() + 256, entry),
        _ => table.push(entry),
    }
}

fn parents_length(scene: &mut Scene, random: &mut Random) {
    resize(&mut scene.setup.parents, random, 0);
}

/// A parent that isn't below its task. A kind without parents gets some.
fn parent(scene: &mut Scene, random: &mut Random) {
    if scene.setup.kind != u64::from(TREE) {
        scene.setup.parents = vec![0; scene.tasks()];
        return;
    }
    let task = random.length(0, scene.setup.parents.len() - 1);
    let own = (task as u8).max(1);
    scene.setup.parents[task] = random.pick(&[own, own + 1, 64, 255]);
}

/// A start table that is too short or too long, or that another kind has.
fn starts_length(scene: &mut Scene, random: &mut Random) {
    if scene.setup.starts.is_empty() {
        scene.setup.starts = vec![0; scene.tasks()];
    }
    if scene.setup.kind == u64::from(SYMMETRIC) || random.once_in(2) {
        resize(&mut scene.setup.starts, random, 0);
    }
}

/// A start that is no task.
fn start(scene: &mut Scene, random: &mut Random) {
    let n = scene.tasks();
    scene.setup.starts.resize(n, 0);
    scene.setup.starts[random.length(0, n - 1)] = random.pick(&[n as u8, n as u8 + 1, 255]);
}

fn works_length(scene: &mut Scene, random: &mut Random) {
    scene.setup.works.resize(scene.tasks(), 1);
    resize(&mut scene.setup.works, random, 1);
}

fn work(scene: &mut Scene, random: &mut Random) {
    let n = scene.tasks();
    scene.setup.works.resize(n, 1);
    scene.setup.works[random.length(0, n - 1)] = 0;
}

/// A turn of no task.
fn turn(scene: &mut Scene, random: &mut Random) {
    let n = scene.tasks() as u8;
    if scene.schedule.is_empty() {
        scene.schedule.push(0);
    }
    let place = random.length(0, scene.schedule.len() - 1);
    scene.schedule[place] = random.pick(&[n, n + 1, 255]);
}
