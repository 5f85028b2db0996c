//! The orders in which a schedule names its tasks.

use crate::arguments::{number, usage};
use crate::stop::{accepted, accepted_or, Stop};
use crate::tungwaff::{self, MAX_TURNS};
use crate::words;

#[derive(Clone, Copy, Debug, PartialEq, Eq)]
pub enum Order {
    /// 0, 1, .. N - 1, and again.
    RoundRobin,
    /// N - 1, .. 1, 0, and again.
    Backwards,
    /// Any task at each turn, by the numbers that a seed gives.
    Random(u64),
    /// A round robin that names the task only in every so-many-th circuit.
    Slow { task: usize, every: usize },
}

impl Order {
    /// TASK:EVERY
    pub fn slow(word: &str) -> Result<Order, Stop> {
        let wrong = || usage(format!("a slow task is given as TASK:EVERY, and '{word}' isn't"));
        let (task, every) = word.split_once(':').ok_or_else(wrong)?;
        let (task, every) = (number(task, "TASK")?, number(every, "EVERY")?);
        if every == 0 {
            return Err(usage("EVERY is 1 or more".to_string()));
        }
        Ok(Order::Slow { task, every })
    }

    /// So many turns of N tasks. The library says whether there can be so many tasks and turns, and whether a slow task is one of them.
    pub fn turns(&self, n: usize, turns: usize) -> Result<Vec<u8>, Stop> {
        accepted_or(passes(n, &[]).reason, || words::tasks(n))?;
        if let Order::Slow { task, .. } = *self {
            let refusal = passes(n, &[u8::try_from(task).unwrap_or(u8::MAX)]).reason;
            accepted_or(refusal, || words::must("the slow task", task, &words::below(n)))?;
        }
        let schedule = self.generated(n, turns.min(MAX_TURNS + 1));
        let refusal = passes(n, &schedule).reason;
        accepted_or(refusal, || format!("the turns are {turns}, and must be {MAX_TURNS} at most"))?;
        Ok(schedule)
    }

    fn generated(&self, n: usize, turns: usize) -> Vec<u8> {
        if let Order::Random(seed) = *self {
            return random(seed, n, turns);
        }
        (0..turns).map(|turn| self.task(n, turn) as u8).collect()
    }

    /// The task of a turn, of an order that isn't random.
    fn task(&self, n: usize, turn: usize) -> usize {
        match *self {
            Order::Backwards => n - 1 - turn % n,
            Order::Slow { task, every } => slow_task(n, task, every, turn),
            _ => turn % n,
        }
    }
}

/// The task is left out of all circuits but the last of every so many; where there is no other, the circuits without it are empty.
fn slow_task(n: usize, task: usize, every: usize, turn: usize) -> usize {
    let without = every.saturating_sub(1).saturating_mul(n - 1);
    let turn = turn % without.saturating_add(n);
    if turn >= without {
        return turn - without;
    }
    let place = turn % (n - 1);
    place + usize::from(place >= task)
}

/// Numbers by SplitMix64, each scaled to a task: the same seed gives the same turns.
fn random(seed: u64, n: usize, turns: usize) -> Vec<u8> {
    let mut state = seed;
    let mut next = || {
        state = state.wrapping_add(0x9e37_79b9_7f4a_7c15);
        let mut mixed = state;
        mixed = (mixed ^ (mixed >> 30)).wrapping_mul(0xbf58_476d_1ce4_e5b9);
        mixed = (mixed ^ (mixed >> 27)).wrapping_mul(0x94d0_49bb_1331_11eb);
        mixed ^ (mixed >> 31)
    };
    (0..turns).map(|_| ((u128::from(next()) * n as u128) >> 64) as u8).collect()
}

/// What the library says of a schedule: 3, 8 and 9, and its passes, whose places aren't kept.
fn passes(n: usize, schedule: &[u8]) -> tungwaff::Passes {
    let mut pairs = vec![0; 2 * schedule.len()];
    tungwaff::passes(n, schedule, &mut pairs)
}

/// How many passes a schedule has.
pub fn pass_count(n: usize, schedule: &[u8]) -> Result<usize, Stop> {
    let passes = passes(n, schedule);
    accepted(passes.reason)?;
    Ok(passes.count)
}

#[cfg(test)]
mod tests {
    use super::*;

    /// A slow order circuit by circuit, as its sentence says it.
    fn by_circuits(n: usize, task: usize, every: usize, turns: usize) -> Vec<usize> {
        let mut named = Vec::new();
        let mut circuit = 1;
        while named.len() < turns {
            named.extend((0..n).filter(|&other| other != task || circuit % every == 0));
            circuit += 1;
        }
        named.truncate(turns);
        named
    }

    #[test]
    fn a_slow_order_is_that_of_its_circuits() {
        let tasks = (1..=5).flat_map(|n| (0..n).map(move |task| (n, task)));
        for (n, task, every) in
            tasks.flat_map(|(n, task)| (1..=4).map(move |every| (n, task, every)))
        {
            let order = Order::Slow { task, every };
            let turns: Vec<usize> = (0..60).map(|turn| order.task(n, turn)).collect();
            assert_eq!(turns, by_circuits(n, task, every, 60), "{n} {task}:{every}");
        }
    }

    #[test]
    fn the_greatest_every_never_names_the_task() {
        let order = Order::Slow { task: 1, every: usize::MAX };
        let turns: Vec<usize> = (0..6).map(|turn| order.task(3, turn)).collect();
        assert_eq!(turns, [0, 2, 0, 2, 0, 2]);
        assert_eq!(Order::Slow { task: 0, every: usize::MAX }.task(1, 5), 0);
    }

    #[test]
    fn a_seed_gives_tasks_of_the_barrier_and_all_of_them() {
        for n in [1, 2, 12, 64] {
            let turns = random(7, n, 2000);
            assert!(turns.iter().all(|&task| usize::from(task) < n));
            assert!((0..n as u8).all(|task| turns.contains(&task)));
            assert_eq!(turns, random(7, n, 2000));
        }
        assert_ne!(random(7, 12, 50), random(8, 12, 50));
    }

    #[test]
    fn backwards_is_the_round_robin_from_the_last_task_down() {
        assert_eq!(Order::Backwards.generated(3, 7), [2, 1, 0, 2, 1, 0, 2]);
        assert_eq!(Order::RoundRobin.generated(3, 7), [0, 1, 2, 0, 1, 2, 0]);
    }
}
