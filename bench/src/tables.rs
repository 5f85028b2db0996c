//! The printed tables.

use crate::measure::{measure, median, Times};
use crate::memory::peak;
use crate::stack;
use crate::targets::{self, verdict};
use crate::work::{text, Cut, Manner, Play, Reading, Rows, Run, Sheet, KINDS, TRIPLES, TURNS};

const SIZES: [usize; 2] = [12, 64];

pub fn print(rounds: usize) {
    println!("Medians of {rounds} interleaved rounds.\n");
    print_runs(rounds);
    print_growth(rounds);
    print_rows(rounds);
    print_passes(rounds);
    print_plays(rounds);
    print_readings(rounds);
    print_sheets(rounds);
    print_memory();
}

fn row(cells: &[String]) {
    println!("| {} |", cells.join(" | "));
}

fn head(cells: &[&str]) {
    println!("| {} |\n|{}", cells.join(" | "), "---|".repeat(cells.len()));
}

/// A number with one digit after its point.
fn tenths(value: f64) -> String {
    format!("{value:.1}")
}

/// Megabytes a second of so many bytes, from the nanoseconds they took.
fn rate(bytes: usize, nanoseconds: f64) -> String {
    format!("{:.0}", bytes as f64 * 1e3 / nanoseconds)
}

/// The two rates and the ratio of the times.
fn rates(bytes: usize, times: Times) -> [String; 3] {
    [rate(bytes, times.library), rate(bytes, times.baseline), tenths(times.ratio())]
}

fn highest(values: impl IntoIterator<Item = f64>) -> f64 {
    values.into_iter().fold(f64::MIN, f64::max)
}

fn lowest(values: impl IntoIterator<Item = f64>) -> f64 {
    values.into_iter().fold(f64::MAX, f64::min)
}

/// Runs of 65,536 turns: nanoseconds a turn.
fn print_runs(rounds: usize) {
    println!("A run of {TURNS} turns, nanoseconds a turn:\n");
    head(&["kind", "N", "schedule", "library", "baseline", "ratio"]);
    let mut ratios = Manner::ALL.map(|_| Vec::new());
    for (kind, name) in KINDS {
        for n in SIZES {
            let mut runs = Manner::ALL.map(|manner| Run::new(kind, n, manner.schedule(n, TURNS)));
            let times = measure(&mut runs, rounds);
            for (place, (manner, times)) in Manner::ALL.into_iter().zip(times).enumerate() {
                ratios[place].push(times.ratio());
                let cells = each(TURNS, times);
                row(&[&[name.into(), n.to_string(), manner.name().into()], &cells[..]].concat());
            }
        }
    }
    for (manner, ratios) in Manner::ALL.into_iter().zip(ratios) {
        let verdict = verdict(median(ratios), targets::run(manner));
        row(&["median over kinds", "", manner.name(), "", "", &verdict].map(String::from));
    }
    println!();
}

/// Nanoseconds of both sides for each of so many turns or triples, and their ratio.
fn each(count: usize, times: Times) -> [String; 3] {
    let count = count as f64;
    [times.library / count, times.baseline / count, times.ratio()].map(tenths)
}

/// The numbers of turns with N 12, and the numbers of tasks with the most turns.
const BY_TURNS: [(usize, usize); 3] = [(12, 1_024), (12, 8_192), (12, TURNS)];
const BY_N: [(usize, usize); 4] = [(1, TURNS), (4, TURNS), (16, TURNS), (64, TURNS)];

/// How the library's time a turn goes with the number of turns, and with N.
fn print_growth(rounds: usize) {
    println!("The library's nanoseconds a turn: by turns with N 12, and by N with {TURNS} turns; then the longest time by N over the shortest, of random schedules from N 4 on:\n");
    head(&[
        "kind",
        "schedule",
        "1,024 turns",
        "8,192",
        "65,536",
        "N 1",
        "N 4",
        "N 16",
        "N 64",
        "over N",
    ]);
    for (kind, name) in KINDS {
        for manner in Manner::ALL {
            let times = growth(kind, manner, rounds);
            let mut cells = vec![name.to_string(), manner.name().to_string()];
            cells.extend(times.iter().copied().map(tenths));
            cells.push(verdict(spread(manner, &times[BY_TURNS.len()..]), targets::flat(kind)));
            row(&cells);
        }
    }
    println!();
}

/// The library's nanoseconds a turn, for each number of turns and each N.
fn growth(kind: u8, manner: Manner, rounds: usize) -> Vec<f64> {
    let sizes = [&BY_TURNS[..], &BY_N[..]].concat();
    let run = |&(n, turns)| Run::new(kind, n, manner.schedule(n, turns));
    let mut runs: Vec<Run> = sizes.iter().map(run).collect();
    let a_turn = |(times, (_, turns)): (Times, &(usize, usize))| times.library / *turns as f64;
    measure(&mut runs, rounds).into_iter().zip(&sizes).map(a_turn).collect()
}

/// The longest time by N over the shortest. A schedule of one task is not random: the processor foresees all of it.
fn spread(manner: Manner, by_n: &[f64]) -> f64 {
    let counted = match manner {
        Manner::Random => &by_n[1..],
        Manner::RoundRobin => by_n,
    };
    highest(counted.iter().copied()) / lowest(counted.iter().copied())
}

/// Runs with a row for each turn, from a state list: nanoseconds a turn. No target is set.
fn print_rows(rounds: usize) {
    println!("A run of {TURNS} turns of a random schedule with its rows, nanoseconds a turn:\n");
    head(&["kind", "N", "library", "baseline", "ratio"]);
    let mut ratios = Vec::new();
    for (kind, name) in KINDS {
        let schedule = |n| Manner::Random.schedule(n, TURNS);
        let mut runs = SIZES.map(|n| Rows::new(kind, n, schedule(n)));
        for (n, times) in SIZES.into_iter().zip(measure(&mut runs, rounds)) {
            ratios.push(times.ratio());
            row(&[&[name.into(), n.to_string()], &each(TURNS, times)[..]].concat());
        }
    }
    row(&["median over kinds", "", "", "", &tenths(median(ratios))].map(String::from));
    println!();
}

/// The passes of 65,536 turns.
fn print_passes(rounds: usize) {
    println!("Passes of {TURNS} turns, MB a second:\n");
    head(&["N", "schedule", "library", "baseline", "ratio of the times"]);
    let mut ratios = Vec::new();
    for n in SIZES {
        let mut cuts = Manner::ALL.map(|manner| Cut::new(n, manner.schedule(n, TURNS)));
        let times = measure(&mut cuts, rounds);
        for (manner, times) in Manner::ALL.into_iter().zip(times) {
            ratios.push(times.ratio());
            row(&[&[n.to_string(), manner.name().into()], &rates(TURNS, times)[..]].concat());
        }
    }
    row(&["highest", "", "", "", &verdict(highest(ratios), targets::PASSES)].map(String::from));
    println!();
}

/// Play-backs of the longest traces: nanoseconds a triple.
fn print_plays(rounds: usize) {
    println!("The play-back of {TRIPLES} triples of a random schedule, nanoseconds a triple:\n");
    head(&["kind", "N", "trace", "library", "baseline", "ratio"]);
    let traces = [(false, "agrees"), (true, "differs at the last")];
    let mut ratios = traces.map(|_| Vec::new());
    for (kind, name) in KINDS {
        for n in SIZES {
            let mut plays = traces.map(|(differs, _)| Play::new(kind, n, differs));
            let times = measure(&mut plays, rounds);
            for (place, ((_, trace), times)) in traces.into_iter().zip(times).enumerate() {
                ratios[place].push(times.ratio());
                let cells = each(TRIPLES, times);
                row(&[&[name.into(), n.to_string(), trace.into()], &cells[..]].concat());
            }
        }
    }
    for ((differs, trace), ratios) in traces.into_iter().zip(ratios) {
        let verdict = verdict(median(ratios), targets::play(differs));
        row(&["median over kinds", "", trace, "", "", &verdict].map(String::from));
    }
    println!();
}

/// The longest texts, read and not run. No target is set.
fn print_readings(rounds: usize) {
    println!("The reading of a text of 65,536 bytes with a random schedule, MB a second:\n");
    head(&["kind", "N", "library", "baseline", "ratio of the times"]);
    for (kind, name) in KINDS {
        let mut readings = SIZES.map(|n| Reading::new(text(kind, n, "")));
        let times = measure(&mut readings, rounds);
        for ((n, reading), times) in SIZES.into_iter().zip(&readings).zip(times) {
            row(&[&[name.into(), n.to_string()], &rates(reading.text.len(), times)[..]].concat());
        }
    }
    println!();
}

/// Sheets of the longest texts, and of one whose last turn is no task: it is read and looked at to its end, and not run.
fn print_sheets(rounds: usize) {
    println!("The sheet of a text of 65,536 bytes with a random schedule, MB a second:\n");
    head(&["text", "N", "library", "baseline", "ratio of the times"]);
    let refused = (1, "last turn refused: no run", "255");
    let whole = KINDS.map(|(kind, name)| (kind, name, ""));
    let mut ratios = Vec::new();
    for (kind, name, last) in whole.into_iter().chain([refused]) {
        let mut sheets = SIZES.map(|n| Sheet::new(text(kind, n, last)));
        let times = measure(&mut sheets, rounds);
        for ((n, sheet), times) in SIZES.into_iter().zip(&sheets).zip(times) {
            ratios.push(times.ratio());
            row(&[&[name.into(), n.to_string()], &rates(sheet.text.len(), times)[..]].concat());
        }
    }
    row(&["highest", "", "", "", &verdict(highest(ratios), targets::SHEET)].map(String::from));
    println!();
}

pub fn print_memory() {
    let [library, baseline, neither] = ["library", "baseline", "neither"].map(peak);
    println!("Peak memory of a process that does one side's work with N 64: library {library} KiB, baseline {baseline} KiB; without work {neither} KiB.");
    let stacks = stack::CALLS.map(|call| format!("{call} {}", stack::least(call)));
    println!("Stack that a call of the library needs with N 64, in KiB: {}.", stacks.join(", "));
}
