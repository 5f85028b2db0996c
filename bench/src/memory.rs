//! The peak memory of each side: the highest resident size of a process that does one side's work alone.

use crate::work::{self, Cut, Manner, Play, Run, Sheet, Work, KINDS, TURNS};
use std::process::Command;

/// The peak of a process of its own for the side, in KiB.
pub fn peak(side: &str) -> u64 {
    let program = std::env::current_exe().expect("this program has a path");
    let output = Command::new(program).args(["peak", side]).output().expect("this program runs");
    let text = String::from_utf8_lossy(&output.stdout);
    text.trim().parse().expect("the peak is a number")
}

/// Does one side's work for every kind, or none, and prints this process's peak.
pub fn print_own(side: &str) {
    let act: fn(&mut dyn Work) = match side {
        "library" => |work| work.library(),
        "baseline" => |work| work.baseline(),
        _ => |_| (),
    };
    for (kind, _) in KINDS {
        cleared(&mut Run::new(kind, 64, Manner::Random.schedule(64, TURNS)), act);
        cleared(&mut Sheet::new(work::text(kind, 64, "")), act);
        cleared(&mut Play::new(kind, 64, true), act);
    }
    cleared(&mut Cut::new(64, Manner::Random.schedule(64, TURNS)), act);
    println!("{}", own_peak());
}

/// Clears the buffers of both sides, so that they count for all alike, and then does the work.
fn cleared(work: &mut dyn Work, act: fn(&mut dyn Work)) {
    work.clear();
    act(work);
}

/// This process's highest resident size so far, in KiB, as Linux gives it.
fn own_peak() -> u64 {
    let status = std::fs::read_to_string("/proc/self/status").expect("Linux tells of a process");
    let line = status.lines().find(|line| line.starts_with("VmHWM:")).expect("its peak is told");
    let number = line.split_whitespace().nth(1).expect("the peak has a number");
    number.parse().expect("the peak is a number")
}
