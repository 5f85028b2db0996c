//! Traces that need a closer look: short ones, the longest, cut ones, and bytes that a reader of
//! texts would take for something else.

use super::list::{Plays, FIRST};
use crate::playback::MAX_TRACE;
use crate::schedules::repeat;
use crate::setup::Setup;

/// A ring of 64 tasks, so that 10 and 13 are tasks too.
const RING: &str = "2 64 0 0 0 0\n";

pub fn add(plays: &mut Plays) {
    short(plays);
    long(plays);
    too_long(plays);
    bytes_of_texts(plays);
    texts(plays);
    differences(plays);
    centralized(plays);
}

/// Traces of no byte to six.
fn short(plays: &mut Plays) {
    plays.add("agrees-empty", RING, []);
    plays.add("refused-14-bytes-1", RING, [0]);
    plays.add("refused-14-bytes-2", RING, [0, 11]);
    plays.add("agrees-bytes-3", RING, FIRST);
    plays.add("refused-14-bytes-4", RING, [0, 11, 1, 0]);
    plays.add("agrees-bytes-6", RING, [0, 11, 1, 0, 12, 1]);
    plays.add("refused-14-before-a-difference", RING, [9; 4]);
}

/// The trace of a ring of one task, which never waits.
fn of_one(turns: usize) -> Vec<u8> {
    Setup { kind: 2, n: 1, ..Setup::default() }.trace(&repeat(0, turns))
}

/// Traces up to 65,535 bytes, which agree or differ at one triple, and one of 65,536.
fn long(plays: &mut Plays) {
    let mut trace = of_one(MAX_TRACE / 3);
    plays.add("agrees-bytes-65532", "2 1 0 0 0 0", &trace[..MAX_TRACE - 4]);
    plays.add("refused-14-bytes-65534", "2 1 0 0 0 0", &trace[..MAX_TRACE - 2]);
    plays.add("agrees-bytes-65535", "2 1 0 0 0 0", &trace[..]);
    for index in [0, 10_000, 21_844] {
        trace[3 * index + 2] = 0;
        plays.add(format!("differs-{index}-bytes-65535"), "2 1 0 0 0 0", &trace[..]);
        trace[3 * index + 2] = 1;
    }
    trace.push(0);
    plays.add("refused-14-bytes-65536", "2 1 0 0 0 0", trace);
    plays.add("refused-14-bytes-65536-zeros", "2 1 0 0 0 0", repeat(0, MAX_TRACE));
}

/// Traces from 65,537 bytes on; three divides some of the lengths.
fn too_long(plays: &mut Plays) {
    let trace = of_one(50_000);
    for length in [65_537, 65_538, 65_539, 131_072] {
        plays.add(format!("refused-8-bytes-{length}"), "2 1 0 0 0 0", &trace[..length]);
    }
    plays.add("refused-8-bytes-1000000-zeros", "2 1 0 0 0 0", repeat(0, 1_000_000));
}

/// The bytes 10, 13, 26, 0 and 255 as tasks, lines and outcomes.
fn bytes_of_texts(plays: &mut Plays) {
    plays.add("agrees-tasks-0-10-13-26", RING, [10, 11, 1, 13, 11, 1, 26, 11, 1, 0, 11, 1]);
    plays.add("agrees-task-13-then-10", RING, [13, 11, 1, 10, 11, 1, 10, 12, 0, 13, 12, 0]);
    plays.add("agrees-line-13", RING, [0, 11, 1, 0, 12, 1, 0, 13, 1]);
    for byte in [0, 10, 13, 255] {
        plays.add(format!("differs-1-line-byte-{byte}"), RING, [0, 11, 1, 1, byte, 1]);
    }
    for byte in [0, 2, 10, 13, 255] {
        plays.add(format!("differs-1-outcome-byte-{byte}"), RING, [0, 11, 1, 1, 11, byte]);
    }
    for byte in [64, 128, 255] {
        plays.add(format!("differs-1-task-byte-{byte}"), RING, [0, 11, 1, byte, 11, 1]);
    }
}

/// Traces with a line feed too many, or in digits.
fn texts(plays: &mut Plays) {
    plays.add("refused-14-line-feed-last", RING, *b"\0\x0b\x01\n");
    plays.add("refused-14-lines-of-digits", RING, *b"0 11 1\n");
    plays.add("differs-0-digits", RING, *b"0 11 1");
    plays.add("differs-1-carriage-return-and-line-feed-last", RING, [0, 11, 1, 13, 10, 10]);
    plays.add("refused-14-carriage-return-and-line-feed-last", RING, [0, 11, 1, 13, 10]);
}

/// A round of two tasks of kind 4, by hand, whole and with a triple that differs: the last to
/// arrive goes to 14 and not to 16, and the other waits until 15 is done. Kind 1's trace is the
/// same.
fn centralized(plays: &mut Plays) {
    let round = [
        [0, 11, 1],
        [0, 12, 1],
        [0, 13, 1],
        [0, 16, 0],
        [1, 11, 1],
        [1, 12, 1],
        [1, 13, 1],
        [1, 14, 1],
        [0, 16, 0],
        [1, 15, 1],
        [0, 16, 1],
    ];
    for kind in [1, 4] {
        let setup = format!("{kind} 2 0 0 0 0");
        plays.add(format!("agrees-round-of-kind-{kind}"), &setup[..], round.concat());
        for (index, triple) in [
            (2, [0, 13, 0]),
            (3, [0, 14, 1]),
            (3, [0, 16, 1]),
            (7, [1, 16, 0]),
            (8, [0, 16, 1]),
            (10, [0, 16, 0]),
        ] {
            let mut other = round;
            other[index] = triple;
            let [_, line, outcome] = triple;
            let name =
                format!("differs-{index}-round-of-kind-{kind}-line-{line}-outcome-{outcome}");
            plays.add(name, &setup[..], other.concat());
        }
    }
}

/// Several triples that differ, and a line after the turn.
fn differences(plays: &mut Plays) {
    plays.add("differs-0-both", RING, [0, 12, 1, 0, 11, 0]);
    plays.add("differs-1-and-the-rest", RING, [0, 11, 1, 0, 11, 1, 255, 255, 255]);
    plays.add("differs-2-unknown-task-first", RING, [0, 11, 1, 0, 12, 1, 64, 13, 1, 0, 12, 1]);
    plays.add("differs-0-line-after-the-turn", RING, [0, 12, 1, 0, 12, 1]);
    plays.add("agrees-line-after-a-wait", RING, [1, 11, 1, 1, 12, 0, 1, 12, 0]);
    plays.add("differs-1-wait-for-a-move", RING, [0, 11, 1, 0, 12, 0]);
    plays.add("differs-1-move-for-a-wait", RING, [1, 11, 1, 1, 12, 1]);
}
