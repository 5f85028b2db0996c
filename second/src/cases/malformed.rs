//! Lines that are no requests, of every sort, and the requests that just still are.

use crate::lines::MAX_LINE;
use crate::machine::{Tables, RING, TREE};
use crate::playback::MAX_TRACE;
use crate::recorder::{line, Recorder};
use crate::schedules::{cycle, repeat};
use crate::setup::Setup;

pub fn cases(recorder: &mut Recorder) {
    recorder.fresh(RING.into(), 3, 0, &[]);
    recorder.run_all(&cycle(3, 8));
    spaces(recorder);
    other_bytes(recorder);
    digits(recorder);
    largest_numbers(recorder);
    unknown_requests(recorder);
    lengths(recorder);
    entries(recorder);
    buffers(recorder);
    long_schedules(recorder);
    long_traces(recorder);
    long_tables(recorder);
    tables_and_lengths(recorder);
    huge_lengths(recorder);
    huge_sums(recorder);
    work_tables(recorder);
    missing_fields(recorder);
    field_types(recorder);
    long_lines(recorder);
}

/// An empty line, and spaces where none stand.
fn spaces(recorder: &mut Recorder) {
    for text in ["", " ", "  ", " 3", "3 ", " 2 0", "2 0 ", "2  0", "2   0", " 5 "] {
        recorder.ask(text);
    }
    for text in ["4 1 2  0", "4 1 2 0 ", "4 1 2 ", " 4 1 2", "7 1  0", "8 1 0  0", "9 0 1 1 "] {
        recorder.ask(text);
    }
    recorder.show();
}

/// Bytes other than digits and spaces.
fn other_bytes(recorder: &mut Recorder) {
    for byte in (0..=255_u8).filter(|byte| *byte != b'\n') {
        recorder.ask([b'3', byte]);
        recorder.ask([b'2', byte, b'1']);
    }
    for text in ["three", "-1", "+3", "3.0", "0x3", "2 -1", "2 +1", "2,1", "2 1;", "\t3", "3\r"] {
        recorder.ask(text);
    }
    recorder.ask("2 \u{661}");
    recorder.ask("\u{ff13}");
    recorder.ask([0xef, 0xbb, 0xbf, b'3']);
    recorder.show();
}

/// 20 digits and 21.
fn digits(recorder: &mut Recorder) {
    for request in [2, 3, 5] {
        for width in [1, 2, 19, 20, 21, 22, 40] {
            recorder.ask(format!("{request:0width$}"));
            recorder.ask(format!("2 {request:0width$}"));
            recorder.ask(format!("8 3 0 0 1 {request:0width$}"));
        }
    }
    recorder.show();
}

/// 2^64 - 1 and 2^64 at every place that takes any number.
fn largest_numbers(recorder: &mut Recorder) {
    for number in [
        "18446744073709551615",
        "18446744073709551616",
        "18446744073709551617",
        "18446744073709551625",
        "99999999999999999999",
        "36893488147419103232",
        "100000000000000000000",
        "018446744073709551615",
    ] {
        for before in ["", "1 ", "1 2 ", "1 2 1 ", "2 ", "3 ", "6 ", "6 0 ", "6 4 0 ", "9 ", "9 0 "]
        {
            recorder.ask(format!("{before}{number}"));
            recorder.ask(format!("{before}{number} 1"));
            recorder.ask(format!("{before}{number} 1 1"));
        }
        recorder.fresh(RING.into(), 3, 0, &[]);
        recorder.ask(format!("4 {number} 2 0"));
        recorder.ask(format!("4 1 {number} 0"));
        recorder.ask(format!("4 1 2 {number}"));
        recorder.ask(format!("7 {number} 2 0"));
        recorder.ask(format!("7 1 {number} 0"));
        recorder.ask(format!("8 {number} 0 0"));
        recorder.ask(format!("8 1 {number} 0"));
        for before in ["0", "0 2", "0 2 3", "0 2 3 0", "0 2 3 0 0", "0 2 3 0 1 0", "0 1 3 0 1 0"] {
            recorder.ask(format!("10 {before} {number}"));
        }
        recorder.ask(format!("10 2 1 0 0 0 1 {number}"));
        recorder.ask(format!("10 {number} 2 3 0 0 0"));
        recorder.ask(format!("10 0 {number} 3 0 0 0"));
        recorder.ask(format!("10 0 2 {number} 0 0 0"));
        largest_number_of_a_play(recorder, number);
    }
    recorder.show();
}

/// The number at every place of request 11.
fn largest_number_of_a_play(recorder: &mut Recorder, number: &str) {
    for before in ["", "2 ", "2 2 ", "2 2 0 ", "2 2 0 0 ", "2 2 0 0 0 ", "2 2 0 0 0 0 "] {
        recorder.ask(format!("11 {before}{number}"));
        recorder.ask(format!("11 {before}{number} 0 0"));
    }
    recorder.ask(format!("11 2 1 0 0 0 1 {number} 0 11 1"));
    recorder.ask(format!("11 {number} 2 0 0 0 0"));
    recorder.ask(format!("11 2 {number} 0 0 0 0"));
    recorder.ask(format!("11 2 2 {number} 0 0 0"));
}

/// Requests that there aren't.
fn unknown_requests(recorder: &mut Recorder) {
    for request in [0, 12, 13, 15, 255, 256, 257, 259, 266, 267, 1 << 32, u64::MAX] {
        for numbers in [&[][..], &[0], &[0, 0], &[1, 2, 0], &[2, 2, 0, 0], &[2, 2, 0, 0, 0, 0]] {
            recorder.ask(line(&[&[request], numbers].concat(), &[]));
        }
    }
    recorder.show();
}

/// Each request with too few numbers, enough and too many.
fn lengths(recorder: &mut Recorder) {
    for request in 1..=11 {
        for length in 0..=7 {
            let numbers = [request, 0, 0, 0, 0, 0, 0, 0];
            recorder.ask(line(&numbers[..=length], &[]));
        }
        recorder.fresh(RING.into(), 3, 0, &[]);
        recorder.run_all(&cycle(3, 7));
    }
    for length in 1..=4 {
        recorder.ask(line(&[1, 2, 3, 0][..length], &[]));
        recorder.ask(line(&[6, 0, 0, 11][..length], &[]));
        recorder.ask(line(&[9, 1, 2, 3][..length], &[]));
    }
    recorder.ask("6 0 0 11 0");
    recorder.ask("9 1 2 3 0");
    recorder.ask("2 0 0");
    recorder.ask("3 3");
    recorder.ask("5 5");
    recorder.show();
}

/// Turns, parents, starts, work lengths and trace bytes of 255 and 256.
fn entries(recorder: &mut Recorder) {
    for entry in [254, 255, 256, 257, 1 << 32, u64::MAX] {
        recorder.ask(line(&[1, 3, 2, 0, 0, entry], &[]));
        recorder.ask(line(&[1, 3, 2, 0, entry, 0], &[]));
        recorder.fresh(RING.into(), 3, 0, &[]);
        recorder.ask(line(&[4, 2, 4, 0, entry], &[]));
        recorder.ask(line(&[4, 0, 0, entry, 0], &[]));
        recorder.ask(line(&[7, 1, 2, 0, entry], &[]));
        recorder.ask(line(&[7, 1, 2, entry, 0], &[]));
        recorder.ask(line(&[8, 1, 0, 0, entry], &[]));
        recorder.ask(line(&[8, 1, 1, entry, 0], &[]));
        recorder.ask(line(&[8, 0, 9, entry, 0], &[]));
        recorder.ask(line(&[10, 3, 2, 0, 2, 0, 0, 0, entry], &[]));
        recorder.ask(line(&[10, 3, 2, 0, 2, 0, 0, entry, 0], &[]));
        recorder.ask(line(&[10, 0, 2, 3, 0, 2, 0, 1, entry], &[]));
        recorder.ask(line(&[10, 0, 2, 3, 0, 2, 0, entry, 1], &[]));
        recorder.ask(line(&[10, 2, 2, 0, 0, 0, 2, 1, entry], &[]));
        recorder.ask(line(&[10, 2, 2, 0, 0, 0, 2, entry, 1], &[]));
        recorder.ask(line(&[10, 5, 0, 0, 1, 1, 0, 0, entry], &[]));
        recorder.ask(line(&[10, 5, 0, 0, 1, 1, 1, 0, 0, entry], &[]));
        recorder.ask(line(&[11, 3, 2, 0, 2, 0, 0, 0, entry, 0, 11, 1], &[]));
        recorder.ask(line(&[11, 0, 2, 3, 0, 2, 0, entry, 1, 0, 11, 1], &[]));
        recorder.ask(line(&[11, 2, 2, 0, 0, 0, 2, entry, 1, 0, 11, 1], &[]));
        recorder.ask(line(&[11, 2, 2, 0, 0, 0, 2, 1, entry, 1, 11, 1], &[]));
        for place in 7..10 {
            let mut numbers = [11, 2, 2, 0, 0, 0, 0, 0, 11, 1];
            numbers[place] = entry;
            recorder.ask(line(&numbers, &[]));
        }
        recorder.ask(line(&[11, 5, 0, 0, 0, 0, 0, entry], &[]));
        recorder.ready();
    }
    recorder.show();
}

/// Lent buffers that are too long; a log and a list of 131,072 stand with the long cases.
fn buffers(recorder: &mut Recorder) {
    recorder.run(1, 131_073, &[0]);
    recorder.run(1, 1 << 32, &[0]);
    recorder.passes(1, 131_073, &[0]);
    recorder.passes(1, 1 << 32, &[0]);
    for table in [4_096, 4_097, 1 << 32] {
        recorder.shape(0, 1, table);
        recorder.shape(4, 65, table);
    }
    recorder.show();
}

/// Schedules of 70,000 turns and 70,001.
fn long_schedules(recorder: &mut Recorder) {
    recorder.fresh(RING.into(), 1, 0, &[]);
    for length in [70_000, 70_001] {
        let schedule = repeat(0, length);
        recorder.run(1, 2, &schedule);
        recorder.passes(1, 2, &schedule);
        recorder.first_pass(1, 69_999, &schedule);
    }
    recorder.show();
}

/// Traces of 70,000 bytes and 70,001; the start table is wrong too, and 12 comes before 8. So does
/// 15, with the shortest trace that is too long.
fn long_traces(recorder: &mut Recorder) {
    recorder.fresh(RING.into(), 2, 0, &[]);
    let setup = Setup { kind: 2, n: 2, works: vec![1, 0], ..Setup::default() };
    recorder.play(&setup, &repeat(0, MAX_TRACE + 1));
    recorder.ready();
    let setup = Setup { n: 2, modulus: 3, starts: vec![0, 2], ..Setup::default() };
    for length in [70_000, 70_001] {
        recorder.fresh(RING.into(), 2, 0, &[]);
        recorder.play(&setup, &repeat(0, length));
        recorder.ready();
    }
}

/// Parent, start and work tables of 4,096 entries and 4,097.
fn long_tables(recorder: &mut Recorder) {
    for length in [4_095, 4_096, 4_097, 4_098] {
        let table = repeat(0, length);
        recorder.fresh(RING.into(), 2, 0, &[]);
        recorder.turn(0);
        recorder.fresh(TREE.into(), 64, 0, &table);
        recorder.turn(0);
        recorder.fresh(RING.into(), 2, 0, &[]);
        recorder.fresh_with(TREE.into(), 64, 0, Tables::of_parents(&table));
        recorder.turn(0);
        recorder.fresh(RING.into(), 2, 0, &[]);
        recorder.fresh_starts(64, &table);
        recorder.turn(0);
        recorder.fresh(RING.into(), 2, 0, &[]);
        recorder.fresh_works(RING, 64, &table);
        recorder.turn(0);
    }
    let table = &repeat(0, 4_096)[..];
    for works in [&[], table] {
        recorder.fresh_with(TREE.into(), 64, 0, Tables { parents: table, starts: table, works });
    }
    recorder.show();
    for length in [4_096, 4_097] {
        long_tables_of_a_play(recorder, repeat(0, length));
    }
}

/// The table as the parents of a tree, as the starts of a symmetric barrier and as the work lengths
/// of a ring.
fn long_tables_of_a_play(recorder: &mut Recorder, table: Vec<u8>) {
    let tree = Setup { kind: 3, n: 64, parents: table.clone(), ..Setup::default() };
    let symmetric = Setup { n: 64, modulus: 3, starts: table.clone(), ..Setup::default() };
    let ring = Setup { kind: 2, n: 64, works: table, ..Setup::default() };
    for setup in [tree, symmetric, ring] {
        recorder.fresh(RING.into(), 2, 0, &[]);
        recorder.play(&setup, &[0, 11, 1]);
        recorder.ready();
    }
}

/// Request 10 with more and fewer numbers than its lengths say, and just as many; the numbers that
/// are more are the trace of request 11.
fn tables_and_lengths(recorder: &mut Recorder) {
    for [parents, starts] in [[0, 0], [0, 1], [0, 2], [0, 3], [1, 0], [2, 0], [2, 2], [3, 1]] {
        for entries in 0..=6 {
            let numbers = [10, 0, 2, 3, parents, starts, 0];
            recorder.fresh(RING.into(), 2, 0, &[]);
            recorder.ask(line(&numbers, &repeat(1, entries)));
            recorder.ready();
            let numbers = [11, 2, 2, 0, parents, starts, 0];
            recorder.fresh(RING.into(), 2, 0, &[]);
            recorder.ask(line(&numbers, &repeat(1, entries)));
            recorder.ready();
        }
    }
    works_and_lengths(recorder);
    recorder.fresh(RING.into(), 2, 0, &[]);
    recorder.ask("10 3 2 0 2 0 0");
    recorder.ask("10 3 2 0 2 0 0 0");
    recorder.ask("10 3 2 0 2 0 0 0 0 0");
    recorder.show();
    recorder.ask("10 3 2 0 2 0 0 0 0");
    recorder.show();
    for text in ["11 3 2 0 2 0 0", "11 3 2 0 2 0 0 0", "11 3 2 0 2 0 0 0 0 1", "11 2 2 0 0 0"] {
        recorder.ask(text);
        recorder.ready();
    }
}

/// The same with work tables, alone and after the others.
fn works_and_lengths(recorder: &mut Recorder) {
    for lengths in [[0, 0, 1], [0, 0, 2], [0, 0, 3], [0, 2, 2], [2, 0, 2], [2, 2, 2], [1, 1, 1]] {
        for entries in 0..=8 {
            for request in [[10, 2, 2, 0], [10, 0, 2, 3], [11, 2, 2, 0]] {
                recorder.fresh(RING.into(), 2, 0, &[]);
                recorder.ask(line(&[&request[..], &lengths].concat(), &repeat(1, entries)));
                recorder.ready();
            }
        }
    }
}

/// Requests 10 and 11 with lengths that their numbers can't have; some are small once they are cut
/// to 32 or 8 bits.
fn huge_lengths(recorder: &mut Recorder) {
    let (half, most) = (1 << 63, u64::MAX);
    recorder.fresh(RING.into(), 3, 0, &[]);
    for length in [256, 257, 4_096, 4_097, 65_536, 1 << 32, (1 << 32) + 2, half, most - 1, most] {
        for entries in 0..=3 {
            recorder.ask(line(&[10, 0, 2, 3, length, 0, 0], &repeat(0, entries)));
            recorder.ask(line(&[10, 0, 2, 3, 0, length, 0], &repeat(0, entries)));
            recorder.ask(line(&[10, 0, 2, 3, 0, 0, length], &repeat(0, entries)));
            recorder.ask(line(&[10, 0, 2, 3, length, length, length], &repeat(0, entries)));
            recorder.ask(line(&[11, 0, 2, 3, length, 0, 0], &repeat(0, entries)));
            recorder.ask(line(&[11, 0, 2, 3, 0, length, 0], &repeat(0, entries)));
            recorder.ask(line(&[11, 2, 2, 0, 0, 0, length], &repeat(0, entries)));
        }
    }
    recorder.show();
}

/// Requests 10 and 11 with lengths whose sum is small once it is cut to 64 bits.
fn huge_sums(recorder: &mut Recorder) {
    let (half, most) = (1 << 63, u64::MAX);
    for lengths in [
        [half, half, 0],
        [most, 3, 0],
        [3, most, 0],
        [most, 1, 0],
        [1, most, 0],
        [half, 0, half],
        [0, half, half],
        [0, 3, most],
        [0, most, 3],
        [1, 0, most],
        [most, 1, 2],
        [half, half, 2],
    ] {
        for entries in 0..=3 {
            for request in [10, 11] {
                let numbers = [&[request, 0, 2, 3][..], &lengths].concat();
                recorder.ask(line(&numbers, &repeat(0, entries)));
            }
        }
    }
    recorder.show();
}

/// Requests 10 and 11 with work tables of other lengths than N, and entries for them or none.
fn work_tables(recorder: &mut Recorder) {
    recorder.fresh(RING.into(), 3, 0, &[]);
    for works in [1, 2, 3, 4, 64] {
        recorder.ask(line(&[10, 0, 2, 3, 0, 0, works], &repeat(1, works as usize)));
        recorder.ask(line(&[10, 0, 2, 3, 0, 2, works], &repeat(1, works as usize + 2)));
        recorder.ask(line(&[10, 3, 2, 0, 2, 0, works], &repeat(0, works as usize + 2)));
        recorder.ask(line(&[10, 0, 2, 3, 0, 2, works, 0, 0], &[]));
        recorder.ask(line(&[11, 2, 2, 0, 0, 0, works], &repeat(1, works as usize)));
        recorder.ask(line(&[11, 2, 2, 0, 0, 0, works], &repeat(1, works as usize + 3)));
        recorder.ask(line(&[11, 0, 2, 3, 0, 2, works], &repeat(1, works as usize + 2)));
        recorder.ask(line(&[11, 2, 2, 0, 0, 0, works, 0, 11, 1], &[]));
    }
    recorder.show();
}

/// Fields and tasks of request 6 that aren't there.
fn missing_fields(recorder: &mut Recorder) {
    recorder.fresh(RING.into(), 3, 0, &[]);
    for field in (0..=21).chain([255, 256, 1 << 32, u64::MAX]) {
        for task in [0, 1, 63, 64, 255, 256, 1 << 32, u64::MAX] {
            recorder.change(field, task, 1);
        }
        recorder.show();
        recorder.fresh(RING.into(), 3, 0, &[]);
    }
}

/// Values that a field's type just holds, and one more.
fn field_types(recorder: &mut Recorder) {
    for field in 0..=20 {
        for value in [255, 256, 511, (1 << 32) - 1, 1 << 32, (1 << 32) + 1, u64::MAX] {
            recorder.change(field, 0, value);
        }
        recorder.show();
    }
    recorder.fresh(RING.into(), 3, 0, &[]);
}

/// Lines of 1,048,576 bytes and one more.
fn long_lines(recorder: &mut Recorder) {
    for length in [MAX_LINE, MAX_LINE + 1] {
        recorder.ask(first_pass_line(length));
    }
    recorder.show();
}

/// Request 8 in so many bytes: its turns are zeros of 14 digits, and of 15 as far as needed.
pub fn first_pass_line(length: usize) -> String {
    let mut text = String::from("8 1 69000");
    let rest = length - text.len();
    for place in 0..rest / 15 {
        let width = 14 + usize::from(place < rest % 15);
        text.push_str(&format!(" {:0width$}", 0));
    }
    text
}
