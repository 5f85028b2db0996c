//! Texts that are read and printed as sheets: each cause of a refusal, needless zeros, the longest,
//! and buffers around what is needed. Some of the sheet texts go through both calls too.

use crate::calls::recorder::Recorder;
use crate::schedules::cycle;
use crate::sheet::{read, MAX_TEXT};
use crate::sheets;
use crate::sheets::texts::{apart, spaced, wide};

/// Of the sheet texts that aren't long, one in so many is read, and one printed.
const READ: usize = 4;
const PRINTED: usize = 17;

/// Texts that are taken, and each cause of 1 to 6 and 9.
const CAUSES: [&str; 37] = [
    "0 2 3 0 1 0 1",
    "1 2 0",
    "2 3 0 2 1 0\n",
    "3 3 0 0 0 1 2 2 2",
    "4 64 0 63",
    "00003 00002 00000 00000 00000 00001",
    "\n 2\n\n1  0 0\n",
    "",
    " \n",
    "2",
    "2 1",
    "2 1 0 x",
    "2 1 0\t0",
    "2 1 0\r\n",
    "-2 1 0",
    "2 1 000000",
    "2 1 0 100000",
    "5 2 0",
    "99999 2 0",
    "2 0 0",
    "2 65 0",
    "2 320 0",
    "0 2 2",
    "0 2 256",
    "4 2 3",
    "3 3 0",
    "3 3 0 0 0",
    "3 2 0 1 0",
    "3 2 0 0 1",
    "3 2 0 256 0",
    "3 2 0 0 256",
    "3 2 0 0 65536",
    "2 2 0 2",
    "2 2 0 0 1 256",
    "2 2 0 0 1 0 99999 2",
    "2 64 0 63 64",
    "3 2 0 0 0 255",
];

pub fn add(recorder: &mut Recorder) {
    for text in CAUSES {
        both(recorder, text.as_bytes());
    }
    cut(recorder);
    around_what_is_needed(recorder);
    order(recorder);
    longest(recorder);
    sheet_texts(recorder);
    all_tasks(recorder);
}

/// Reads a text, lent just enough if it is taken, and prints its sheet.
fn both(recorder: &mut Recorder, text: &[u8]) {
    exact(recorder, text);
    recorder.sheet(text);
}

/// Reads a text, lent just enough if it is taken and a little if it isn't.
fn exact(recorder: &mut Recorder, text: &[u8]) {
    let (parents, turns) =
        read(text).map_or((3, 4), |(setup, schedule)| (setup.parents.len(), schedule.len()));
    recorder.read(parents as u64, turns as u64, text);
}

/// Numbers that would fit if they were cut to a byte or to 16 bits, and a place beyond a byte.
fn cut(recorder: &mut Recorder) {
    for text in [
        "258 2 0",
        "65538 2 0",
        "2 257 0",
        "2 65537 0",
        "0 2 259",
        "0 2 65539",
        "2 2 256",
        "2 2 65536",
        "3 2 0 0 257",
        "2 2 0 257",
        "2 2 0 0 65537",
        &format!("2 2 0{} 2", " 1".repeat(300)),
    ] {
        exact(recorder, text.as_bytes());
    }
}

/// Buffers too short by one, and longer; 10 alone where both are too short.
fn around_what_is_needed(recorder: &mut Recorder) {
    for text in ["3 3 0 0 0 1 2 1 0 2", "3 64 0", "2 3 0 2 1 0", "1 1 0", "3 1 0 0"] {
        let mut text = text.to_string();
        if text == "3 64 0" {
            text += &" 0".repeat(64 + 9);
        }
        let Ok((setup, schedule)) = read(text.as_bytes()) else {
            continue;
        };
        let (parents, turns) = (setup.parents.len() as u64, schedule.len() as u64);
        for (parents, turns) in [
            (parents, turns),
            (parents + 2, turns + 3),
            (parents.saturating_sub(1), turns),
            (parents, turns.saturating_sub(1)),
            (parents.saturating_sub(1), turns.saturating_sub(1)),
            (0, turns),
            (parents, 0),
            (64, 70),
        ] {
            recorder.read(parents, turns, text.as_bytes());
        }
    }
}

/// Every reason before 10, and each before those after it.
fn order(recorder: &mut Recorder) {
    for text in [
        "5 0 1 x",
        "5 0 1 999999",
        "5 0 1 9",
        "3 0 1 9",
        "3 2 1 9",
        "3 2 0 9",
        "3 2 0 9 9 9",
        "3 2 0 0 0 9",
        "3 2 0 0 0 1",
        "3 2 0 0 0 0 2",
    ] {
        recorder.read(0, 0, text.as_bytes());
    }
}

/// 65,536 bytes are taken and 65,537 refused.
fn longest(recorder: &mut Recorder) {
    let text = apart("2 1 0", " ", "0", MAX_TEXT);
    exact(recorder, text.as_bytes());
    exact(recorder, (text + " ").as_bytes());
    recorder.sheet(apart("2 1 0", "\n", "0", MAX_TEXT + 1).as_bytes());
    let turns = format!("2 2 0{}\n", " 1 0".repeat((MAX_TEXT - 6) / 4));
    recorder.sheet(turns.as_bytes());
}

/// Some of the sheet texts that aren't long.
fn sheet_texts(recorder: &mut Recorder) {
    let texts = sheets::all();
    let short = texts.list().iter().filter(|(_, text)| text.len() < 400);
    for (number, (_, text)) in short.enumerate() {
        if number % READ == 0 {
            exact(recorder, text);
        }
        if number % PRINTED == 0 {
            recorder.sheet(text);
        }
    }
}

/// Sheets of 64 tasks, the longest that there are.
fn all_tasks(recorder: &mut Recorder) {
    for head in [&[0, 64, 255][..], &[1, 64, 0], &[2, 64, 0], &[4, 64, 0]] {
        let numbers = [head, &wide(&cycle(64, 1_500))].concat();
        recorder.sheet(spaced(&numbers).as_bytes());
    }
    let head = [&[3, 64, 0][..], &[0; 64]].concat();
    both(recorder, spaced(&[&head[..], &wide(&cycle(64, 1_500))].concat()).as_bytes());
}
