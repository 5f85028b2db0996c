//! The two programs of the soak: this one, which answers here, and the other, which is started with
//! the requests; and the first answer that differs.

use crate::requests::Replay;
use std::io::{self, Read, Write};
use std::process::{Child, Command, Stdio};
use std::sync::mpsc;
use std::thread;
use std::time::Duration;

/// How long a program may take for one list of requests.
const PATIENCE: Duration = Duration::from_secs(30);

/// Request lines without their line feeds.
pub type Requests = Vec<Vec<u8>>;

/// Answer lines with their line feeds.
type Answers = Vec<Vec<u8>>;

/// This program and the other one, as the words of its command.
pub struct Programs {
    other: Vec<String>,
}

/// The first answers that aren't the same; empty where a program gives none.
pub struct Difference {
    pub place: usize,
    pub own: Vec<u8>,
    pub other: Vec<u8>,
}

impl Programs {
    /// Makes sure that the other program answers at all.
    pub fn new(other: &[&str]) -> io::Result<Programs> {
        let programs = Programs { other: other.iter().map(ToString::to_string).collect() };
        let child = start(&programs.other, Stdio::inherit())?;
        match answers(child, b"5\n".to_vec())?.first() {
            Some(line) if line.ends_with(b"\n") => Ok(programs),
            _ => Err(io::Error::other(format!("{} doesn't answer", other[0]))),
        }
    }

    /// Sends the requests through both programs and compares the answers.
    pub fn difference(&self, requests: &[Vec<u8>]) -> io::Result<Option<Difference>> {
        let mut text = requests.join(&b'\n');
        text.push(b'\n');
        let other = start(&self.other, Stdio::null())?;
        let other = thread::spawn(move || answers(other, text));
        let own = own_answers(requests);
        let other = other.join();
        let other = other.map_err(|_| io::Error::other("a thread failed"))??;
        Ok(first_difference(&own, &other))
    }
}

/// This program's answers.
fn own_answers(requests: &[Vec<u8>]) -> Answers {
    let mut replay = Replay::default();
    requests.iter().map(|request| (replay.answer(request) + "\n").into_bytes()).collect()
}

/// Starts a program.
fn start(words: &[String], errors: Stdio) -> io::Result<Child> {
    let mut command = Command::new(&words[0]);
    command.args(&words[1..]).stderr(errors);
    let started = command.stdin(Stdio::piped()).stdout(Stdio::piped()).spawn();
    started.map_err(|error| io::Error::other(format!("{}: {error}", words[0])))
}

/// The answers of a program. If it fails or is too slow, one line more tells so.
fn answers(mut child: Child, requests: Vec<u8>) -> io::Result<Answers> {
    let (Some(mut input), Some(mut output)) = (child.stdin.take(), child.stdout.take()) else {
        return Err(io::Error::other("a program without input and output"));
    };
    thread::spawn(move || input.write_all(&requests));
    let (sender, receiver) = mpsc::channel();
    thread::spawn(move || {
        let mut text = Vec::new();
        let _ = output.read_to_end(&mut text);
        let _ = sender.send(text);
    });
    let text = receiver.recv_timeout(PATIENCE);
    if text.is_err() {
        child.kill()?;
    }
    let status = child.wait()?;
    let text = text.unwrap_or_default();
    let lines = text.split_inclusive(|&byte| byte == b'\n');
    let mut lines: Answers = lines.map(Vec::from).collect();
    if !status.success() {
        lines.push(format!("({status})").into_bytes());
    }
    Ok(lines)
}

/// The first place at which two lists of answers differ.
fn first_difference(own: &[Vec<u8>], other: &[Vec<u8>]) -> Option<Difference> {
    let longest = own.len().max(other.len());
    let place = (0..longest).find(|&place| own.get(place) != other.get(place))?;
    let answer = |answers: &[Vec<u8>]| answers.get(place).cloned().unwrap_or_default();
    Some(Difference { place, own: answer(own), other: answer(other) })
}
