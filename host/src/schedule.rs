//! `barrier schedule`: turns in an order, or a whole sheet text of them.

use crate::arguments::{number, one_too_many, usage, Arguments};
use crate::kinds;
use crate::orders::Order;
use crate::output;
use crate::rows::{self, parents};
use crate::stop::Stop;
use crate::tungwaff::{reason, Setup, STATE, SYMMETRIC, TREE};
use std::ffi::OsString;

/// The circuits that are written where no number of turns is given.
const CIRCUITS: usize = 10;

/// About how many turns stand on a line.
const ON_A_LINE: usize = 16;

pub fn command(words: &[OsString]) -> Result<(), Stop> {
    let given = Arguments::of(words, &["--kind", "--modulus", "--shape"], &[])?;
    let others = given.others()?;
    let [n, order, ref more @ ..] = others[..] else {
        return Err(usage("the number of tasks and an order are needed".to_string()));
    };
    let n = number(n, "N")?;
    let (order, turns) = ordered(order, more)?;
    let turns = match turns {
        Some(turns) => number(turns, "TURNS")?,
        None => n.saturating_mul(CIRCUITS),
    };
    let head = head(&given, n)?;
    let schedule = order.turns(n, turns)?;
    let text = format!("{head}{}", written(n, &schedule));
    if !head.is_empty() {
        rows::read(text.as_bytes(), "-").map_err(too_long)?; // the library says whether it is a text of the sheet
    }
    output::print(&text)
}

/// The head was accepted, and the turns are tasks, so that the text can be unreadable only by its length.
fn too_long(stop: Stop) -> Stop {
    match stop {
        Stop::Refused { reason: reason::TEXT, words, .. } => {
            let words = format!("{words}: fewer turns will do");
            Stop::Refused { reason: reason::TEXT, words, mend: None }
        }
        other => other,
    }
}

/// The order, and the word for the number of turns.
fn ordered<'a>(order: &str, more: &[&'a str]) -> Result<(Order, Option<&'a str>), Stop> {
    let (order, rest) = match (order, more) {
        ("round-robin", rest) => (Order::RoundRobin, rest),
        ("backwards", rest) => (Order::Backwards, rest),
        ("random", [seed, rest @ ..]) => (Order::Random(number(seed, "SEED")? as u64), rest),
        ("slow", [slow, rest @ ..]) => (Order::slow(slow)?, rest),
        ("random", []) => return Err(usage("random needs a SEED".to_string())),
        ("slow", []) => return Err(usage("slow needs TASK:EVERY".to_string())),
        _ => {
            let words = "round-robin, backwards, random SEED or slow TASK:EVERY";
            return Err(usage(format!("an order is {words}, not '{order}'")));
        }
    };
    match rest {
        [] => Ok((order, None)),
        [turns] => Ok((order, Some(turns))),
        [_, more, ..] => Err(one_too_many(more.as_ref())),
    }
}

/// The head of a sheet text and its parents, where a kind is given. The library says whether there is such a barrier.
fn head(given: &Arguments, n: usize) -> Result<String, Stop> {
    let (modulus, shape) = (given.value("--modulus")?, given.value("--shape")?);
    let Some(kind) = given.value("--kind")? else {
        return match modulus.or(shape) {
            Some(_) => Err(usage("--modulus and --shape need --kind".to_string())),
            None => Ok(String::new()),
        };
    };
    let kind = kinds::kind(kind)?;
    if shape.is_some() && kind != TREE {
        return Err(usage("--shape is for --kind tree".to_string()));
    }
    let usual = if kind == SYMMETRIC { 3 } else { 0 };
    let modulus = modulus.map_or(Ok(usual), |modulus| number(modulus, "--modulus"))?;
    let table = match kind {
        TREE => parents(shape.map_or(Ok(0), kinds::shape)?, n)?,
        _ => Vec::new(),
    };
    let setup = Setup { kind, n, modulus, parents: &table, ..Setup::default() };
    rows::fresh(&setup, &mut vec![0; STATE])?;
    Ok(format!("{kind} {n} {modulus}\n{}", written(n, &table)))
}

/// Tasks on lines of whole circuits.
fn written(n: usize, tasks: &[u8]) -> String {
    let on_a_line = n * (ON_A_LINE / n).max(1);
    let line = |tasks: &[u8]| {
        let words: Vec<String> = tasks.iter().map(u8::to_string).collect();
        words.join(" ") + "\n"
    };
    tasks.chunks(on_a_line).map(line).collect()
}
