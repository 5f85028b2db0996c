//! Shrinking: drops requests, then turns of their schedules and triples of their traces, while a
//! difference remains.

use super::programs::{Programs, Requests};
use std::io;
use std::time::{Duration, Instant};

/// How long shrinking may take.
const PATIENCE: Duration = Duration::from_secs(120);

/// How long the parts of one request may be tried in vain. What is left then is needed, or it is so
/// long that every try takes its time.
const IN_VAIN: Duration = Duration::from_secs(1);

/// A list of requests as short as can be found in the time that still shows a difference.
pub fn shrink(programs: &Programs, requests: Requests) -> io::Result<Requests> {
    let end = Instant::now() + PATIENCE;
    let differs = |requests: &[Vec<u8>]| matches!(programs.difference(requests), Ok(Some(_)));
    let mut requests = up_to_the_difference(programs, requests)?;
    loop {
        let before = requests.concat().len();
        requests = reduce(requests, 0, end, PATIENCE, &differs);
        for place in 0..requests.len() {
            shorten(&mut requests, place, end, &differs);
        }
        if requests.concat().len() == before {
            return Ok(requests);
        }
    }
}

/// Drops the requests after the first difference, if it still shows: a program that fails may
/// have kept back its last answers.
fn up_to_the_difference(programs: &Programs, requests: Requests) -> io::Result<Requests> {
    if let Some(difference) = programs.difference(&requests)? {
        let first = &requests[..requests.len().min(difference.place + 1)];
        if programs.difference(first)?.is_some() {
            return Ok(first.to_vec());
        }
    }
    Ok(requests)
}

/// Drops parts of one request but its first.
fn shorten(
    requests: &mut Requests,
    place: usize,
    end: Instant,
    differs: &impl Fn(&[Vec<u8>]) -> bool,
) {
    let parts = reduce(parts(&requests[place]), 1, end, IN_VAIN, &|parts: &[Vec<u8>]| {
        let mut shorter = requests.clone();
        shorter[place] = parts.join(&b' ');
        differs(&shorter)
    });
    requests[place] = parts.join(&b' ');
}

/// The parts of a request that can be dropped: a play-back's triples, after its tables, and another
/// request's numbers from the fourth on, turns most of all. What is before them is one part.
fn parts(request: &[u8]) -> Vec<Vec<u8>> {
    let words: Vec<&[u8]> = request.split(|&byte| byte == b' ').collect();
    let (first, size) = match words[..] {
        [b"11", _, _, _, parents, starts, works, ..] => {
            (7 + length(parents) + length(starts) + length(works), 3)
        }
        _ => (3, 1),
    };
    let (first, rest) = words.split_at(first.min(words.len()));
    let parts = [first].into_iter().chain(rest.chunks(size));
    parts.map(|words| words.join(&b' ')).collect()
}

/// The length of a table; 0 if it is none that a request can have.
fn length(word: &[u8]) -> usize {
    let word = str::from_utf8(word).unwrap_or_default();
    word.parse().ok().filter(|&length| length <= 4_096).unwrap_or(0)
}

/// Drops items from the first place on, in ever smaller groups, as long as the rest will do and not
/// too long in vain. Ends with the time, not only the asking: a long schedule has too many groups
/// even to be put together for each.
fn reduce<T: Clone>(
    mut items: Vec<T>,
    first: usize,
    end: Instant,
    in_vain: Duration,
    will_do: &impl Fn(&[T]) -> bool,
) -> Vec<T> {
    let until = || end.min(Instant::now() + in_vain);
    let mut group = items.len().saturating_sub(first);
    let mut end = until();
    while group > 0 {
        let mut place = first;
        while place < items.len() && Instant::now() < end {
            let next = (place + group).min(items.len());
            let rest = [&items[..place], &items[next..]].concat();
            if !rest.is_empty() && will_do(&rest) {
                items = rest;
                end = until();
            } else {
                place = next;
            }
        }
        group /= 2;
    }
    items
}

#[test]
fn reduced_to_the_needed_items() {
    let items: Vec<u32> = (0..1_000).collect();
    let end = Instant::now() + PATIENCE;
    let needs = |items: &[u32]| items.contains(&3) && items.contains(&700) && items.len() > 2;
    let reduced = reduce(items, 2, end, PATIENCE, &needs);
    assert!(reduced.len() == 4 && reduced.starts_with(&[0, 1]), "{reduced:?}");
}

#[test]
fn nothing_is_tried_once_the_time_is_up() {
    let items = vec![b"0".to_vec(); 70_000];
    let (now, later) = (Instant::now(), Instant::now() + PATIENCE);
    for (end, in_vain) in [(now, PATIENCE), (later, Duration::ZERO)] {
        let reduced = reduce(items.clone(), 0, end, in_vain, &|_: &[Vec<u8>]| true);
        assert!(reduced == items);
    }
}

#[test]
fn parts_of_requests() {
    for (request, expected) in [
        ("5", &["5"][..]),
        ("4 2 4 0 1", &["4 2 4", "0", "1"]),
        ("11 2 2 0 0 0 0 0 11 1 0 12 1", &["11 2 2 0 0 0 0", "0 11 1", "0 12 1"]),
        ("11 0 2 3 0 2 0 1 0 0 11 1 7", &["11 0 2 3 0 2 0 1 0", "0 11 1", "7"]),
        ("11 2 2 0 0 0 2 5 6 0 11 1", &["11 2 2 0 0 0 2 5 6", "0 11 1"]),
        ("11 3 2 0 9 0 0 1 2 3", &["11 3 2 0 9 0 0 1 2 3"]),
        ("11 3 2 0 18446744073709551615 1 0 1", &["11 3 2 0 18446744073709551615 1 0 1"]),
        ("11 2 2 0 0 0", &["11 2 2", "0", "0", "0"]),
    ] {
        let parts = parts(request.as_bytes());
        assert_eq!(parts, expected.iter().map(|part| part.as_bytes()).collect::<Vec<_>>());
    }
}
