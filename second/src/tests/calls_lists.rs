//! State lists: back and forth, what is too large for a field, and short and long ones.

use super::{begin, begin_any, number};
use crate::calls::list::{place, state_of, write_state, LENGTH};
use crate::machine::{in_range, run, State, RING};
use crate::random::Random;
use crate::schedules;

/// A list of the state, filled before.
fn list_of(state: &State, length: usize) -> Vec<u64> {
    let mut list = vec![u64::MAX; length];
    write_state(state, &mut list);
    list
}

#[test]
fn back_and_forth() {
    let mut random = Random::new(21);
    for _ in 0..200 {
        let mut state = begin_any(&mut random);
        let schedule = schedules::any(&mut random, state.n.into(), 200);
        run(&mut state, &schedule, 200, &mut [0; 400]);
        let list = list_of(&state, LENGTH + 2);
        assert_eq!(state_of(&list), Ok(state));
        assert_eq!(list[LENGTH..], [u64::MAX; 2]);
        assert_eq!(
            list[..5],
            [state.kind, state.n, state.modulus, state.arrivals, state.sense].map(u64::from)
        );
    }
}

#[test]
fn lengths() {
    assert_eq!(LENGTH, 1_029);
    let list = list_of(&begin(RING, 2, 0, &[]), 1_100);
    for length in [0, 1, 1_028] {
        assert_eq!(number(state_of(&list[..length])), 10);
    }
    for length in [1_029, 1_030, 1_100] {
        assert_eq!(number(state_of(&list[..length])), 0);
    }
    assert_eq!(number(state_of(&[u64::MAX; 1_028])), 10);
    assert_eq!(number(state_of(&[u64::MAX; 1_029])), 7);
}

/// No number may be cut: whatever is added beyond a field's type is refused, even where the field's
/// own bits are in range. Only a list of tasks has 64 bits.
#[test]
fn every_number_beyond_its_type() {
    let state = begin(RING, 64, 0, &[]);
    let list = list_of(&state, LENGTH);
    for index in 0..LENGTH {
        let field = index.checked_sub(place(0, 0)).map(|index| index % 15);
        let bits = match field {
            Some(4) => continue,
            Some(1 | 10 | 11) => 32,
            _ => 8,
        };
        for more in [1 << bits, 1 << 63] {
            let mut list = list.clone();
            list[index] += more;
            assert_eq!(number(state_of(&list)), 7, "{index}");
        }
    }
}

/// Every number of the list has its own field; the kind's other one would be a flat tree's.
#[test]
fn every_number_is_read() {
    let list = list_of(&begin(RING, 64, 0, &[]), LENGTH);
    let mut states = Vec::new();
    for index in 1..LENGTH {
        let mut list = list.clone();
        list[index] ^= 1;
        if let Ok(state) = state_of(&list) {
            assert!(in_range(&state));
            assert_eq!(list_of(&state, LENGTH), list, "{index}");
            states.push(index);
        }
    }
    // Toggles, counts and tallies may be 1; lines go from 11 to 10.
    let used = |index: &usize| {
        index.checked_sub(69).is_some_and(|index| matches!(index % 15, 1 | 7 | 10 | 11))
    };
    let expected: Vec<usize> = (0..LENGTH).filter(used).collect();
    assert_eq!(states, expected);
}
