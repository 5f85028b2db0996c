//! The comparison with another program's answers.

use crate::calls::compare::difference;

const REQUESTS: &[u8] = b"5\n11 2 12 0\n4 1\n";
const ANSWERS: &[u8] = b"10 0\n0 120\n10 0 0 7\n";

/// What is told of the first difference: the request's number, the number's place, both answers.
fn told(answered: &[u8]) -> Result<usize, (usize, usize, String, String)> {
    difference(REQUESTS, ANSWERS, answered).map_err(|difference| {
        (difference.number, difference.place, difference.expected, difference.answered)
    })
}

fn row(
    number: usize,
    place: usize,
    expected: &str,
    answered: &str,
) -> (usize, usize, String, String) {
    (number, place, expected.to_string(), answered.to_string())
}

#[test]
fn the_same_answers() {
    assert_eq!(told(ANSWERS), Ok(3));
    assert_eq!(told(&ANSWERS[..ANSWERS.len() - 1]), Ok(3));
}

#[test]
fn other_answers() {
    for (answered, expected) in [
        (&b"10 1\n0 120\n10 0 0 7\n"[..], row(1, 2, "10 0", "10 1")),
        (b"10 0\n0 12\n10 0 0 7\n", row(2, 2, "0 120", "0 12")),
        (b"10 0\n0 1200\n10 0 0 7\n", row(2, 2, "0 120", "0 1200")),
        (b"10 0\n0 120\n10 0 0 7 7\n", row(3, 4, "10 0 0 7", "10 0 0 7 7")),
        (b"10 0\n0 120\n10 0 0\n", row(3, 3, "10 0 0 7", "10 0 0")),
        (b"10 0\n\n10 0 0 7\n", row(2, 1, "0 120", "")),
        (b"10 0\n0 120\n", row(3, 1, "10 0 0 7", "no line")),
        (b"", row(1, 1, "10 0", "no line")),
        (b"10 0\n0 120\n10 0 0 7\n1 2\n", row(4, 1, "no line", "1 2")),
        (b"10 0\n0 \xff\n10 0 0 7\n", row(2, 2, "0 120", "0 \\xff")),
    ] {
        assert_eq!(told(answered), Err(expected));
    }
}

/// Long lines are cut: the request at its begin, the answers around the number that differs.
#[test]
fn long_lines() {
    let request = format!("13{}", " 48".repeat(100));
    let (before, after) = ("11 ".repeat(200), " 12".repeat(200));
    let [expected, answered] = ["34567", "34568"].map(|number| format!("{before}{number}{after}"));
    let told = difference(request.as_bytes(), expected.as_bytes(), answered.as_bytes());
    let Err(told) = told else {
        unreachable!("no difference");
    };
    assert_eq!((told.number, told.place, &told.request[..]), (1, 201, &request[..150]));
    assert_eq!((told.expected.len(), told.answered.len()), (150, 150));
    assert!(told.expected.starts_with("11 11") && told.expected.contains(" 11 34567 12"));
    assert!(told.answered.starts_with("11 11") && told.answered.contains(" 11 34568 12"));
}
