//! The sheet texts: their names against their sheets.

use crate::sheet::{sheet, MAX_TEXT};
use crate::sheets::all;
use std::collections::HashSet;

/// Whether the sheet is what the name says.
fn fits(name: &str, sheet: &str) -> bool {
    let words: Vec<&str> = name.split('-').collect();
    match words[..] {
        ["taken", ..] => sheet.starts_with("task line count moves waits\n0 1"),
        ["refused", "9", "place", place, ..] => sheet == format!("refused 9 place {place}\n"),
        ["refused", reason, ..] => sheet == format!("refused {reason}\n"),
        ["varied", ..] => true,
        _ => false,
    }
}

#[test]
fn sheets_are_what_their_names_say() {
    for (name, text) in all().list() {
        let sheet = sheet(text);
        assert!(fits(name, &sheet), "{name}: {sheet}");
    }
}

#[test]
fn names_differ() {
    let texts = all();
    let names: HashSet<_> = texts.list().iter().map(|(name, _)| name).collect();
    assert_eq!(names.len(), texts.list().len());
}

/// The names with a length have that many bytes, and long texts are near the limit.
#[test]
fn lengths_are_what_the_names_say() {
    for (name, text) in all().list() {
        let words: Vec<&str> = name.split('-').collect();
        if let Some(place) = words.iter().position(|&word| word == "bytes") {
            let length = words[place + 1].parse().ok();
            assert!(words[0] == "varied" || length == Some(text.len()), "{name}");
        }
        let long = words[1] == "long";
        assert!(!long || (MAX_TEXT - 10..=MAX_TEXT).contains(&text.len()), "{name}");
    }
}

/// The varied texts are refused for every reason of the sheet, and taken too.
#[test]
fn varied_texts_have_every_answer() {
    let texts = all();
    let varied = texts.list().iter().filter(|(name, _)| name.starts_with("varied"));
    let sheets: Vec<String> = varied.map(|(_, text)| sheet(text)).collect();
    for begin in [
        "task",
        "refused 1",
        "refused 2",
        "refused 3",
        "refused 4",
        "refused 5",
        "refused 6",
        "refused 9 place 0",
        "refused 9 place 1",
    ] {
        assert!(sheets.iter().any(|sheet| sheet.starts_with(begin)), "{begin}");
    }
}
