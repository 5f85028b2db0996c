//! The command that mends a text: what stands in place of spaces becomes a space, and a byte-order mark goes.

use crate::finding::{self, Form, MOST};
use crate::numbers::is_readable;

/// Bytes that a spreadsheet or another system puts between numbers, and how `tr` spells them.
const SEPARATORS: [(u8, &str); 4] = [(b'\r', "\\r"), (b'\t', "\\t"), (b',', ","), (b';', ";")];

const MARK: [u8; 3] = [0xef, 0xbb, 0xbf];

/// A line that tells the command for a text, where the first byte that cannot be read has one. The name is the text's file, `-` where it has none.
pub fn line(form: Form, text: &[u8], name: &str) -> Option<String> {
    if text.len() > MOST {
        return None; // that it is too long comes first
    }
    let first = text.iter().position(|&byte| !is_readable(byte))?;
    let (stages, mended) = if is_utf_16(text) {
        let all: String = SEPARATORS.iter().map(|(_, spelled)| *spelled).collect();
        let decode = "iconv -f UTF-16 -t UTF-8".to_string();
        (vec![decode, translate(&all, SEPARATORS.len())], spaced(&decoded(text)))
    } else if is_mended(&text[first..]) {
        (stages(text), spaced(&unmarked(text)))
    } else {
        return None;
    };
    let is_whole = finding::of_text(form, &mended, 1, 0).is_none();
    let what = if is_whole { "this mends it" } else { "this mends a part of it" };
    Some(format!("{what}{}", command(&stages, name)))
}

fn is_utf_16(text: &[u8]) -> bool {
    matches!(text, [0xff, 0xfe, ..] | [0xfe, 0xff, ..])
}

/// A text in UTF-16 without its byte-order mark, in UTF-8.
fn decoded(text: &[u8]) -> Vec<u8> {
    let is_big = text[0] == 0xfe;
    let unit = |pair: &[u8]| match (pair, is_big) {
        (&[high, low], true) | (&[low, high], false) => u16::from_be_bytes([high, low]),
        _ => u16::MAX, // half of one, which cannot be decoded
    };
    let units = text[2..].chunks(2).map(unit);
    char::decode_utf16(units).map(|unit| unit.unwrap_or('?')).collect::<String>().into_bytes()
}

/// A text without its byte-order marks.
fn unmarked(text: &[u8]) -> Vec<u8> {
    let mut rest = text;
    let mut kept = Vec::new();
    while let Some((&byte, behind)) = rest.split_first() {
        if rest.starts_with(&MARK) {
            rest = &rest[MARK.len()..];
        } else {
            kept.push(byte);
            rest = behind;
        }
    }
    kept
}

/// A text with a space for each separator.
fn spaced(text: &[u8]) -> Vec<u8> {
    text.iter().map(|&byte| if is_mended(&[byte]) { b' ' } else { byte }).collect()
}

/// Whether a separator or a byte-order mark stands at the front.
fn is_mended(bytes: &[u8]) -> bool {
    bytes.starts_with(&MARK) || SEPARATORS.iter().any(|(byte, _)| bytes[0] == *byte)
}

fn has_mark(text: &[u8]) -> bool {
    text.windows(MARK.len()).any(|bytes| bytes == MARK)
}

fn stages(text: &[u8]) -> Vec<String> {
    let mut stages = Vec::new();
    if has_mark(text) {
        stages.push("LC_ALL=C sed 's/\\xef\\xbb\\xbf//g'".to_string());
    }
    let met = SEPARATORS.iter().filter(|(byte, _)| text.contains(byte));
    let spelled: Vec<&str> = met.map(|(_, spelled)| *spelled).collect();
    if !spelled.is_empty() {
        stages.push(translate(&spelled.concat(), spelled.len()));
    }
    stages
}

/// So many bytes, as `tr` spells them, into spaces.
fn translate(spelled: &str, count: usize) -> String {
    format!("tr '{spelled}' '{}'", " ".repeat(count))
}

/// The stages, from the file to another; of standard input, what to put into the pipe.
fn command(stages: &[String], name: &str) -> String {
    if name == "-" {
        return format!(", put before it in the pipe: {}", stages.join(" | "));
    }
    let mut stages = stages.to_vec();
    stages[0] = format!("{} <{}", stages[0], quoted(name));
    format!(": {} >{}", stages.join(" | "), quoted(&format!("{name}.mended")))
}

/// A name as a shell takes it.
fn quoted(name: &str) -> String {
    let plain = |character: char| character.is_ascii_alphanumeric() || "_-./+".contains(character);
    if !name.is_empty() && name.chars().all(plain) {
        name.to_string()
    } else {
        format!("'{}'", name.replace('\'', "'\\''"))
    }
}

#[cfg(test)]
mod tests {
    use super::*;

    fn said(text: &[u8], name: &str) -> String {
        line(Form::Sheet, text, name).unwrap_or_default()
    }

    #[test]
    fn the_command_has_the_bytes_that_are_there() {
        assert_eq!(said(b"1,2,0", "a"), "this mends it: tr ',' ' ' <a >a.mended");
        assert_eq!(said(b"1\t2 0\r\n", "a"), "this mends it: tr '\\r\\t' '  ' <a >a.mended");
        assert_eq!(
            said(b"\xef\xbb\xbf1;2;0", "a"),
            "this mends it: LC_ALL=C sed 's/\\xef\\xbb\\xbf//g' <a | tr ';' ' ' >a.mended"
        );
        assert_eq!(said(b"1,2,0", "-"), "this mends it, put before it in the pipe: tr ',' ' '");
    }

    #[test]
    fn what_it_leaves_is_told() {
        for part in [&b"1,2,0 x"[..], b"1,2", b"1,2,0,123456", b"1,2,0 \xef\xbb"] {
            assert_eq!(said(part, "a"), "this mends a part of it: tr ',' ' ' <a >a.mended");
        }
        assert!(
            said(b"\xff\xfe1\0 \x002\0 \0x\0", "a").starts_with("this mends a part of it: iconv")
        );
        assert!(said(b"\xfe\xff\x001\0,\x002\0,\x000", "a").starts_with("this mends it: iconv"));
        assert!(said(b"\xfe\xff\x001\0,\x002\0,\x000\0", "a").starts_with("this mends a part"));
        for none in [&b"x,1"[..], b"1 \xff\xfe", b"1 2 3"] {
            assert_eq!(line(Form::Sheet, none, "a"), None);
        }
    }

    #[test]
    fn a_setup_is_mended_only_with_all_its_numbers() {
        let said = |text: &[u8]| line(Form::Setup, text, "a").unwrap_or_default();
        assert!(said(b"1,2,0,0,0,0").starts_with("this mends it:"));
        assert!(said(b"1,2,0,0,0,0,1").starts_with("this mends a part of it:"));
    }

    #[test]
    fn a_name_is_quoted_where_it_must_be() {
        assert_eq!(quoted("laps/a-1.txt"), "laps/a-1.txt");
        assert_eq!(quoted("my laps"), "'my laps'");
        assert_eq!(quoted("o'clock"), "'o'\\''clock'");
    }
}
