//! Texts for which two or more reasons apply: the first in checking order is given.

use super::texts::{apart, Texts};
use crate::sheet::MAX_TEXT;

pub fn add(texts: &mut Texts) {
    reading_before_all(texts);
    kind_before_others(texts);
    count_before_others(texts);
    modulus_before_others(texts);
    table_before_others(texts);
}

/// 1, for each of its causes, before 2 to 9.
fn reading_before_all(texts: &mut Texts) {
    let too_long = |text: &str| apart(text, " ", "", MAX_TEXT + 1);
    texts.add("refused-1-before-2-two-numbers", "9 9");
    texts.add("refused-1-before-2-letter", "5 0 1 x");
    texts.add("refused-1-before-2-six-digits", "5 0 1 000000");
    texts.add("refused-1-before-2-kind-of-six-digits", "000005 1 0");
    texts.add("refused-1-before-2-too-long", too_long("5 0 1"));
    texts.add("refused-1-before-3-letter", "2 0 0 x");
    texts.add("refused-1-before-3-too-long", too_long("2 65 0"));
    texts.add("refused-1-before-4-six-digits", "0 1 2 000000");
    texts.add("refused-1-before-4-too-long", too_long("0 1 256"));
    texts.add("refused-1-before-5-minus", "3 2 0 -");
    texts.add("refused-1-before-5-too-long", too_long("3 2 0 0"));
    texts.add("refused-1-before-6-six-digits", "3 2 0 0 100000");
    texts.add("refused-1-before-6-too-long", too_long("3 2 0 0 1"));
    texts.add("refused-1-before-9-tab", "2 1 0 1\t");
    texts.add("refused-1-before-9-six-digits", "2 1 0 1 000000");
    texts.add("refused-1-before-9-too-long", too_long("2 1 0 1"));
}

/// 2 before 3 to 9.
fn kind_before_others(texts: &mut Texts) {
    texts.add("refused-2-before-3-n-0", "5 0 0");
    texts.add("refused-2-before-3-n-65", "5 65 0");
    texts.add("refused-2-before-4", "5 2 1");
    texts.add("refused-2-before-all", "99999 99999 99999 99999");
    texts.add("refused-2-before-9", "5 2 0 0 1 2");
    texts.add("refused-2-no-parents-of-kind-5", "5 2 0");
}

/// 3 before 4 to 9.
fn count_before_others(texts: &mut Texts) {
    texts.add("refused-3-before-4-symmetric", "0 0 2");
    texts.add("refused-3-before-4-ring", "2 65 1");
    texts.add("refused-3-before-4-centralized", "4 0 3");
    texts.add("refused-3-before-9-centralized", "4 65 0 65");
    texts.add("refused-3-before-4-and-5", "3 65 1 0");
    texts.add("refused-3-before-5", "3 65 0 0 0");
    texts.add("refused-3-before-5-n-99999", "3 99999 0 0 0");
    texts.add("refused-3-before-6", format!("3 65 0{}", " 1".repeat(65)));
    texts.add("refused-3-before-9-n-0", "2 0 0 0");
    texts.add("refused-3-before-9-n-65", "2 65 0 65");
    texts.add("refused-3-tree-of-none", "3 0 0 0 0");
}

/// 4 before 5 to 9.
fn modulus_before_others(texts: &mut Texts) {
    texts.add("refused-4-before-5", "3 2 1");
    texts.add("refused-4-before-5-one-parent", "3 2 3 0");
    texts.add("refused-4-before-6", "3 2 1 0 1");
    texts.add("refused-4-before-6-root", "3 2 256 1 0");
    texts.add("refused-4-before-9-symmetric", "0 2 2 0 2");
    texts.add("refused-4-before-9-fetch-and-increment", "1 2 3 2");
    texts.add("refused-4-before-9-tree", "3 2 3 0 0 2");
    texts.add("refused-4-before-9-centralized", "4 2 3 2");
}

/// 5 before 6 and before 9, which no turn is there for; 6 before 9.
fn table_before_others(texts: &mut Texts) {
    texts.add("refused-5-before-6-root", "3 3 0 5");
    texts.add("refused-5-before-6-parent", "3 3 0 0 1");
    texts.add("refused-5-before-6-and-9-large", "3 3 0 0 99999");
    texts.add("refused-5-before-6-and-9-n", "3 3 0 3 3");
    texts.add("refused-5-before-6-and-9-one-too-few", format!("3 64 0{}", " 64".repeat(63)));
    texts.add("refused-6-before-9", "3 2 0 0 1 9");
    texts.add("refused-6-before-9-root", "3 2 0 1 0 2");
    texts.add("refused-6-before-9-large", "3 2 0 0 256 256");
}
