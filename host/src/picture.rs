//! The rows as a picture (SVG): a lane a task, a column a turn. A turn is a dark mark, blue where it moved and orange where it waited, with a pale
//! tail to the task's next turn. A vertical rule stands behind each turn that closed a round. The turns go on in bands, as in a score.

use crate::kinds;
use crate::rows::{Row, Told};
use crate::table::summary;
use std::fmt::Write;
use std::ops::Range;

/// Room for the lanes' labels, for the rounds' numbers above a band, and for the turns' numbers below it.
const LEFT: usize = 64;
const ABOVE: usize = 20;
const BELOW: usize = 24;

/// Where the first band begins, under the title and the key.
const TOP: usize = 62;

/// About how wide a band is.
const WIDTH: usize = 1200;

/// Room to the right, for the number of a round that the last turn closes.
const RIGHT: usize = 46;

/// The least room between two numbers of rounds above a band.
const ROUNDS_APART: usize = 60;

/// The least width, which the key needs, and about how much of it a character of the title takes.
const LEAST_WIDTH: usize = 720;
const TITLE_CHARACTER: usize = 9;

const STYLE: &str = "text{font-family:sans-serif;fill:#222}\
.lane{fill:#f1f1f1}.m{fill:#1f5fa8}.w{fill:#d9660a}.mt{fill:#c3d9f2}.wt{fill:#fadcc0}\
.r{stroke:#111;stroke-width:1.5}.n{fill:#fff;text-anchor:middle}.c{text-anchor:middle}.e{text-anchor:end}\
g:hover .mt,g:hover .wt{stroke:#111;stroke-width:1}";

/// The measures of a picture, in pixels: a turn's column, a lane, and how many turns a band has.
struct Measures {
    turn: usize,
    lane: usize,
    band: usize,
    n: usize,
}

impl Measures {
    /// A short run has room for the lines' numbers; a lane gets thinner as there are more.
    fn of(told: &Told) -> Measures {
        let (turns, n) = (told.rows.len(), told.n);
        let turn = match (turns, n) {
            (0..=60, _) => 20,
            (_, 0..=16) => 6,
            _ => 3,
        };
        let lane = match n {
            0..=16 => 18,
            17..=32 => 14,
            _ => 11,
        };
        Measures { turn, lane, band: WIDTH / turn, n }
    }

    /// Whether a mark has room for a number.
    fn is_wide(&self) -> bool {
        self.turn >= 18
    }

    /// The height of a band with what stands above and below it.
    fn pitch(&self) -> usize {
        ABOVE + self.lane * self.n + BELOW
    }
}

pub fn drawn(told: &Told) -> String {
    let measures = Measures::of(told);
    let bands = told.rows.len().div_ceil(measures.band).max(1);
    let columns = told.rows.len().clamp(1, measures.band);
    let title = summary(told);
    let least = LEAST_WIDTH.max(16 + TITLE_CHARACTER * title.len());
    let width = (LEFT + columns * measures.turn + RIGHT).max(least);
    let height = TOP + bands * measures.pitch();
    let mut page = format!(
        "<svg xmlns=\"http://www.w3.org/2000/svg\" width=\"{width}\" height=\"{height}\" viewBox=\"0 0 {width} {height}\">\n\
         <style>{STYLE}</style>\n<rect width=\"{width}\" height=\"{height}\" fill=\"#fff\"/>\n"
    );
    page.push_str(&heading(&title));
    for band in 0..bands {
        page.push_str(&banded(told, &measures, band));
    }
    page.push_str("</svg>\n");
    page
}

/// What the picture is of, and the key to its colours.
fn heading(title: &str) -> String {
    let mut page = format!("<text x=\"8\" y=\"20\" font-size=\"15\">{}</text>\n", escaped(title));
    let key = [
        ("m", 8, "moved"),
        ("w", 78, "waited"),
        ("mt", 148, "since it moved"),
        ("wt", 258, "since it waited"),
        ("lane", 374, "no turn yet"),
    ];
    for (class, x, words) in key {
        let text = x + 18;
        let _ = write!(
            page,
            "<rect class=\"{class}\" x=\"{x}\" y=\"31\" width=\"12\" height=\"12\"/><text x=\"{text}\" y=\"41\" font-size=\"11\">{words}</text>\n"
        );
    }
    page.push_str("<path class=\"r\" d=\"M472 30V44\"/><text x=\"480\" y=\"41\" font-size=\"11\">a round closed: the least count rose</text>\n");
    page
}

/// A band: its lanes, its turns, its rules.
fn banded(told: &Told, measures: &Measures, band: usize) -> String {
    let first = band * measures.band;
    let end = (first + measures.band).min(told.rows.len());
    let y = TOP + band * measures.pitch() + ABOVE;
    let mut page = lanes(measures, end - first, y);
    for task in 0..measures.n {
        page.push_str(&marks(told, measures, task, first..end, y));
    }
    page.push_str(&rules(&told.rows[first..end], measures, y));
    page.push_str(&ruler(measures, first..end, y));
    page
}

fn lanes(measures: &Measures, turns: usize, y: usize) -> String {
    let mut page = String::new();
    let (x, width, height) = (LEFT - 6, turns * measures.turn, measures.lane - 2);
    for task in 0..measures.n {
        let top = y + task * measures.lane;
        let text = top + measures.lane / 2 + 3;
        let _ = write!(
            page,
            "<text class=\"e\" x=\"{x}\" y=\"{text}\" font-size=\"{}\">task {task}</text><rect class=\"lane\" x=\"{LEFT}\" y=\"{top}\" width=\"{width}\" height=\"{height}\"/>\n",
            measures.lane.min(13) - 2
        );
    }
    page
}

/// The turns of a task in a band. A tail that an earlier band began goes on in this one.
fn marks(told: &Told, measures: &Measures, task: usize, turns: Range<usize>, y: usize) -> String {
    let mut page = String::new();
    let named = |&turn: &usize| told.rows[turn].task == task;
    let before = (0..turns.start).rev().find(named);
    let mine: Vec<usize> = before.into_iter().chain(turns.clone().filter(named)).collect();
    for (place, &turn) in mine.iter().enumerate() {
        let next = mine.get(place + 1).copied().unwrap_or(turns.end);
        let at = (turn.max(turns.start) - turns.start, next - turns.start);
        page.push_str(&mark(told, measures, turn, at, turn >= turns.start, y));
    }
    page
}

/// A turn's tail and, in its own band, its mark, with its row as the title.
fn mark(
    told: &Told,
    measures: &Measures,
    turn: usize,
    (begin, end): (usize, usize),
    own: bool,
    y: usize,
) -> String {
    let row = &told.rows[turn];
    let class = if row.moved { "m" } else { "w" };
    let (x, height) = (LEFT + begin * measures.turn, measures.lane - 2);
    let (top, width) = (y + row.task * measures.lane, (end - begin) * measures.turn);
    let mut page = format!(
        "<g><title>{}</title><rect class=\"{class}t\" x=\"{x}\" y=\"{top}\" width=\"{width}\" height=\"{height}\"/>",
        title(told.kind, turn, row)
    );
    if own {
        let wide = measures.turn - usize::from(measures.turn > 4);
        let _ = write!(
            page,
            "<rect class=\"{class}\" x=\"{x}\" y=\"{top}\" width=\"{wide}\" height=\"{height}\"/>"
        );
    }
    if own && measures.is_wide() {
        let (middle, text) = (x + measures.turn / 2, top + measures.lane / 2 + 3);
        let _ = write!(
            page,
            "<text class=\"n\" x=\"{middle}\" y=\"{text}\" font-size=\"{}\">{}</text>",
            measures.lane.min(13) - 3,
            row.line
        );
    }
    page.push_str("</g>\n");
    page
}

/// The row of a turn, which a browser shows under the pointer.
fn title(kind: usize, turn: usize, row: &Row) -> String {
    let closed = if row.closed { format!("; closed round {}", row.least) } else { String::new() };
    escaped(&format!(
        "turn {turn}, task {}: {}: {}; count {}, least {}{closed}",
        row.task,
        kinds::in_words(kind, row.line),
        row.answer(),
        row.count,
        row.least
    ))
}

/// A rule behind each turn that closed a round, with the round's number where there is room.
fn rules(rows: &[Row], measures: &Measures, y: usize) -> String {
    let mut page = String::new();
    let mut free = 0;
    for (place, row) in rows.iter().enumerate().filter(|(_, row)| row.closed) {
        let x = LEFT + (place + 1) * measures.turn;
        let (top, bottom) = (y - 4, y + measures.lane * measures.n);
        let _ = write!(page, "<path class=\"r\" d=\"M{x} {top}V{bottom}\"/>");
        if x >= free {
            let _ = write!(
                page,
                "<text class=\"c\" x=\"{x}\" y=\"{}\" font-size=\"11\">round {}</text>",
                y - 7,
                row.least
            );
            free = x + ROUNDS_APART;
        }
        page.push('\n');
    }
    page
}

/// The numbers of turns under a band.
fn ruler(measures: &Measures, turns: Range<usize>, y: usize) -> String {
    let mut page = String::new();
    let step = if measures.is_wide() { 5 } else { 50 };
    let text = y + measures.lane * measures.n + 12;
    for turn in turns.clone().filter(|turn| turn % step == 0) {
        let x = LEFT + (turn - turns.start) * measures.turn;
        let _ = write!(page, "<text x=\"{x}\" y=\"{text}\" font-size=\"10\">{turn}</text>");
    }
    page.push('\n');
    page
}

/// A text as the picture's language takes it.
fn escaped(text: &str) -> String {
    text.replace('&', "&amp;").replace('<', "&lt;").replace('>', "&gt;")
}
