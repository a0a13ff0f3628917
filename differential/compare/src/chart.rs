//! Compares what the wall chart derives with what `read` reads free of reports.

mod places;

use crate::{
    library, mark,
    options::ChartOptions,
    read::{Answer, Lent},
    run::shown,
};
use derive::{Chart, Reading, kind_of};
use generate::{ParseTexts, script, short_strings};
use oracle::Lengths;
use places::{PLACES, Place, all_spellings};
use std::process::ExitCode;

/// So many differing texts are shown.
const SHOWN: usize = 8;

pub fn run(options: &ChartOptions) -> ExitCode {
    if options.plant {
        println!("planted fault: in mid-block anything may follow a Block, If or Match");
    }
    let chart = if options.plant { Chart::with_fault() } else { Chart::new() };
    let mut tally = Tally::default();
    for place in &PLACES {
        let mut rows = Rows::new(&chart, place, &mut tally);
        rows.all(place.length, true);
        tally.end_of(place.name);
    }
    all_of(&chart, generated(options), &mut tally);
    tally.end_of("generated");
    all_of(&chart, marked(options), &mut tally);
    tally.end_of("with a mark in front");
    all_of(&chart, short_strings(), &mut tally);
    tally.end_of("short strings");
    tally.end()
}

/// Counts of rows; those of the sort at hand, and of all before it.
#[derive(Default)]
struct Tally {
    rows: usize,
    derived: usize,
    skipped: usize,
    differences: usize,
    rows_before: usize,
    derived_before: usize,
}

impl Tally {
    fn add(&mut self, text: &str, is_derived: bool, answer: &Answer) {
        self.rows += 1;
        self.derived += usize::from(is_derived);
        let is_free = answer.number == 0 && answer.counts[3] == 0;
        if is_derived != is_free || !answer.stayed_inside {
            self.differences += 1;
            if self.differences <= SHOWN {
                let derived = if is_derived { "derived" } else { "not derived" };
                let Answer { number, place, counts, .. } = answer;
                println!(
                    "differs: {} is {derived}; read: {number} {place} {counts:?}",
                    shown(text.as_bytes())
                );
            }
        }
    }

    fn end_of(&mut self, sort: &str) {
        let rows = self.rows - self.rows_before;
        println!("{sort}: {rows} rows, {} derived", self.derived - self.derived_before);
        (self.rows_before, self.derived_before) = (self.rows, self.derived);
    }

    fn end(&self) -> ExitCode {
        println!(
            "{} texts skipped: a string with a backslash or other than pairs of digits, or too deep",
            self.skipped
        );
        let Tally { rows, derived, differences, .. } = self;
        println!("{rows} rows, {derived} derived, {differences} differences");
        if *differences > 0 { ExitCode::FAILURE } else { ExitCode::SUCCESS }
    }
}

/// All rows of tokens at a place, each after the one that it goes on from.
struct Rows<'a, 't> {
    reading: Reading<'a>,
    alphabet: Vec<(u8, &'static str)>,
    behind: Vec<u8>,
    place: &'static Place,
    row: Vec<&'static str>,
    tally: &'t mut Tally,
}

impl<'a, 't> Rows<'a, 't> {
    fn new(chart: &'a Chart, place: &'static Place, tally: &'t mut Tally) -> Self {
        let mut reading = Reading::new(chart);
        for word in place.before.split_whitespace() {
            reading.push(kind_of(word));
        }
        let words = match place.alphabet {
            "" => all_spellings(),
            words => words.split_whitespace().collect(),
        };
        let alphabet = words.into_iter().map(|word| (kind_of(word), word)).collect();
        let behind = place.behind.split_whitespace().map(kind_of).collect();
        Rows { reading, alphabet, behind, place, row: Vec::new(), tally }
    }

    /// The row, and all that go on from it: those of so many tokens more, and longer ones where
    /// the row can be the beginning of one that the chart derives.
    fn all(&mut self, more: usize, goes_on: bool) {
        self.compare();
        if more == 0 && !goes_on || self.row.len() == self.place.length + self.place.longer {
            return;
        }
        for n in 0..self.alphabet.len() {
            let (kind, spelling) = self.alphabet[n];
            let goes_on = self.reading.push(kind);
            self.row.push(spelling);
            self.all(more.saturating_sub(1), goes_on);
            self.row.pop();
            self.reading.pop();
        }
    }

    fn compare(&mut self) {
        let Place { before, behind, .. } = self.place;
        let text = format!("{before} {} {behind}", self.row.join(" "));
        let is_derived = self.is_derived();
        self.tally.add(&text, is_derived, &read(&text));
    }

    fn is_derived(&mut self) -> bool {
        for kind in &self.behind {
            self.reading.push(*kind);
        }
        let is_derived = self.reading.is_whole();
        self.behind.iter().for_each(|_| self.reading.pop());
        is_derived
    }
}

fn generated(options: &ChartOptions) -> impl Iterator<Item = String> {
    let mut rng = generate::Rng::new(options.seed);
    let scripts = (0..options.texts / 2).map(move |_| script(&mut rng));
    scripts.chain(ParseTexts::new(options.seed).take(options.texts / 2))
}

fn marked(options: &ChartOptions) -> impl Iterator<Item = String> {
    let texts = ParseTexts::new(options.seed).take(options.texts / 8);
    texts.map(|text| format!("{}{text}", mark::MARK))
}

fn all_of(chart: &Chart, texts: impl Iterator<Item = String>, tally: &mut Tally) {
    for text in texts {
        let answer = read(&text);
        match row_of(&text).filter(|_| answer.number != 3) {
            Some(row) => tally.add(&text, chart.derives(&row), &answer),
            None => tally.skipped += 1,
        }
    }
}

/// "The text's tokens without Whitespace, line comments, closed block comments and Eof"; none
/// where a string may decode with a report.
fn row_of(text: &str) -> Option<Vec<u8>> {
    let mut row = Vec::new();
    let mut start = 0;
    for word in mark::lex(text) {
        let (kind, end) = ((word >> 25) as u8, (word & 0x1ff_ffff) as usize);
        match kind {
            72..=74 | 81 => {}
            70 | 71 if !is_plain(&text[start..end]) => return None,
            _ => row.push(kind),
        }
        start = end;
    }
    Some(row)
}

/// Is a string without escapes, and of pairs of digits where it is a hex string?
fn is_plain(spelling: &str) -> bool {
    let body = spelling.trim_start_matches("hex").trim_matches('"');
    match spelling.starts_with("hex") {
        true => body.len().is_multiple_of(2) && body.bytes().all(|byte| byte.is_ascii_hexdigit()),
        false => !body.contains('\\'),
    }
}

/// With enough words for any text that isn't too deep.
fn read(text: &str) -> Answer {
    let bytes = text.len();
    let rest = Lengths { nodes: 40 * bytes + 200, values: bytes + 16, reports: 6 * bytes + 60 };
    library::read(text.as_bytes(), Lent { tokens: bytes + 1, rest })
}
