//! How many texts and calls there were of each sort.

use crate::read::check::Exception;
use oracle::{End, NODE_WIDTH, Run};
use std::{collections::BTreeMap, collections::BTreeSet, fmt};

#[derive(Debug, Default)]
pub struct Tally {
    /// Texts in which a kind of report or node occurs.
    reports: BTreeMap<u32, usize>,
    nodes: BTreeMap<u32, usize>,
    /// Calls that are answered with a refusal; 0: that are done.
    answers: BTreeMap<u32, usize>,
    read: usize,
    too_deep: usize,
    out_of_fuel: usize,
    last_backslash: usize,
    other_panics: usize,
}

impl Tally {
    pub fn add_text(&mut self, run: &Run) {
        add_kinds(&mut self.reports, run.reports.chunks(3));
        let count = match &run.end {
            End::Read(words) => {
                add_kinds(&mut self.nodes, words.nodes.chunks(NODE_WIDTH));
                &mut self.read
            }
            End::TooDeep => &mut self.too_deep,
            End::Panicked(message) => match Exception::of(message) {
                Some(Exception::Fuel) => &mut self.out_of_fuel,
                Some(Exception::Backslash) => &mut self.last_backslash,
                None => &mut self.other_panics,
            },
        };
        *count += 1;
    }

    pub fn add_call(&mut self, number: u32) {
        *self.answers.entry(number).or_default() += 1;
    }
}

/// Each kind that occurs counts once.
fn add_kinds<'a>(counts: &mut BTreeMap<u32, usize>, items: impl Iterator<Item = &'a [u32]>) {
    let kinds: BTreeSet<u32> = items.map(|words| words[0] >> 26).collect();
    for kind in kinds {
        *counts.entry(kind).or_default() += 1;
    }
}

impl fmt::Display for Tally {
    fn fmt(&self, f: &mut fmt::Formatter<'_>) -> fmt::Result {
        writeln!(f, "texts by report kind:{}", Counts(&self.reports))?;
        writeln!(f, "texts by node kind:{}", Counts(&self.nodes))?;
        writeln!(f, "calls by answer (0: done):{}", Counts(&self.answers))?;
        writeln!(f, "texts read to the end: {}, too deep: {}", self.read, self.too_deep)?;
        writeln!(
            f,
            "texts on which the reference panics, compared up to there: {} for want of fuel, \
             {} on a last backslash, {} otherwise",
            self.out_of_fuel, self.last_backslash, self.other_panics
        )
    }
}

struct Counts<'a>(&'a BTreeMap<u32, usize>);

impl fmt::Display for Counts<'_> {
    fn fmt(&self, f: &mut fmt::Formatter<'_>) -> fmt::Result {
        for (number, (kind, count)) in self.0.iter().enumerate() {
            let before = if number % 10 == 0 { "\n " } else { "" };
            write!(f, "{before} {kind}: {count},")?;
        }
        Ok(())
    }
}
