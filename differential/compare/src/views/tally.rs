//! How many answers there were of each sort.

use crate::library::Seen;
use oracle::views::By;
use std::{collections::BTreeMap, fmt, process::ExitCode};

#[derive(Default)]
pub struct Tally {
    pub trees: usize,
    pub changed_trees: usize,
    accessors: BTreeMap<&'static str, Answers>,
    /// Of words that were altered: things, none, refusals.
    altered: [usize; 3],
    /// Of numbers that name no accessor, or no node.
    nowhere: usize,
    differences: usize,
}

/// The answers of one accessor.
#[derive(Default)]
struct Answers {
    told: usize,
    none: usize,
    /// None, as the node has another kind.
    other_kind: usize,
    /// Of those that are told or none, where the reference has no view.
    no_view: usize,
}

impl Tally {
    /// An answer of an accessor; what is not the reference's is counted too.
    pub fn add(&mut self, name: &'static str, by: By, is_told: bool, is_same: bool) {
        let answers = self.accessors.entry(name).or_default();
        match (is_told, by) {
            (_, By::Kind) => answers.other_kind += 1,
            (true, _) => answers.told += 1,
            (false, _) => answers.none += 1,
        }
        answers.no_view += usize::from(by == By::Child);
        self.differences += usize::from(!is_same);
    }

    pub fn add_altered(&mut self, expected: &Seen, is_same: bool) {
        let sort = match expected {
            Seen::Is(_) => 0,
            Seen::None => 1,
            _ => 2,
        };
        self.altered[sort] += 1;
        self.differences += usize::from(!is_same);
    }

    pub fn add_nowhere(&mut self, is_same: bool) {
        self.nowhere += 1;
        self.differences += usize::from(!is_same);
    }

    fn answers(&self) -> usize {
        let all = self.accessors.values();
        let told: usize = all.map(|of| of.told + of.none + of.other_kind).sum();
        told + self.altered.iter().sum::<usize>() + self.nowhere
    }

    /// Prints the last line.
    pub fn end(&self, texts: usize) -> ExitCode {
        println!("{texts} texts, {} answers, {} differences", self.answers(), self.differences);
        if self.differences > 0 { ExitCode::FAILURE } else { ExitCode::SUCCESS }
    }
}

impl fmt::Display for Tally {
    fn fmt(&self, f: &mut fmt::Formatter<'_>) -> fmt::Result {
        writeln!(f, "trees: {}, and {} changed ones", self.trees, self.changed_trees)?;
        writeln!(
            f,
            "answers by accessor (told, none, none of another kind; where the reference has no view):"
        )?;
        for (name, Answers { told, none, other_kind, no_view }) in &self.accessors {
            writeln!(f, "  {name}: {told}, {none}, {other_kind}; {no_view}")?;
        }
        let [told, none, refused] = self.altered;
        writeln!(f, "answers on altered words: {told} told, {none} none, {refused} refused")?;
        writeln!(f, "answers to numbers of no accessor or no node: {}", self.nowhere)
    }
}
