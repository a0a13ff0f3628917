//! One text, lent slices of several lengths.

use crate::{
    accents, library,
    read::{
        answer::{Answer, Lent},
        fault::Fault,
        lengths::{all_lent, lent_for, lent_to_unreadable},
        tally::Tally,
    },
};
use oracle::{End, Lengths, Run};
use std::fmt;

/// A call whose answer isn't the reference's.
pub struct Difference {
    lent: Lent,
    expected: Expected,
    found: Answer,
}

enum Expected {
    Answer(Answer),
    /// Where the reference panicked: what was expected up to there.
    Start(String),
}

pub fn first_difference(text: &str, fault: Option<Fault>, tally: &mut Tally) -> Option<Difference> {
    let run = fault.map_or_else(|| accents::run(text), |fault| fault.run(text));
    tally.add_text(&run);
    let mut all = all_lent(text, &run).into_iter();
    let difference = all.find_map(|lent| difference_at(text, &run, lent, fault, tally));
    difference.or_else(|| difference_in_start(text, &run))
}

/// The same for a text that is too long or isn't UTF-8: `read` refuses it whatever is lent.
pub fn first_difference_unreadable(
    text: &[u8],
    fault: Option<Fault>,
    tally: &mut Tally,
) -> Option<Difference> {
    lent_to_unreadable(text).into_iter().find_map(|lent| {
        let mut expected = Answer::unreadable(text, lent)?;
        if let Some(fault) = fault {
            fault.plant_in_answer(&[], &mut expected);
        }
        tally.add_call(expected.number);
        let found = library::read(text, lent);
        let is_same = expected == found;
        (!is_same).then_some(Difference { lent, expected: Expected::Answer(expected), found })
    })
}

fn difference_at(
    text: &str,
    run: &Run,
    lent: Lent,
    fault: Option<Fault>,
    tally: &mut Tally,
) -> Option<Difference> {
    let mut expected = Answer::expected(run, lent)?;
    if let Some(fault) = fault {
        fault.plant_in_answer(&run.tokens, &mut expected);
    }
    tally.add_call(expected.number);
    let found = library::read(text.as_bytes(), lent);
    let expected = Expected::Answer(expected);
    let is_same = matches!(&expected, Expected::Answer(answer) if *answer == found);
    (!is_same).then_some(Difference { lent, expected, found })
}

/// Where the reference panics it must be by a known exception, and what it made before must be
/// what the library makes first.
fn difference_in_start(text: &str, run: &Run) -> Option<Difference> {
    let End::Panicked(message) = &run.end else { return None };
    let lent = lent_for(run, plenty(run));
    let found = library::read(text.as_bytes(), lent);
    let mut reports = run.reports.clone();
    let wanted = match Exception::of(message) {
        None => format!("no panic: {message}"),
        Some(exception) => {
            if exception == Exception::Backslash {
                reports.extend(last_backslash(run));
            }
            let goes_on = found.number == 0
                && found.tokens == run.tokens
                && found.values.starts_with(&run.values)
                && found.reports.starts_with(&reports);
            // What follows may be too deep.
            let is_refused = found.number == 3 && found.place >= run.cursor;
            if found.stayed_inside && (goes_on || is_refused) {
                return None;
            }
            format!("values {:?} and reports {reports:?} at first", run.values)
        }
    };
    Some(Difference { lent, expected: Expected::Start(wanted), found })
}

/// Enough for any text with these tokens that isn't too deep.
fn plenty(run: &Run) -> Lengths {
    let Lengths { nodes, values, reports } = run.need();
    let more = 40 * run.tokens.len() + 1000;
    Lengths { nodes: nodes + more, values: values + more, reports: reports + more }
}

/// The panics that document 01 knows of.
#[derive(Debug, Clone, Copy, PartialEq, Eq)]
pub enum Exception {
    Backslash,
    Fuel,
}

impl Exception {
    pub fn of(message: &str) -> Option<Exception> {
        match message {
            "lexer guarantees backslash not end" => Some(Exception::Backslash),
            "out of fuel: likely caused by infinite loop" => Some(Exception::Fuel),
            _ => None,
        }
    }
}

/// Kind 16 over the last byte before the closing quote of the string at the cursor.
fn last_backslash(run: &Run) -> [u32; 3] {
    let end = run.tokens[run.cursor as usize] & 0x1ff_ffff;
    [16 << 26, end - 2, end - 1]
}

impl fmt::Display for Difference {
    fn fmt(&self, f: &mut fmt::Formatter<'_>) -> fmt::Result {
        let Lengths { nodes, values, reports } = self.lent.rest;
        let tokens = self.lent.tokens;
        writeln!(
            f,
            "  lent {tokens} token, {nodes} node, {values} value and {reports} report words"
        )?;
        match &self.expected {
            Expected::Start(wanted) => {
                writeln!(f, "  expected {wanted}\n  found    {}", Shown(&self.found))
            }
            Expected::Answer(expected) => {
                writeln!(f, "  expected {}", Shown(expected))?;
                writeln!(f, "  found    {}", Shown(&self.found))?;
                show_words(f, "token", &expected.tokens, &self.found.tokens)?;
                show_words(f, "node", &expected.nodes, &self.found.nodes)?;
                show_words(f, "value", &expected.values, &self.found.values)?;
                show_words(f, "report", &expected.reports, &self.found.reports)
            }
        }
    }
}

struct Shown<'a>(&'a Answer);

impl fmt::Display for Shown<'_> {
    fn fmt(&self, f: &mut fmt::Formatter<'_>) -> fmt::Result {
        let Answer { number, place, counts, stayed_inside, .. } = self.0;
        write!(f, "number {number} place {place}")?;
        if *number == 0 {
            write!(f, " counts {counts:?}")?;
        }
        if !stayed_inside {
            write!(f, ", words written outside the slices")?;
        }
        Ok(())
    }
}

/// The first word in which two slices differ.
fn show_words(
    f: &mut fmt::Formatter<'_>,
    sort: &str,
    expected: &[u32],
    found: &[u32],
) -> fmt::Result {
    match expected.iter().zip(found).position(|(a, b)| a != b) {
        None => Ok(()),
        Some(at) => {
            let (expected, found) = (expected[at], found[at]);
            writeln!(f, "  {sort} word {at}: expected {expected:#010x}, found {found:#010x}")
        }
    }
}

#[cfg(test)]
mod tests {
    use super::{End, Exception, Tally, accents, first_difference};

    #[test]
    fn what_follows_a_panic_may_be_too_deep() {
        let text = format!("init {}\"\\x1\\\\\"{}", "{".repeat(120), "(".repeat(60));
        let End::Panicked(message) = accents::run(&text).end else { panic!("no panic") };
        assert_eq!(Exception::of(&message), Some(Exception::Backslash));
        let mut tally = Tally::default();
        assert!(first_difference(&text, None, &mut tally).is_none());
    }
}
