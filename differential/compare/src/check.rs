//! One text, both lexers, lent slices of several lengths.

use crate::{
    answer::{Answer, Reference},
    fault::Fault,
    library::Lexer,
};
use std::fmt;

/// A call whose answer isn't the reference's.
struct Difference {
    lexer: Lexer,
    lent: usize,
    expected: Answer,
    found: Answer,
}

/// The first difference of each lexer that has one.
pub struct Differences(Vec<Difference>);

impl Differences {
    /// None where both lexers answer as the reference does.
    pub fn of(text: &[u8], fault: Option<Fault>) -> Option<Differences> {
        let reference = Reference::of(text, fault);
        let first = |lexer| first_difference(text, fault, &reference, lexer);
        let all: Vec<Difference> = Lexer::BOTH.into_iter().filter_map(first).collect();
        (!all.is_empty()).then_some(Differences(all))
    }

    pub fn is_of(&self, lexer: Lexer) -> bool {
        self.0.iter().any(|difference| difference.lexer == lexer)
    }
}

fn first_difference(
    text: &[u8],
    fault: Option<Fault>,
    reference: &Reference,
    lexer: Lexer,
) -> Option<Difference> {
    lent_lengths(text, reference).into_iter().find_map(|lent| {
        let expected = reference.answer(lent);
        let mut found = lexer.lex(text, lent);
        if let Some(fault) = fault {
            fault.alter(lexer, text, &mut found.words);
        }
        (expected != found).then_some(Difference { lexer, lent, expected, found })
    })
}

/// Exactly long enough, one short, none, and some longer. Where the text is refused, a slice
/// of one word a byte and one for Eof counts as long enough.
fn lent_lengths(text: &[u8], reference: &Reference) -> [usize; 4] {
    let enough = match reference {
        Reference::Tokens(tokens) => tokens.len(),
        Reference::Refused { .. } => text.len() + 1,
    };
    [enough, enough - 1, 0, enough + 1 + text.len() % 61]
}

impl fmt::Display for Differences {
    fn fmt(&self, f: &mut fmt::Formatter<'_>) -> fmt::Result {
        let all: Vec<String> = self.0.iter().map(Difference::to_string).collect();
        f.write_str(&all.join("\n"))
    }
}

impl fmt::Display for Difference {
    fn fmt(&self, f: &mut fmt::Formatter<'_>) -> fmt::Result {
        writeln!(f, "  {}, lent {} words", self.lexer, self.lent)?;
        writeln!(f, "  expected {}", Shown(&self.expected))?;
        write!(f, "  found    {}", Shown(&self.found))
    }
}

struct Shown<'a>(&'a Answer);

impl fmt::Display for Shown<'_> {
    fn fmt(&self, f: &mut fmt::Formatter<'_>) -> fmt::Result {
        const MOST_WORDS: usize = 12;
        let Answer { number, value, words, stayed_inside } = self.0;
        write!(f, "number {number} value {value}, (kind end)")?;
        for word in words.iter().take(MOST_WORDS) {
            write!(f, " ({} {})", word >> 25, word & 0x1ff_ffff)?;
        }
        if words.len() > MOST_WORDS {
            write!(f, " ..")?;
        }
        if !stayed_inside {
            write!(f, ", words written outside the slice")?;
        }
        Ok(())
    }
}

#[cfg(test)]
mod tests {
    use super::Differences;
    use crate::{fault::Fault, library::Lexer};

    /// Which lexers differ.
    fn differing(text: &str, fault: Option<Fault>) -> Vec<Lexer> {
        let differences = Differences::of(text.as_bytes(), fault);
        let is_of = |lexer: &Lexer| differences.as_ref().is_some_and(|all| all.is_of(*lexer));
        Lexer::BOTH.into_iter().filter(is_of).collect()
    }

    #[test]
    fn a_fault_of_the_reference_shows_in_both() {
        assert_eq!(differing("//a\rb", Some(Fault::Return)), Lexer::BOTH);
        assert_eq!(differing("//a\rb", None), []);
    }

    #[test]
    fn a_fault_of_the_tables_shows_in_them_alone() {
        for text in ["1_0", "0_", "\u{feff}a = 1__;", "a 1_2 b"] {
            assert_eq!(differing(text, Some(Fault::Underscore)), [Lexer::Tables], "{text:?}");
            assert_eq!(differing(text, None), []);
        }
        for text in ["", "10", "0x1_0", "0b1_0", "a_1", "_1", "1_a", "\"1_0\"", "//1_0"] {
            assert_eq!(differing(text, Some(Fault::Underscore)), [], "{text:?}");
        }
    }

    #[test]
    fn the_report_says_which_lexer() {
        let shown =
            |text: &str, fault| Differences::of(text.as_bytes(), Some(fault)).unwrap().to_string();
        let tables = "  tables, lent 2 words
  expected number 0 value 2, (kind end) (67 3) (81 3)
  found    number 0 value 2, (kind end) (77 3) (81 3)";
        assert_eq!(shown("1_0", Fault::Underscore), tables);
        let both = shown("//a\rb", Fault::Return);
        assert!(
            both.contains("  tables, lent 3 words\n")
                && both.contains("\n  branching, lent 3 words\n")
        );
    }
}
