//! Texts with a byte order mark in front. The reference calls the mark an invalid character, so it is
//! given what stands behind the mark, and all that it says is moved: offsets by three, token numbers
//! by one (document 01, W4).

use oracle::{End, NODE_WIDTH, Run, Taken, Words};

pub const MARK: char = '\u{feff}';
const MARK_BYTES: u32 = 3;
const WHITESPACE: u32 = 72;
const END_BITS: u32 = 25;

/// The kinds of node whose payload is a token's number: Identifier, BuiltinName, ParamAnyType.
const NAMES: [u32; 3] = [36, 37, 43];
const PAYLOAD_BITS: u32 = 26;

/// For the record of tokens, besides those that have others: a mark before blanks, before a second
/// one, and not in front.
pub const LEXED: &[&str] = &["\u{feff} \n;", "\u{feff}\u{feff}", " \u{feff}"];

/// For the record of trees: nothing behind the mark, a script free of reports, and one with reports,
/// one of them of a second mark.
pub const PARSED: &[&str] =
    &["\u{feff}", "\u{feff}const a = b - (c - @d(\"e\", 1));\r\n", "\u{feff}\u{feff}init { a b }"];

/// The token words of a text.
pub fn lex(text: &str) -> Vec<u32> {
    match text.strip_prefix(MARK) {
        Some(rest) => behind_mark(&oracle::lex(rest)),
        None => oracle::lex(text),
    }
}

/// What is done with a text.
pub fn run(text: &str) -> Run {
    match text.strip_prefix(MARK) {
        Some(rest) => moved(oracle::run(rest)),
        None => oracle::run(text),
    }
}

fn behind_mark(tokens: &[u32]) -> Vec<u32> {
    let moved = tokens.iter().map(|word| word + MARK_BYTES);
    [WHITESPACE << END_BITS | MARK_BYTES].into_iter().chain(moved).collect()
}

fn moved(mut run: Run) -> Run {
    run.tokens = behind_mark(&run.tokens);
    // File is made before anything is skipped; all else is done behind the mark.
    run.steps.iter_mut().skip(1).for_each(|Taken { cursor, .. }| *cursor += 1);
    run.cursor += 1;
    move_reports(&mut run.reports);
    if let End::Read(Words { tokens, nodes, reports, .. }) = &mut run.end {
        tokens.clone_from(&run.tokens);
        nodes.chunks_exact_mut(NODE_WIDTH).enumerate().for_each(move_node);
        move_reports(reports);
    }
    run
}

fn move_node((number, node): (usize, &mut [u32])) {
    let [head, first, end, ..] = node else { unreachable!("a node has {NODE_WIDTH} words") };
    *head += u32::from(NAMES.contains(&(*head >> PAYLOAD_BITS)));
    // File begins with the mark.
    *first += u32::from(number != 0);
    *end += 1;
}

fn move_reports(reports: &mut [u32]) {
    for report in reports.chunks_exact_mut(3) {
        report[1] += MARK_BYTES;
        report[2] += MARK_BYTES;
    }
}

#[cfg(test)]
mod tests {
    use super::{MARK_BYTES, behind_mark, move_reports, moved, run};
    use generate::{ParseTexts, nests};
    use oracle::{End, Run, Words};

    /// What the reference says of a text with a comment in the mark's place: the comment is a byte
    /// longer.
    fn behind_comment(rest: &str) -> Run {
        let mut run = oracle::run(&format!("/**/{rest}"));
        let shorter = |reports: &mut [u32]| {
            for report in reports.chunks_exact_mut(3) {
                report[1] -= 1;
                report[2] -= 1;
            }
        };
        run.tokens = behind_mark(&oracle::lex(rest));
        shorter(&mut run.reports);
        if let End::Read(Words { tokens, reports, .. }) = &mut run.end {
            tokens.clone_from(&run.tokens);
            shorter(reports);
        }
        run
    }

    #[test]
    fn a_mark_is_read_as_a_comment_in_its_place() {
        for text in ParseTexts::new(4).take(3000).chain(nests().step_by(50)) {
            assert_eq!(moved(oracle::run(&text)), behind_comment(&text), "{text:?}");
        }
    }

    #[test]
    fn a_mark_alone() {
        let alone = run("\u{feff}");
        assert_eq!(alone.tokens, [72 << 25 | 3, 81 << 25 | 3]);
        let End::Read(words) = alone.end else { panic!("it is read") };
        assert_eq!((words.nodes, words.reports), (vec![0, 0, 1, 0, 0, 0], vec![]));
    }

    #[test]
    fn reports_are_moved_by_the_mark() {
        let mut reports = [7 << 26, 1, 2];
        move_reports(&mut reports);
        assert_eq!(reports, [7 << 26, 1 + MARK_BYTES, 2 + MARK_BYTES]);
    }
}
