//! Writes a fixed sample of the reference's trees, for a replay by another program.
//!
//! All numbers are 4 bytes, least first: the number of records; then for each the length of
//! the text, its bytes padded with 0 to a multiple of 4, the numbers of node, value and report
//! words, those words, the number of tries, and for each try five numbers: how many node, value
//! and report words are lent, and the refusal's number and place; 0 and 0 where it is done.

use crate::{
    accents, fuzzed, mark,
    read::{corners::CORNERS, features::features, lengths::lengths},
    record::{number, save},
};
use generate::ParseTexts;
use oracle::{End, Lengths, Refusal, Run, Words};
use std::{collections::HashSet, panic, path::Path, process::ExitCode};

/// So many bytes without those texts that fuzzing found.
const MOST_BYTES: usize = 205_500;
const LONGEST_TEXT: usize = 300;
const GENERATED: usize = 12_000;
const MOST_TRIES: usize = 8;
const SEED: u64 = 1;

const LAST_BACKSLASH: &str = "const z = \"\\x1\\\\\";";

pub fn write(file: &Path) -> ExitCode {
    // Texts on which the reference panics are passed over.
    panic::set_hook(Box::new(|_| {}));
    let records = sample();
    save(file, records.len(), &encode(&records))
}

/// The chosen and generated texts, then those that fuzzing found, those with a byte order mark, and
/// those with strings that are not ASCII.
fn sample() -> Vec<Record> {
    let mut records = chosen_and_generated();
    let later = fuzzed::PARSED.iter().chain(mark::PARSED).chain(accents::PARSED);
    records.extend(later.filter_map(|text| Record::of(text)));
    records
}

/// The corners, then every text of a large pool that shows something new, as long as there is
/// room.
fn chosen_and_generated() -> Vec<Record> {
    let corners = CORNERS.iter().map(|text| text.to_string()).chain(deep_texts());
    let mut records: Vec<Record> = corners.filter_map(|text| Record::of(&text)).collect();
    records.push(last_backslash());
    let mut seen: HashSet<_> = records.iter().flat_map(|record| record.features()).collect();
    let mut room = MOST_BYTES - encode(&records).len();
    for text in pool() {
        let Some(record) = Record::of(&text) else { continue };
        let size = record.bytes().len();
        let new: Vec<_> = record.features().filter(|one| !seen.contains(one)).collect();
        if !new.is_empty() && size <= room {
            room -= size;
            seen.extend(new);
            records.push(record);
        }
    }
    records
}

/// Short texts first.
fn pool() -> Vec<String> {
    let generated = ParseTexts::new(SEED).take(GENERATED);
    let mut texts: Vec<String> = generated.filter(|text| text.len() <= LONGEST_TEXT).collect();
    texts.sort_by_key(|text| (text.len(), text.clone()));
    texts
}

/// One reading more than is allowed, entered from each sort of place.
fn deep_texts() -> impl Iterator<Item = String> {
    let in_brackets = |inner: &str| format!("const a={}{inner}", "(".repeat(255));
    let inner = ["(", "f(", "-a", "a+b", "{", "{}", "tuple{", "if a{", "comptime {"];
    let blocks = ["{", "{ "].map(|brace| format!("init {}", brace.repeat(129)));
    inner.map(in_brackets).into_iter().chain(blocks)
}

/// The texts of the sample.
pub fn texts() -> Vec<String> {
    sample().into_iter().map(|record| record.text).collect()
}

struct Record {
    text: String,
    run: Run,
}

impl Record {
    /// None where the reference panics.
    fn of(text: &str) -> Option<Record> {
        let run = accents::run(text);
        let is_answered = !matches!(run.end, End::Panicked(_));
        is_answered.then(|| Record { text: text.to_string(), run })
    }

    fn features(&self) -> impl Iterator<Item = [u32; 3]> {
        features(&self.run).into_iter()
    }

    fn bytes(&self) -> Vec<u8> {
        let mut bytes = number(self.text.len()).to_vec();
        bytes.extend(self.text.as_bytes());
        bytes.resize(bytes.len().next_multiple_of(4), 0);
        let none = Words::default();
        let words = if let End::Read(words) = &self.run.end { words } else { &none };
        let parts = [&words.nodes, &words.values, &words.reports];
        bytes.extend(parts.iter().flat_map(|part| number(part.len())));
        bytes.extend(parts.into_iter().flatten().flat_map(|word| word.to_le_bytes()));
        let tries = self.tries();
        bytes.extend(number(tries.len()));
        bytes.extend(tries.into_iter().flat_map(|lent| self.try_bytes(lent)));
        bytes
    }

    /// The fixed lengths, and some of those that are drawn.
    fn tries(&self) -> Vec<Lengths> {
        let mut tries = lengths(&self.text, self.run.need());
        tries.truncate(MOST_TRIES);
        tries
    }

    fn try_bytes(&self, lent: Lengths) -> Vec<u8> {
        let done = Refusal { number: 0, place: 0 };
        let Refusal { number: refusal, place } = self.run.refusal(lent).unwrap_or(done);
        let lengths = [lent.nodes, lent.values, lent.reports].map(number);
        [lengths.concat(), refusal.to_le_bytes().to_vec(), place.to_le_bytes().to_vec()].concat()
    }
}

/// The known exception of document 01, `"\x1\\"`: here kinds 12 and 16, no bytes. All else is
/// the reference's for a string that has a report of kind 13 instead of the last.
fn last_backslash() -> Record {
    let mut run = oracle::run("const z = \"\\x1g\\q\";");
    run.reports = vec![12 << 26, 11, 15, 16 << 26, 15, 16];
    if let End::Read(words) = &mut run.end {
        words.reports = run.reports.clone();
    }
    Record { text: LAST_BACKSLASH.to_string(), run }
}

fn encode(records: &[Record]) -> Vec<u8> {
    let mut bytes = number(records.len()).to_vec();
    bytes.extend(records.iter().flat_map(Record::bytes));
    bytes
}

#[cfg(test)]
mod tests {
    use super::*;
    use oracle::NODE_WIDTH;
    use std::sync::LazyLock;

    static SAMPLE: LazyLock<Vec<Record>> = LazyLock::new(sample);

    /// More the replaying program doesn't take.
    const LONGEST_DATA: usize = 229_376;

    fn node_heads(records: &[Record]) -> HashSet<u32> {
        let trees = records.iter().filter_map(|record| match &record.run.end {
            End::Read(words) => Some(&words.nodes),
            _ => None,
        });
        trees.flat_map(|nodes| nodes.chunks(NODE_WIDTH).map(|node| node[0])).collect()
    }

    #[test]
    fn the_sample_has_every_kind_of_node_with_each_flag_and_operator() {
        let heads = node_heads(&SAMPLE);
        let kinds: HashSet<u32> = heads.iter().map(|head| head >> 26).collect();
        assert_eq!(kinds, (0..50).collect());
        let flags = [(1, 1), (2, 2), (3, 1), (4, 1), (10, 3), (31, 1), (32, 1), (38, 1), (39, 1)];
        for (kind, count) in flags {
            for payload in 0..1 << count {
                assert!(heads.contains(&(kind << 26 | payload)), "kind {kind}, flags {payload:b}");
            }
        }
        for (kind, count) in [(15, 25), (16, 3)] {
            for payload in 0..count {
                assert!(heads.contains(&(kind << 26 | payload)), "kind {kind}, number {payload}");
            }
        }
    }

    #[test]
    fn the_sample_has_every_kind_of_report_and_refusal() {
        let reports = SAMPLE.iter().flat_map(|record| record.run.reports.chunks(3));
        let kinds: HashSet<u32> = reports.map(|report| report[0] >> 26).collect();
        // Kind 11 is never made.
        assert_eq!(kinds, (1..=16).filter(|kind| *kind != 11).collect());
        let refusals = SAMPLE.iter().flat_map(|record| {
            let tries = record.tries().into_iter();
            tries.filter_map(|lent| record.run.refusal(lent))
        });
        let numbers: HashSet<u32> = refusals.map(|refusal| refusal.number).collect();
        assert_eq!(numbers, HashSet::from([3, 5, 6, 7]));
    }

    #[test]
    fn the_sample_is_small() {
        assert!((300..1000).contains(&SAMPLE.len()));
        assert!(encode(&SAMPLE).len() <= LONGEST_DATA);
    }

    #[test]
    fn the_sample_ends_with_every_text_that_is_kept_by_hand() {
        let texts: Vec<&str> = SAMPLE.iter().map(|record| record.text.as_str()).collect();
        assert!(texts.ends_with(&[fuzzed::PARSED, mark::PARSED, accents::PARSED].concat()));
    }

    #[test]
    fn the_last_backslash_starts_as_in_the_reference() {
        let run = oracle::run(LAST_BACKSLASH);
        assert!(last_backslash().run.reports.starts_with(&run.reports));
        assert!(last_backslash().run.steps.starts_with(&run.steps));
    }
}
