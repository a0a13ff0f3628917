use generate::{
    KEYWORDS, OPERATORS, ParseTexts, Rng, TOKENS, Texts, long_texts, nests, script,
    short_byte_texts, short_rows, short_strings, short_texts, texts_around_the_limit,
};
use oracle::{End, NODE_WIDTH};
use std::collections::HashSet;

const BLOCK_COMMENT: u32 = 74;
const UNCLOSED_BLOCK_COMMENT_ERROR: u32 = 79;
const EOF: u32 = 81;

fn token_kinds(text: &str) -> impl Iterator<Item = u32> {
    oracle::lex(text).into_iter().map(|word| word >> 25)
}

#[test]
fn scripts_are_free_of_reports() {
    let mut rng = Rng::new(1);
    for _ in 0..2000 {
        let text = script(&mut rng);
        let words = oracle::try_read(&text).expect("no panic of the reference");
        assert_eq!(words.reports, [], "{text}");
    }
}

#[test]
fn a_seed_gives_the_same_texts() {
    let texts = |seed| Texts::new(seed).take(500).collect::<Vec<_>>();
    assert_eq!(texts(7), texts(7));
    assert_ne!(texts(7), texts(8));
}

#[test]
fn tokens_cover_every_kind() {
    let kinds: HashSet<u32> = TOKENS.iter().flat_map(|token| token_kinds(token)).collect();
    assert_eq!(kinds, (0..=EOF).collect());
}

#[test]
fn operators_and_keywords_are_those_of_the_kinds() {
    let kinds = |spellings: &[&str]| -> Vec<u32> {
        spellings
            .iter()
            .flat_map(|spelling| token_kinds(spelling))
            .filter(|kind| *kind != EOF)
            .collect()
    };
    assert_eq!(kinds(OPERATORS), (0..=40).collect::<Vec<_>>());
    assert_eq!(kinds(KEYWORDS), (41..=64).collect::<Vec<_>>());
}

#[test]
fn texts_are_of_all_sorts() {
    let texts: Vec<Vec<u8>> = Texts::new(1).take(5000).collect();
    let strings: Vec<&str> = texts.iter().filter_map(|text| str::from_utf8(text).ok()).collect();
    assert!(texts.len() - strings.len() > 200, "not UTF-8");
    let kinds: HashSet<u32> = strings.iter().flat_map(|text| token_kinds(text)).collect();
    assert_eq!(kinds, (0..=EOF).collect());
}

#[test]
fn the_limit_is_met_from_both_sides() {
    let lengths: HashSet<usize> = texts_around_the_limit().map(|text| text.len()).collect();
    assert!(lengths.contains(&65_536) && lengths.contains(&65_537));
    let is_bad = |text: &Vec<u8>| str::from_utf8(text).is_err();
    assert!(texts_around_the_limit().any(|text| text.len() > 65_536 && is_bad(&text)));
    assert!(texts_around_the_limit().any(|text| text.len() == 65_536 && !is_bad(&text)));
    let is_marked = |text: &Vec<u8>| text.starts_with("\u{feff}".as_bytes()) && !is_bad(text);
    for length in [65_536, 65_537] {
        assert!(texts_around_the_limit().any(|text| text.len() == length && is_marked(&text)));
    }
}

#[test]
fn comments_are_opened_as_often_as_may_be() {
    let texts: HashSet<Vec<u8>> = texts_around_the_limit().collect();
    let nested = |opened, closed| ["/*".repeat(opened), "*/".repeat(closed)].concat();
    let alternating = "/*/".repeat(65_536 / 3) + "/";
    for (text, kind) in [
        (nested(32_768, 0), UNCLOSED_BLOCK_COMMENT_ERROR),
        (nested(32_767, 1), UNCLOSED_BLOCK_COMMENT_ERROR),
        (nested(16_384, 16_384), BLOCK_COMMENT),
        (alternating, UNCLOSED_BLOCK_COMMENT_ERROR),
    ] {
        assert_eq!(text.len(), 65_536);
        assert_eq!(token_kinds(&text).collect::<Vec<_>>(), [kind, EOF]);
        assert!(texts.contains(text.as_bytes()));
    }
}

#[test]
fn short_texts_are_all_there() {
    let characters = 1 + 136 + 136_usize.pow(2) + 99_usize.pow(3) + 36_usize.pow(4);
    assert_eq!(short_texts().count(), characters);
    let bytes = 1 + 256 + 256_usize.pow(2) + 24_usize.pow(3) + 24_usize.pow(4);
    assert_eq!(short_byte_texts().count(), bytes);
    for text in ["", "é", "==>", "hex\"", "0b1_", "//\r;", "/**/"] {
        assert!(short_texts().any(|short| short == text.as_bytes()), "{text:?}");
    }
}

#[test]
fn a_seed_gives_the_same_parse_texts() {
    let texts = |seed| ParseTexts::new(seed).take(500).collect::<Vec<_>>();
    assert_eq!(texts(7), texts(7));
    assert_ne!(texts(7), texts(8));
}

#[test]
fn parse_texts_have_every_kind_of_node_and_report() {
    let (mut nodes, mut reports) = (HashSet::new(), HashSet::new());
    for text in ParseTexts::new(1).take(4000) {
        let run = oracle::run(&text);
        reports.extend(run.reports.chunks(3).map(|report| report[0] >> 26));
        if let End::Read(words) = run.end {
            nodes.extend(words.nodes.chunks(NODE_WIDTH).map(|node| node[0] >> 26));
        }
    }
    assert_eq!(nodes, (0..50).collect());
    // Kind 16 is not the reference's.
    assert_eq!(reports, (1..16).collect());
}

#[test]
fn nests_meet_the_depth_from_both_sides() {
    let ends: Vec<End> = nests().step_by(7).map(|text| oracle::run(&text).end).collect();
    assert!(ends.iter().filter(|end| **end == End::TooDeep).count() > 100);
    assert!(ends.iter().filter(|end| matches!(end, End::Read(_))).count() > 100);
}

#[test]
fn rows_strings_and_long_texts() {
    assert_eq!(short_rows().count(), 46 * (1 + 54 + 54 * 54));
    assert_eq!(short_strings().count(), (8_usize.pow(6) - 1) / 7 + (8_usize.pow(5) - 1) / 7);
    assert!(long_texts().all(|text| (65_000..=65_536).contains(&text.len())));
}
