//! The two lexers answer alike.

use plank::{MAX_TEXT, Refusal, lexer::SourceByteOffset, raw};

/// Stands in no answer.
const FILL: u32 = 0xa5a5_a5a5;

/// What both answer, into slices of so many words.
#[track_caller]
fn lexed(text: &[u8], lent: usize) -> Result<usize, Refusal> {
    let (mut tokens, mut others) = (vec![FILL; lent], vec![FILL; lent]);
    let answer = raw::lex(text, &mut tokens);
    assert_eq!(raw::lex_branching(text, &mut others), answer);
    assert_eq!(others, tokens);
    answer
}

#[test]
fn good_texts_have_the_same_tokens() {
    assert_eq!(lexed(b"", 1), Ok(1));
    assert_eq!(lexed(b"const a = 1;", 9), Ok(9));
    assert_eq!(lexed("\u{feff}const a = \"é\" -/ 0x1_f; // b".as_bytes(), 40), Ok(16));
}

#[test]
fn malformed_tokens_are_the_same() {
    for text in ["0xg", "1_0 1a", "aé", "@ @a", "\"a\nb\"", "\"a", "/* /* */", "hex\"1"] {
        for lent in 0..9 {
            let _ = lexed(text.as_bytes(), lent);
        }
    }
}

#[test]
fn refusals_are_the_same() {
    let offset = SourceByteOffset::new(1);
    assert_eq!(lexed(b"a\xff", 9), Err(Refusal::NotUtf8Start { offset }));
    assert_eq!(lexed(b"a\xe2\x82b", 9), Err(Refusal::NotUtf8Later { offset }));
    assert_eq!(lexed(b"a\xe2\x82", 9), Err(Refusal::NotUtf8Cut { offset }));
    assert_eq!(lexed(&vec![b' '; MAX_TEXT + 1], 9), Err(Refusal::TooLong));
    assert_eq!(lexed(b"const a = 1;", 8), Err(Refusal::TokensDontFit { needed: 9 }));
    assert_eq!(lexed(b"", 0), Err(Refusal::TokensDontFit { needed: 1 }));
}
