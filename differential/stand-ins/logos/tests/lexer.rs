//! What document 01 says of the lexing crate, on a small token type.

use logos::{Lexer, Logos};

#[derive(Logos, Debug, Clone, Copy, PartialEq, Default)]
#[logos(error(Token))]
enum Token {
    #[token("=")]
    Equals,
    #[token("==")]
    DoubleEquals,
    #[token("if")]
    If,
    #[regex("[a-z_][a-z0-9_]*")]
    Name,
    #[regex("[0-9]", take::<2>)]
    Three,
    #[token("!", refuse)]
    Never,
    #[regex("[ \t]+")]
    Blank,
    #[default]
    Invalid,
    Refused,
}

fn take<const BYTES: usize>(lexer: &mut Lexer<Token>) {
    lexer.bump(BYTES.min(lexer.remainder().len()));
}

fn refuse(_: &mut Lexer<Token>) -> Result<(), Token> {
    Err(Token::Refused)
}

fn tokens(text: &str) -> Vec<(Result<Token, Token>, usize)> {
    let mut lexer = Token::lexer(text);
    let mut tokens = Vec::new();
    while let Some(token) = lexer.next() {
        tokens.push((token, lexer.span().end));
    }
    tokens
}

#[test]
fn the_longest_match_wins() {
    use Token::{DoubleEquals, Equals, If, Name};
    assert_eq!(tokens("==="), [(Ok(DoubleEquals), 2), (Ok(Equals), 3)]);
    assert_eq!(tokens("iff=if"), [(Ok(Name), 3), (Ok(Equals), 4), (Ok(If), 6)]);
}

#[test]
fn a_token_beats_a_regex_of_equal_length() {
    assert_eq!(tokens("if"), [(Ok(Token::If), 2)]);
}

#[test]
fn an_unmatched_character_is_one_error() {
    let error = Err(Token::Invalid);
    assert_eq!(tokens("é#a"), [(error, 2), (error, 3), (Ok(Token::Name), 4)]);
}

#[test]
fn callbacks_lengthen_and_refuse() {
    let (three, refused) = (Ok(Token::Three), Err(Token::Refused));
    assert_eq!(tokens("1  !"), [(three, 3), (refused, 4)]);
}

#[test]
fn the_end_has_an_empty_span() {
    let mut lexer = Token::lexer("a ");
    assert_eq!(lexer.by_ref().count(), 2);
    assert_eq!((lexer.next(), lexer.span()), (None, 2..2));
}
