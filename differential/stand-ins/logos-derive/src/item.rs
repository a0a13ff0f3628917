//! What the attributes of an enum say: `#[token(..)]` and `#[regex(..)]` on its variants are rules,
//! `#[logos(error(..))]` names the error type.

use proc_macro::{Delimiter, Group, TokenStream, TokenTree};

pub struct Item {
    pub name: String,
    pub error: String,
    pub rules: Vec<Rule>,
}

pub struct Rule {
    /// `token` or `regex`.
    pub word: String,
    /// The text or pattern, as the literal that is written.
    pub pattern: String,
    /// The path of the variant.
    pub token: String,
    /// An expression; none where the attribute has no callback.
    pub callback: Option<String>,
}

impl Item {
    pub fn read(input: TokenStream) -> Item {
        let mut error = "()".to_string();
        let mut name = String::new();
        let mut tokens = input.into_iter();
        while let Some(token) = tokens.next() {
            match token {
                TokenTree::Group(group) if group.delimiter() == Delimiter::Bracket => {
                    error = error_type(&group).unwrap_or(error);
                }
                TokenTree::Ident(word) if word.to_string() == "enum" => {
                    name = tokens.next().expect("a name follows `enum`").to_string();
                }
                TokenTree::Group(body) if body.delimiter() == Delimiter::Brace => {
                    let rules = variant_rules(&name, &body);
                    return Item { name, error, rules };
                }
                _ => {}
            }
        }
        panic!("Logos is derived for enums only");
    }
}

/// The `E` of `logos(error(E))`.
fn error_type(attribute: &Group) -> Option<String> {
    let (word, arguments) = word_and_arguments(attribute.stream())?;
    if word != "logos" {
        return None;
    }
    let (word, arguments) = word_and_arguments(arguments)?;
    (word == "error").then(|| arguments.to_string())
}

fn variant_rules(name: &str, body: &Group) -> Vec<Rule> {
    let mut attributes = Vec::new();
    let mut rules = Vec::new();
    for token in body.stream() {
        match token {
            TokenTree::Group(group) => attributes.push(group),
            TokenTree::Ident(variant) => {
                let token = format!("{name}::{variant}");
                rules.extend(attributes.drain(..).filter_map(|group| rule(&group, &token)));
            }
            _ => {}
        }
    }
    rules
}

/// `token("text", callback)`.
fn rule(attribute: &Group, token: &str) -> Option<Rule> {
    let (word, arguments) = word_and_arguments(attribute.stream())?;
    if word != "token" && word != "regex" {
        return None;
    }
    let mut arguments = arguments.into_iter();
    let pattern = arguments.next().expect("a pattern").to_string();
    let callback: TokenStream = arguments.skip(1).collect();
    let callback = (!callback.is_empty()).then(|| callback.to_string());
    Some(Rule { word, pattern, token: token.to_string(), callback })
}

/// Splits `word(arguments)`.
fn word_and_arguments(stream: TokenStream) -> Option<(String, TokenStream)> {
    let mut tokens = stream.into_iter();
    let word = tokens.next()?.to_string();
    match tokens.next()? {
        TokenTree::Group(arguments) => Some((word, arguments.stream())),
        _ => None,
    }
}
