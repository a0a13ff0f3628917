//! The derive of the `logos` stand-in: turns the rules on the variants of an enum into a list.

mod item;

use item::{Item, Rule};
use proc_macro::TokenStream;

#[proc_macro_derive(Logos, attributes(logos, token, regex))]
pub fn derive_logos(input: TokenStream) -> TokenStream {
    let Item { name, error, rules } = Item::read(input);
    let rules = rules.iter().map(expression).collect::<Vec<_>>().join(", ");
    format!(
        "impl ::logos::Logos for {name} {{
            type Error = {error};
            fn rules() -> &'static [::logos::Rule<Self>] {{
                static RULES: ::std::sync::OnceLock<::std::vec::Vec<::logos::Rule<{name}>>> =
                    ::std::sync::OnceLock::new();
                RULES.get_or_init(|| ::std::vec![{rules}])
            }}
        }}"
    )
    .parse()
    .expect("the generated implementation parses")
}

/// An expression that makes the rule.
fn expression(rule: &Rule) -> String {
    let Rule { word, pattern, token, callback } = rule;
    let plain = format!("::logos::Rule::{word}({pattern}, {token})");
    match callback {
        Some(callback) => {
            format!("{plain}.with(|lexer| ::logos::Outcome::settle({callback}(lexer)))")
        }
        None => plain,
    }
}
