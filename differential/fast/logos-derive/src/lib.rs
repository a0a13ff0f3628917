//! The derive of the fast `logos` stand-in: makes one machine of the rules on the variants of an
//! enum, and a function of each of its states.

#[path = "../../../stand-ins/logos-derive/src/item.rs"]
mod item;
mod machine;
mod pattern;

use item::{Item, Rule};
use machine::{Machine, State, Stop};
use proc_macro::TokenStream;

#[proc_macro_derive(Logos, attributes(logos, token, regex))]
pub fn derive_logos(input: TokenStream) -> TokenStream {
    let Item { name, error, rules } = Item::read(input);
    let machine = Machine::of(&rules.iter().map(pattern::pieces).collect::<Vec<_>>());
    let write = |(number, state)| state_function(&name, &error, &rules, number, state);
    let states: String = machine.states.iter().enumerate().map(write).collect();
    format!(
        "impl ::logos::Logos for {name} {{
            type Error = {error};
            #[inline]
            fn take(lexer: &mut ::logos::Lexer<'_, Self>) -> Result<Self, {error}> {{
                {states}
                let at = lexer.span().start;
                state_0(lexer, at)
            }}
        }}"
    )
    .parse()
    .expect("the generated implementation parses")
}

fn state_function(name: &str, error: &str, rules: &[Rule], number: usize, state: &State) -> String {
    let ways =
        state.ways.iter().filter(|(to, _)| *to != number).map(|(to, bytes)| {
            format!("Some({}) => state_{to}(lexer, at + 1),", alternatives(bytes))
        });
    let ways: String = ways.collect();
    let stay = state.ways.iter().find(|(to, _)| *to == number);
    let stay = stay.map_or(String::new(), |(_, bytes)| stay_loop(bytes));
    let stop = stop(&state.stop, rules);
    format!(
        "#[inline]
        fn state_{number}(
            lexer: &mut ::logos::Lexer<'_, {name}>, mut at: usize,
        ) -> Result<{name}, {error}> {{
            let _ = &mut at;
            {stay}
            match lexer.byte(at) {{ {ways} _ => {stop} }}
        }}"
    )
}

/// Passes the bytes that lead back to the state itself.
fn stay_loop(bytes: &[u8]) -> String {
    let table: Vec<bool> = (0..=255).map(|byte| bytes.contains(&byte)).collect();
    format!(
        "static STAY: [bool; 256] = {table:?};
        while lexer.byte(at).is_some_and(|byte| STAY[usize::from(byte)]) {{ at += 1; }}"
    )
}

fn stop(stop: &Stop, rules: &[Rule]) -> String {
    let Stop::Rule { number, back } = stop else {
        return "{ lexer.end_behind_character(); Err(Default::default()) }".to_string();
    };
    let Rule { token, callback, .. } = &rules[*number];
    let settled = match callback {
        Some(callback) => format!("::logos::Outcome::settle({callback}(lexer), {token})"),
        None => format!("Ok({token})"),
    };
    format!("{{ lexer.end_at(at - {back}); {settled} }}")
}

/// A pattern of ranges.
fn alternatives(bytes: &[u8]) -> String {
    let mut ranges: Vec<(u8, u8)> = Vec::new();
    for byte in bytes {
        match ranges.last_mut() {
            Some((_, high)) if *high + 1 == *byte => *high = *byte,
            _ => ranges.push((*byte, *byte)),
        }
    }
    ranges.iter().map(|(low, high)| format!("{low}..={high}")).collect::<Vec<_>>().join(" | ")
}
