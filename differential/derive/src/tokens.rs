//! The kinds of tokens by number, "declaration order in `Token` from 0" (document 01).

/// Kinds up to this one are spelled in one way.
pub const SPELLINGS: [&str; 65] = [
    ";", ",", ":", ".", "$", "{", "}", "(", ")", "[", "]", "::", "=>", "=", "+", "+%", "-", "-%",
    "*", "*%", "/", "+/", "-/", "</", ">/", "%", "==", "!=", "<", ">", "<=", ">=", "!", "&&", "||",
    "&", "|", "^", "~", "<<", ">>", "if", "else", "fn", "eager", "let", "mut", "const", "init",
    "run", "struct", "tuple", "return", "comptime", "inline", "while", "true", "false", "and",
    "or", "pub", "use", "as", "match", "Self",
];

/// One spelling for each of the other kinds that aren't trivia: name, builtin name, numbers, strings, and error tokens.
pub const OTHERS: [(u8, &str); 11] = [
    (65, "a"),
    (66, "@b"),
    (67, "1"),
    (68, "0x2"),
    (69, "0b1"),
    (70, "\"s\""),
    (71, "hex\"41\""),
    (75, "@"),
    (76, "#"),
    (77, "3q"),
    (78, "\"m\nm\""),
];

/// A set of kinds.
pub type Kinds = u128;

pub fn kind_of(spelling: &str) -> u8 {
    let fixed = SPELLINGS.iter().position(|known| *known == spelling).map(|kind| kind as u8);
    let other = || OTHERS.iter().find(|(_, known)| *known == spelling).map(|(kind, _)| *kind);
    fixed.or_else(other).unwrap_or_else(|| panic!("no token is spelled {spelling}"))
}

pub fn set(kinds: &[u8]) -> Kinds {
    kinds.iter().fold(0, |set, kind| set | 1 << kind)
}

fn spelled(spellings: &[&str]) -> Kinds {
    spellings.iter().fold(0, |set, spelling| set | 1 << kind_of(spelling))
}

/// The classes that the rules name.
pub fn class(name: &str) -> Option<Kinds> {
    let compares = spelled(&["==", "!=", "<", ">", "<=", ">="]);
    let shifts = spelled(&["<<", ">>"]);
    let adds = spelled(&["+", "-", "+%", "-%"]);
    let multiplies = spelled(&["*", "/", "%", "*%", "+/", "-/", "</", ">/"]);
    let single = spelled(&["or", "and", "|", "^", "&"]);
    Some(match name {
        "NAME" => set(&[65]),
        "BUILTIN" => set(&[66]),
        "NUMBER" => set(&[67, 68, 69]),
        "STRING" => set(&[70, 71]),
        "PREFIX" => spelled(&["-", "!", "~"]),
        "COMPARES" => compares,
        "SHIFTS" => shifts,
        "ADDS" => adds,
        "MULTIPLIES" => multiplies,
        "BINARY" => compares | shifts | adds | multiplies | single,
        _ => return None,
    })
}
