//! Where short rows stand, and which tokens they are made of.

use derive::{OTHERS, SPELLINGS};

pub struct Place {
    pub name: &'static str,
    pub before: &'static str,
    pub behind: &'static str,
    /// Tokens, by their spelling; all where none is named.
    pub alphabet: &'static str,
    /// All rows of up to so many tokens.
    pub length: usize,
    /// So many tokens more where a row can be the beginning of one that the chart derives.
    pub longer: usize,
}

pub const PLACES: [Place; 19] = [
    place("files, all tokens", "", "", "", 3, 2),
    place("statements, all tokens", "init {", "}", "", 3, 1),
    place("values, all tokens", "const a =", ";", "", 3, 1),
    place("files", "", "", "init const use pub as a 1 = ; : :: * { } ,", 5, 4),
    place("declarations", "", "", "run const use a = ; :: { } ,", 6, 4),
    place(
        "statements",
        "init {",
        "}",
        "a { } ( ) ; , . = - : if else comptime match while =>",
        5,
        2,
    ),
    place(
        "short statements",
        "init {",
        "}",
        "a { } ; = let mut comptime return inline while :",
        5,
        3,
    ),
    place("values", "const a =", ";", "a 1 { } ( ) , . : - + ! if comptime struct \"s\"", 5, 1),
    place("operators", "const a =", ";", "a - ! + * == < | ^ & << and or && = . ( )", 5, 2),
    place("after an operand", "const a = a", ";", "{ } ( ) a : , . 1 +", 6, 2),
    place("conditions", "init { if a", "}", "{ } ( ) a : , else if ;", 6, 2),
    place("after a block", "init { { }", "}", "{ } ( ) a . ; = - ! comptime", 5, 2),
    place("after comptime", "init { comptime", "}", "{ } ( ) a . ; = - let :", 5, 3),
    place("functions", "const a = fn", ";", "( ) a : , $ comptime { }", 6, 4),
    place("parameters", "const a = fn (", ") a { } ;", "a : , $ comptime @b { } (", 6, 4),
    place("struct bodies", "const a = struct {", "} ;", "a : , fn ( ) { } eager", 6, 4),
    place("after a method", "const a = struct { fn a ( ) a { }", "} ;", "a : , fn ( ) { } ;", 6, 4),
    place("match arms", "const a = match a {", "} ;", "a 1 => , else { } :", 6, 3),
    place("imports", "use a ::", "", "a :: { } , as * ;", 7, 4),
];

const fn place(
    name: &'static str,
    before: &'static str,
    behind: &'static str,
    alphabet: &'static str,
    length: usize,
    longer: usize,
) -> Place {
    Place { name, before, behind, alphabet, length, longer }
}

/// One spelling of each kind that is no trivia.
pub fn all_spellings() -> Vec<&'static str> {
    SPELLINGS.into_iter().chain(OTHERS.map(|(_, spelling)| spelling)).collect()
}
