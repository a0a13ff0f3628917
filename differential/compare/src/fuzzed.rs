//! Texts that fuzzing found (crate `fuzz`), made as small as they can be. Each takes the reference
//! a way that no other recorded text takes: a branch, as the compiler counts them in its files, or
//! a family of nodes or row of reports (`read/features.rs`).

/// Ways of lexing: most have a character of two, three or four bytes where the reference looks for
/// the end of a comment, a number or a string.
pub const LEXED: &[&str] = &[
    "//木", "//𝄞", "//a木", "//a𝄞", "//\né", "//\n木", "//\n𝄞", "/**é", "/**木", "/**𝄞", "/*/木",
    "0b1é", "0b1木", "0b1𝄞", "0b1aé", "0b1a木", "0xaé", "0x1木", "0xaaé", "0xaa木", "0xaa𝄞",
    "\";\\", "\"\\木", "\"\\𝄞", "\"a\\𝄞", "hex\"木", "hex\"a𝄞", "hex\"a\r",
];

/// Ways of parsing.
pub const PARSED: &[&str] = &[
    // Digits and characters of each length at places of an escape and of a hex string, what is
    // unexpected at the same token as before, what is missing before which declaration, `pub`
    // behind what starts none, `eager` behind a field, a third branch without a block.
    "const a use;init\"\"hex\"a𝄞\"",
    "const hex\"木\"\"\\xa木\"const struct{a{}eager",
    "run\"木\"\"\\aé\"init{hex\"aD\"\"\\xé\"\"\\x木\"\"\\x𝄞\"\"\\𝄞\\x1A\"",
    "init\"\\xw1𝄞\"\"\\x1a\"]pub use a@a;run\"\\xa𝄞\"",
    "run{let:init\"\"/*",
    "const if else if else if\"é𝄞\\xa 木\"\"\\xF\"",
    "const\"éé\"const a run hex\"1é\"\"\\a木\"@",
    // Families of nodes and rows of reports.
    "run{a((),\"\",(",
    "const(struct\"\"(tuple{a,true",
    "init{tuple@_,Self",
    "run((()),",
    "const fn comptime@a@",
    "run(1.",
];
