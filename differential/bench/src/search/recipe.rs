//! What a text is made of: pieces that stand in front once, and pieces that follow over and over.

use crate::texts::{
    LONGEST,
    worst::{TABLE_ENTRIES, names_in_bucket, spelled},
};
use generate::{Rng, TOKENS};
use std::fmt;

#[derive(Clone)]
pub struct Recipe {
    front: Vec<Part>,
    cycle: Vec<Part>,
}

#[derive(Clone)]
struct Part {
    piece: Piece,
    times: usize,
}

#[derive(Clone, Copy)]
enum Piece {
    Text(&'static str),
    /// A name that didn't stand yet.
    NewName,
    /// The same, in one bucket of the library's table.
    NameInBucket,
}

/// Of what pieces a search may take.
#[derive(Clone, Copy, PartialEq, Eq)]
pub enum Supply {
    /// Fixed pieces, and no more tokens than the library's table of names had room for once.
    Short,
    Texts,
    NewNames,
    NamesInBucket,
}

impl Supply {
    pub const ALL: [Supply; 4] =
        [Supply::Short, Supply::Texts, Supply::NewNames, Supply::NamesInBucket];

    /// The length of its texts.
    pub fn size(self) -> usize {
        if self == Supply::Short { TABLE_ENTRIES - 1 } else { LONGEST }
    }
}

impl fmt::Display for Supply {
    fn fmt(&self, f: &mut fmt::Formatter<'_>) -> fmt::Result {
        f.write_str(match self {
            Supply::Short => "fixed pieces, within the table of names",
            Supply::Texts => "fixed pieces",
            Supply::NewNames => "and new names",
            Supply::NamesInBucket => "and new names in one bucket",
        })
    }
}

/// What opens, parts and closes the things that a script has.
const STRUCTURE: [&str; 44] = [
    "const a = ",
    "const a=1;",
    "init {",
    "run {",
    "use a::{",
    "pub use a;",
    "};",
    "}",
    "{",
    "{}",
    "(",
    ")",
    "()",
    "((((1))))",
    "(a)",
    "a(",
    "a,",
    "a;",
    "a.",
    "a = ",
    "a + ",
    "a::b",
    "a: b,",
    "fn() a {",
    "fn(a: b) c {",
    "struct {",
    "struct { fn a() b {} ",
    "match a {",
    "1 => 2,",
    "if a {",
    "if a {} ",
    "else {",
    "else if a {",
    "while a {",
    "let a = ",
    "let mut a: b = 1;",
    "return ",
    "comptime {",
    "const = 1;",
    "let = ;",
    "a b ",
    "\n    ",
    "7319",
    "7f19",
];

const TIMES: [usize; 12] = [1, 1, 1, 1, 2, 3, 8, 30, 100, 300, 1_000, TABLE_ENTRIES];

/// A cycle has up to so many parts, the front too.
const PARTS: usize = 8;

impl Piece {
    fn drawn(rng: &mut Rng, supply: Supply) -> Self {
        match rng.below(10) {
            8 if matches!(supply, Supply::NewNames | Supply::NamesInBucket) => Piece::NewName,
            9 if supply == Supply::NamesInBucket => Piece::NameInBucket,
            0..6 => Piece::Text(rng.pick(&STRUCTURE)),
            _ => Piece::Text(rng.pick(TOKENS)),
        }
    }
}

impl Part {
    fn drawn(rng: &mut Rng, supply: Supply) -> Self {
        Part { piece: Piece::drawn(rng, supply), times: TIMES[rng.below(TIMES.len())] }
    }
}

impl Recipe {
    pub fn drawn(rng: &mut Rng, supply: Supply) -> Self {
        let (in_front, in_cycle) = (rng.below(3), 1 + rng.below(5));
        let mut parts = |count| (0..count).map(|_| Part::drawn(rng, supply)).collect();
        Recipe { front: parts(in_front), cycle: parts(in_cycle) }
    }

    /// One to three changes.
    pub fn changed(&self, rng: &mut Rng, supply: Supply) -> Self {
        let mut recipe = self.clone();
        for _ in 0..1 + rng.below(3) {
            recipe.change(rng, supply);
        }
        recipe
    }

    fn change(&mut self, rng: &mut Rng, supply: Supply) {
        let (parts, least) =
            if rng.chance(1, 3) { (&mut self.front, 0) } else { (&mut self.cycle, 1) };
        let at = rng.below(parts.len() + 1);
        let has_part = at < parts.len();
        match rng.below(5) {
            0 if has_part => parts[at].piece = Piece::drawn(rng, supply),
            1 if has_part => parts[at].times = TIMES[rng.below(TIMES.len())],
            2 if has_part && least < parts.len() => drop(parts.remove(at)),
            3 if has_part => {
                let other = rng.below(parts.len());
                parts.swap(at, other);
            }
            _ if parts.len() < PARTS => parts.insert(at, Part::drawn(rng, supply)),
            _ => {}
        }
    }

    /// At most so many bytes.
    pub fn text(&self, names: &Names, size: usize) -> String {
        let mut text = String::new();
        let mut taken = [names.new.iter(), names.in_bucket.iter()];
        for part in self.front.iter().chain(self.cycle.iter().cycle()) {
            for _ in 0..part.times {
                let piece = match part.piece {
                    Piece::Text(piece) => piece,
                    Piece::NewName => taken[0].next().expect("enough names"),
                    Piece::NameInBucket => taken[1].next().expect("enough names"),
                };
                if size < text.len() + piece.len() {
                    return text;
                }
                text.push_str(piece);
            }
        }
        text
    }
}

impl fmt::Display for Recipe {
    fn fmt(&self, f: &mut fmt::Formatter<'_>) -> fmt::Result {
        let row = |parts: &[Part]| parts.iter().map(Part::to_string).collect::<Vec<_>>().join(" ");
        write!(f, "{} then over and over {}", row(&self.front), row(&self.cycle))
    }
}

impl fmt::Display for Part {
    fn fmt(&self, f: &mut fmt::Formatter<'_>) -> fmt::Result {
        match self.piece {
            Piece::Text(piece) => write!(f, "{piece:?}")?,
            Piece::NewName => write!(f, "new-name")?,
            Piece::NameInBucket => write!(f, "name-in-bucket")?,
        }
        if self.times > 1 { write!(f, "*{}", self.times) } else { Ok(()) }
    }
}

/// As many as a text has room for, and a blank behind each, so that they don't join.
pub struct Names {
    new: Vec<String>,
    in_bucket: Vec<String>,
}

impl Names {
    pub fn new() -> Self {
        const NEW: usize = 32_768;
        const IN_BUCKET: usize = 16_384;
        let with_blank = |name: String| name + " ";
        Names {
            new: (0..NEW).map(spelled).map(with_blank).collect(),
            in_bucket: names_in_bucket().take(IN_BUCKET).map(with_blank).collect(),
        }
    }
}
