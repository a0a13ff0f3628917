//! The texts that are timed: a kind is what a text is made of, over and over.

pub mod scripts;
mod tokens;
pub mod worst;

use generate::Rng;

pub struct Kind {
    name: &'static str,
    sizes: &'static [usize],
    make: fn(usize) -> String,
}

pub const LONGEST: usize = 65_536;

const SIZES: &[usize] = &[200, 4_096, LONGEST];

pub const READ_KINDS: [Kind; 16] = [
    Kind::new("scripts", scripts::scripts),
    Kind::new("declarations", declarations),
    Kind::new("names, all different", different_names),
    Kind::new("one name", one_name),
    Kind::new("nests of brackets", nests),
    Kind::new("nests of blocks", nested_blocks),
    Kind::new("comments", comments),
    Kind::new("short strings", short_strings),
    Kind::new("hexadecimals", hexadecimals),
    Kind::new("decimals", decimals),
    Kind::new("long string", long_string),
    Kind::new("long string, accents", long_string_of_accents),
    Kind::new("long hexadecimal", long_hexadecimal),
    Kind::new("long decimal", long_decimal),
    Kind::new("a report a line", reports),
    Kind::new("reports in statements", reports_in_statements),
];

pub const WORST_KINDS: [Kind; 11] = [
    Kind::longest("names behind the table", worst::names_behind_the_table),
    Kind::longest("one name behind it", worst::one_name_behind_the_table),
    Kind::longest("names of one bucket", worst::names_of_one_bucket),
    Kind::longest("the same, passed over", worst::passed_names_of_one_bucket),
    Kind::longest("names of one hash", worst::names_of_one_hash),
    Kind::longest("long decimals", worst::long_decimals),
    Kind::longest("calls of calls", worst::calls_of_calls),
    Kind::longest("empty blocks", worst::empty_blocks),
    Kind::longest("blocks left open", worst::blocks_left_open),
    Kind::longest("commas for arms", worst::commas_for_arms),
    Kind::longest("operators alone", worst::operators_for_statements),
];

pub const LEX_KINDS: [Kind; 8] = [
    Kind::new("declarations", declarations),
    Kind::new("operators", tokens::operators),
    Kind::new("names", tokens::names),
    Kind::new("numbers", tokens::numbers),
    Kind::new("blanks", tokens::blanks),
    Kind::new("keywords", tokens::keywords),
    Kind::new("comments", comments),
    Kind::new("strings", tokens::strings),
];

/// A row for each kind and length: what `row` says of the text.
pub fn print_rows(kinds: &[Kind], row: fn(&str) -> String) {
    for kind in kinds {
        for size in kind.sizes {
            let text = kind.text(*size);
            println!("{:<23}{:>7}{}", kind.name, text.len(), row(&text));
        }
    }
}

impl Kind {
    const fn new(name: &'static str, make: fn(usize) -> String) -> Self {
        Kind { name, sizes: SIZES, make }
    }

    /// Where nothing is slow in a short text.
    const fn longest(name: &'static str, make: fn(usize) -> String) -> Self {
        Kind { name, sizes: &[LONGEST], make }
    }

    fn text(&self, size: usize) -> String {
        let text = (self.make)(size);
        let room = 200.max(size / 50);
        assert!(text.len() <= size && size < text.len() + room, "{}: {}", self.name, text.len());
        text
    }
}

/// Lines while there is room.
fn filled(size: usize, mut line: impl FnMut(usize) -> String) -> String {
    let mut text = String::new();
    for i in 0.. {
        let next = line(i);
        if size < text.len() + next.len() {
            break;
        }
        text.push_str(&next);
    }
    text
}

/// What crews write: constants, functions, conditions, calls.
fn declarations(size: usize) -> String {
    const LINES: [&str; 8] = [
        "const plot_area = 400;\n",
        "const basal = fn(d: u256, n: u256) u256 { d * d * n / 1273240 };\n",
        "// stems by class, rounded down\n",
        "const total = basal(42, 12) + basal(38, 7) - 3;\n",
        "const is_dense = total >= plot_area and not_cut;\n",
        "use forest::tables::{height, volume as vol};\n",
        "const row = Plot { area: plot_area, stems: (12, 7, 3) };\n",
        "const label = if is_dense { \"dense\" } else { \"open\" };\n",
    ];
    let mut rng = Rng::new(1);
    filled(size, |_| rng.pick(&LINES).to_string())
}

fn different_names(size: usize) -> String {
    filled(size, |i| format!("const a{i} = b{i};\n"))
}

fn one_name(size: usize) -> String {
    filled(size, |_| "const a = a;\n".to_string())
}

/// Not so deep that the reference's fuel ends.
fn nests(size: usize) -> String {
    filled(size, |_| "const a = ((((((((1))))))));\n".to_string())
}

fn within(before: &str, filling: &str, behind: &str, size: usize) -> String {
    let room = size - before.len() - behind.len();
    format!("{before}{}{behind}", filling.repeat(room / filling.len()))
}

fn long_string(size: usize) -> String {
    within("const a = \"", "spruce 42, ", "\";", size)
}

fn long_string_of_accents(size: usize) -> String {
    within("const a = \"", "éèàç", "\";", size)
}

fn long_decimal(size: usize) -> String {
    within("const a = ", "7319", ";", size)
}

fn long_hexadecimal(size: usize) -> String {
    within("const a = 0x", "7f19", ";", size)
}

/// Blocks in blocks, and a value in the innermost.
fn nested_blocks(size: usize) -> String {
    filled(size, |_| "init { if a { while b { { { c = { 1 }; } } } } }\n".to_string())
}

fn short_strings(size: usize) -> String {
    filled(size, |i| {
        if i % 2 == 0 { "const a = \"oak\";\n" } else { "const b = \"ash, felled\";\n" }.to_string()
    })
}

fn hexadecimals(size: usize) -> String {
    let mut rng = Rng::new(1);
    filled(size, |_| format!("const a = 0x{:x};\n", rng.next_u64() >> rng.below(64)))
}

fn decimals(size: usize) -> String {
    let mut rng = Rng::new(1);
    filled(size, |_| format!("const a = {};\n", rng.next_u64() >> rng.below(64)))
}

fn comments(size: usize) -> String {
    filled(size, |_| "// a line about stems\n/* and /* one */ inside */\n".to_string())
}

fn reports(size: usize) -> String {
    filled(size, |_| "const = 1;\n".to_string())
}

fn reports_in_statements(size: usize) -> String {
    const BLOCK: &str = "init {\n    let = 1;\n    a = ;\n    f(1;\n    b c;\n}\n";
    filled(size, |_| BLOCK.to_string())
}

#[cfg(test)]
mod tests {
    use super::{LEX_KINDS, READ_KINDS, SIZES, WORST_KINDS, scripts::scripts, worst};
    use std::collections::HashSet;

    #[test]
    fn texts_fill_their_sizes() {
        for kind in READ_KINDS.iter().chain(&WORST_KINDS).chain(&LEX_KINDS) {
            kind.sizes.iter().for_each(|size| drop(kind.text(*size)));
        }
    }

    #[test]
    fn scripts_are_free_of_reports() {
        for size in SIZES {
            let text = scripts(*size);
            assert_eq!(oracle::read(&text).reports, [], "{text}");
        }
    }

    #[test]
    fn names_of_one_bucket_are_different() {
        let names: HashSet<String> = worst::names_in_bucket().take(10_000).collect();
        assert_eq!(names.len(), 10_000);
        assert!(names.iter().all(|name| worst::bucket(name) == 0));
    }

    #[test]
    fn names_of_one_hash_are_different() {
        let names: HashSet<String> = worst::names_with_hash().take(1_000).collect();
        let hashes: HashSet<u32> = names.iter().map(|name| worst::hash(name)).collect();
        assert_eq!((names.len(), hashes.len()), (1_000, 1));
    }
}
