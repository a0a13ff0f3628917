//! Texts that are slow to read, or were. By what is known of the library: its table of names ended
//! at 32,768 tokens once, its hash of a name is a sum by powers of one number, whose low bits choose
//! one of 8,192 buckets, and a decimal takes time by the square of its length. The others were found
//! by `bench search`, and made simple.

use super::{filled, within};
use generate::{KEYWORDS, Rng};
use std::{collections::HashMap, iter};

pub const TABLE_ENTRIES: usize = 32_768;
const BUCKETS: u64 = 8_192;
const MULTIPLIER: u64 = 16_777_619;

pub fn names_behind_the_table(size: usize) -> String {
    behind_the_table(size, (0..).map(spelled).filter(|name| is_name(name)))
}

/// Found: a name that stood already is slower than a new one, as more of it fit.
pub fn one_name_behind_the_table(size: usize) -> String {
    behind_the_table(size, iter::repeat_with(|| "a".to_string()))
}

/// Semicolons where no declaration begins are passed one by one.
fn behind_the_table(size: usize, names: impl Iterator<Item = String>) -> String {
    let semicolons = ";".repeat(TABLE_ENTRIES);
    let statements = statements(size - semicolons.len(), names);
    semicolons + &statements
}

pub fn names_of_one_bucket(size: usize) -> String {
    statements(size, names_in_bucket())
}

/// Found: no declaration has them, and the reference never looks them up.
pub fn passed_names_of_one_bucket(size: usize) -> String {
    let mut names = names_in_bucket();
    filled(size, |_| names.next().expect("names don't end") + " ")
}

/// Names of one length and one hash, which part only in the middle: parts of two kinds that have one
/// hash, in another order in each name.
pub fn names_of_one_hash(size: usize) -> String {
    statements(size, names_with_hash())
}

pub fn names_with_hash() -> impl Iterator<Item = String> {
    const PARTS: u32 = 12;
    let parts = parts_of_one_hash();
    (0..1_usize << PARTS).cycle().map(move |order| {
        let middle = (0..PARTS).map(|part| parts[order >> part & 1].as_str());
        format!("{0}{1}{0}", "stem_".repeat(5), middle.collect::<String>())
    })
}

/// The first two of eight letters that are found.
fn parts_of_one_hash() -> [String; 2] {
    let mut rng = Rng::new(1);
    let mut seen = HashMap::new();
    loop {
        let part: String = (0..8).map(|_| char::from(b'a' + rng.below(26) as u8)).collect();
        match seen.insert(hash(&part), part.clone()) {
            Some(other) if other != part => return [other, part],
            _ => {}
        }
    }
}

/// A statement of each name while there is room.
fn statements(size: usize, mut names: impl Iterator<Item = String>) -> String {
    let (before, behind) = ("init {", "}");
    let room = size - before.len() - behind.len();
    let names = filled(room, |_| names.next().expect("names don't end") + ";");
    format!("{before}{names}{behind}")
}

pub fn long_decimals(size: usize) -> String {
    let decimal = within("const a = ", "7319", ";\n", 1_000);
    filled(size, |i| if i % 2 == 0 { decimal.clone() } else { "const b = 1;\n".to_string() })
}

/// Found.
pub fn calls_of_calls(size: usize) -> String {
    within("init {a", "()", "}", size)
}

/// Found.
pub fn empty_blocks(size: usize) -> String {
    within("init {", "{}", "}", size)
}

/// Found. With more brackets than these it is slower still, but the reference's fuel ends.
pub fn blocks_left_open(size: usize) -> String {
    filled(size, |_| "run {{a,".to_string())
}

/// Found, with the next, among all rows of one and two tokens at some places.
pub fn commas_for_arms(size: usize) -> String {
    within("const a = match a {", ",", "};", size)
}

pub fn operators_for_statements(size: usize) -> String {
    within("const a = fn() a {", "+", "};", size)
}

/// Different names, all in the library's bucket 0.
pub fn names_in_bucket() -> impl Iterator<Item = String> {
    (0..).map(spelled).filter_map(ended_in_bucket).filter(|name| is_name(name))
}

/// With the last character that leads there, if there is one.
fn ended_in_bucket(front: String) -> Option<String> {
    let last = (BUCKETS - bucket(&front) * MULTIPLIER % BUCKETS) % BUCKETS;
    let last = char::from(u8::try_from(last).ok()?);
    (last.is_ascii_alphanumeric() || last == '_').then(|| format!("{front}{last}"))
}

pub fn bucket(name: &str) -> u64 {
    u64::from(hash(name)) % BUCKETS
}

pub fn hash(name: &str) -> u32 {
    name.bytes()
        .fold(0, |hash, byte| hash.wrapping_mul(MULTIPLIER as u32).wrapping_add(byte.into()))
}

fn is_name(spelled: &str) -> bool {
    !KEYWORDS.contains(&spelled)
}

/// The name with this number.
pub fn spelled(mut number: usize) -> String {
    const FIRST: &[u8] = b"abcdefghijklmnopqrstuvwxyzABCDEFGHIJKLMNOPQRSTUVWXYZ_";
    const OTHER: &[u8] = b"abcdefghijklmnopqrstuvwxyzABCDEFGHIJKLMNOPQRSTUVWXYZ_0123456789";
    let mut name = String::from(char::from(FIRST[number % FIRST.len()]));
    number /= FIRST.len();
    while number > 0 {
        number -= 1;
        name.push(char::from(OTHER[number % OTHER.len()]));
        number /= OTHER.len();
    }
    name
}
