//! Nests around the greatest depth, and around what the reference has fuel for.

use crate::rng::Rng;

const SHAPES: [(&str, &str); 30] = [
    ("(", ")"),
    ("(1,", ")"),
    ("f(", ")"),
    ("a.b(c,", ",)"),
    ("-", ""),
    ("!", ""),
    ("~ ", " "),
    ("a+(", ")"),
    ("(", ")*b"),
    ("a {b:", "}"),
    ("{", "}"),
    ("{a;", ";}"),
    ("{let a=", ";}"),
    ("{a=", ";}"),
    ("{return ", ";}"),
    ("{while a {", "}}"),
    ("{while ", "{}}"),
    ("{comptime {", "} a}"),
    ("comptime {", "}"),
    ("if a {", "}"),
    ("if ", "{}"),
    ("if a {} else if ", "{} else {}"),
    ("if a {} else {", "}"),
    ("match a {b=>", "}"),
    ("match a {", "=>1,else=>2}"),
    ("match ", "{}"),
    ("fn(a:", ")t {}"),
    ("fn()", "{}"),
    ("fn()t {", "}"),
    ("tuple{a,", "}"),
];

/// These too stand in `const a = ..;`, but a nest of them alone.
const STRUCTS: [(&str, &str); 4] =
    [("struct {a:", "}"), ("struct ", "{}"), ("struct{fn f()", "{}}"), ("struct{fn f()t{", "}}")];

const INNER: [&str; 16] = [
    "1", "a", "", "()", "a+b", "{}", "f()", "tuple {}", "-1", "a{}", "struct {}", "a.b", " a",
    "/**/1", "\"s\"", ";",
];

const PLACES: [(&str, &str); 4] =
    [("const a = ", ";"), ("const a = ", " ;"), ("init {", "}"), ("run { ", "; } const b = 1;")];

/// A nest of one shape or of several, around something, closed more often than not.
pub fn nest(rng: &mut Rng) -> String {
    let count = match rng.below(5) {
        0 => rng.below(24),
        1 => 60 + rng.below(72),
        2 => 120 + rng.below(16),
        _ => 248 + rng.below(14),
    };
    let (first, is_mixed) = (any_shape(rng), rng.chance(1, 4));
    let shapes: Vec<_> =
        (0..count).map(|_| if is_mixed { any_shape(rng) } else { first }).collect();
    let between = rng.pick(&["", "", " ", "/**/"]);
    let closed = if rng.chance(1, 5) { rng.below(count + 1) } else { count };
    built(PLACES[rng.below(PLACES.len())], &shapes, between, rng.pick(&INNER), closed)
}

fn any_shape(rng: &mut Rng) -> (&'static str, &'static str) {
    let number = rng.below(SHAPES.len() + STRUCTS.len());
    if number < SHAPES.len() { SHAPES[number] } else { STRUCTS[number - SHAPES.len()] }
}

/// The innermost `closed` of the shapes are closed; where not all are, the text ends there.
fn built(
    place: (&str, &str),
    shapes: &[(&str, &str)],
    between: &str,
    inner: &str,
    closed: usize,
) -> String {
    let mut text = place.0.to_string();
    for (opener, _) in shapes {
        text.push_str(opener);
        text.push_str(between);
    }
    text.push_str(inner);
    for (_, closer) in shapes.iter().rev().take(closed) {
        text.push_str(closer);
    }
    if closed == shapes.len() {
        text.push_str(place.1);
    }
    text
}

/// Around which one, two, three or four readings a level come to the greatest depth, and
/// around which a row of operators comes to the end of the fuel.
const COUNTS: [usize; 17] =
    [16, 17, 18, 63, 64, 65, 84, 85, 86, 126, 127, 128, 129, 254, 255, 256, 257];

/// Nests of one shape.
pub fn nests() -> impl Iterator<Item = String> {
    let shapes = SHAPES.iter().chain(&STRUCTS);
    shapes.flat_map(move |shape| COUNTS.iter().flat_map(move |count| nests_of(*shape, *count)))
}

/// So many of one shape: closed around each of the inner texts, and not closed.
fn nests_of(shape: (&str, &str), count: usize) -> Vec<String> {
    let shapes = vec![shape; count];
    let closed = |inner| built(PLACES[0], &shapes, "", inner, count);
    let mut texts = INNER.map(closed).to_vec();
    texts.push(built(PLACES[0], &shapes, "", "1", 0));
    texts
}
