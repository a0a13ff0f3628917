//! Scripts as crews write them: declarations of all kinds, indented, with comments and empty lines.

use generate::Rng;

const SPECIES: [&str; 12] = [
    "spruce", "pine", "larch", "beech", "birch", "oak", "ash", "alder", "rowan", "lime", "fir",
    "elm",
];

const MEASURES: [&str; 14] = [
    "area", "height", "girth", "volume", "age", "bark", "crown", "stems", "density", "basal",
    "diameter", "taper", "yield_class", "price",
];

const TYPES: [&str; 6] = ["u256", "u256", "u256", "bool", "Plot", "Stand"];

const OPERATORS: [&str; 8] = ["+", "-", "*", "/", "%", "+%", "*%", "<<"];

const COMPARISONS: [&str; 6] = ["==", "!=", "<", ">", "<=", ">="];

const NOTES: [&str; 10] = [
    "stems by class, rounded down",
    "measured at breast height, in millimetres",
    "the table of 1998, corrected for bark",
    "see the yield tables, page 42",
    "plots on slopes count by their level area",
    "one entry for each crew and day",
    "TODO: larch above 800 m",
    "épicéa and mélèze are counted together",
    "what is left after the second thinning",
    "never below 0",
];

/// Pieces, left out where there is no room for them.
pub fn scripts(size: usize) -> String {
    const PIECES: [fn(&mut Rng) -> String; 12] = [
        constant, constant, constant, note, label, import, function, function, choice, record,
        steps, block_note,
    ];
    let mut rng = Rng::new(1);
    let mut text = String::new();
    for _ in 0..size {
        let piece = PIECES[rng.below(PIECES.len())](&mut rng);
        if text.len() + piece.len() <= size {
            text.push_str(&piece);
        }
        if size < text.len() + 40 {
            break;
        }
    }
    text
}

fn species(rng: &mut Rng) -> &'static str {
    rng.pick(&SPECIES)
}

fn measure(rng: &mut Rng) -> &'static str {
    rng.pick(&MEASURES)
}

/// Some names come often, some once.
fn name(rng: &mut Rng) -> String {
    match rng.below(4) {
        0 => measure(rng).to_string(),
        1 => format!("{}_{}", species(rng), measure(rng)),
        2 => format!("{}_{}", measure(rng), 1 + rng.below(60)),
        _ => format!("{}_{}_{}", species(rng), measure(rng), 1990 + rng.below(36)),
    }
}

fn number(rng: &mut Rng) -> String {
    match rng.below(8) {
        0 => format!("0x{:x}", rng.below(1 << 24)),
        1 => format!("{}_{:03}", 1 + rng.below(999), rng.below(1000)),
        2 => "1_000_000_000_000_000_000".to_string(),
        3 => rng.below(10_000_000).to_string(),
        _ => rng.below(500).to_string(),
    }
}

fn operand(rng: &mut Rng) -> String {
    match rng.below(8) {
        0..3 => name(rng),
        3..5 => number(rng),
        5 => format!("self.{}", measure(rng)),
        6 => format!("{}({}, {})", name(rng), name(rng), number(rng)),
        _ => format!("({} {} {})", name(rng), rng.pick(&OPERATORS), number(rng)),
    }
}

fn sum(rng: &mut Rng) -> String {
    let mut sum = operand(rng);
    while rng.chance(2, 5) {
        sum = format!("{sum} {} {}", rng.pick(&OPERATORS), operand(rng));
    }
    sum
}

fn condition(rng: &mut Rng) -> String {
    let condition = format!("{} {} {}", name(rng), rng.pick(&COMPARISONS), operand(rng));
    match rng.below(4) {
        0 => format!("{condition} and !{}", name(rng)),
        1 => format!("{condition} or {} > 0", name(rng)),
        _ => condition,
    }
}

fn constant(rng: &mut Rng) -> String {
    let name = name(rng);
    match rng.below(3) {
        0 => format!("const {name}: u256 = {};\n", sum(rng)),
        1 => format!("const {name} = if {} {{ {} }} else {{ 0 }};\n", condition(rng), sum(rng)),
        _ => format!("const {name} = {};\n", sum(rng)),
    }
}

fn note(rng: &mut Rng) -> String {
    format!("\n// {}\n", rng.pick(&NOTES))
}

fn block_note(rng: &mut Rng) -> String {
    format!("\n/*\n * {}:\n * {}\n */\n", rng.pick(&NOTES), rng.pick(&NOTES))
}

fn label(rng: &mut Rng) -> String {
    match rng.below(3) {
        0 => format!("const {}_mark = hex\"{:08x}\";\n", species(rng), rng.below(1 << 32)),
        1 => format!("const {}_label = \"{}, felled\\n\";\n", name(rng), species(rng)),
        _ => format!("const {}_label = \"{} of the stand\";\n", name(rng), measure(rng)),
    }
}

fn import(rng: &mut Rng) -> String {
    let (from, what) = (species(rng), measure(rng));
    match rng.below(3) {
        0 => format!("use tables::{from}::{what};\n"),
        1 => format!("use tables::{from}::{{{what}, {} as {}}};\n", measure(rng), name(rng)),
        _ => format!("pub use {from}::*;\n"),
    }
}

fn function(rng: &mut Rng) -> String {
    let (name, result, stems) = (name(rng), rng.pick(&TYPES), measure(rng));
    let body = match rng.below(3) {
        0 => format!("    {}\n", sum(rng)),
        1 => format!(
            "    let mut {stems} = {};\n    while {} {{\n        {stems} = {stems} + {};\n    }}\n    return {stems};\n",
            number(rng),
            condition(rng),
            operand(rng)
        ),
        _ => format!(
            "    // {}\n    let {stems}: u256 = {};\n\n    if {} {{\n        return {};\n    }} else {{\n        {}\n    }}\n",
            rng.pick(&NOTES),
            sum(rng),
            condition(rng),
            sum(rng),
            sum(rng)
        ),
    };
    let (first, second) = (measure(rng), rng.pick(&TYPES));
    format!("\nconst {name} = fn({first}: u256, n: {second}) {result} {{\n{body}}};\n")
}

fn choice(rng: &mut Rng) -> String {
    let mut arms = String::new();
    for _ in 0..1 + rng.below(5) {
        arms.push_str(&format!("    {} => {},\n", number(rng), operand(rng)));
    }
    let (name, of) = (name(rng), measure(rng));
    format!(
        "\nconst {name} = match {of} {{\n{arms}    else other => other + {},\n}};\n",
        number(rng)
    )
}

fn record(rng: &mut Rng) -> String {
    let mut fields = String::new();
    for _ in 0..1 + rng.below(4) {
        fields.push_str(&format!("    {}: {},\n", measure(rng), rng.pick(&TYPES)));
    }
    let method =
        format!("\n    fn {}(self: Self) u256 {{\n        {}\n    }}\n", measure(rng), sum(rng));
    let made = format!("Plot {{ {}: {}, id: {} }}", measure(rng), number(rng), number(rng));
    let name = name(rng);
    format!("\nconst {name} = struct {{\n{fields}{method}}};\n\nconst {name}_first = {made};\n")
}

fn steps(rng: &mut Rng) -> String {
    let mut steps = String::new();
    for _ in 0..1 + rng.below(5) {
        let (to, value) = (measure(rng), sum(rng));
        steps.push_str(&match rng.below(4) {
            0 => format!("    let {to} = {value};\n"),
            1 => format!("    if {} {{ @log({value}); }}\n", condition(rng)),
            2 => format!("    {to}.total = {value};\n"),
            _ => format!("    tally({to}, {value});\n"),
        });
    }
    format!("\n{} {{\n{steps}}}\n", rng.pick(&["init", "run"]))
}
