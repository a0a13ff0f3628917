//! The lengths of the slices that are lent, around what a text needs.

use crate::read::answer::Lent;
use generate::Rng;
use oracle::{Lengths, Run};

/// All that is lent, call by call, with too few words for the tokens, exactly enough, or some more.
pub fn all_lent(text: &str, run: &Run) -> Vec<Lent> {
    let need = run.need();
    let tokens = run.tokens.len();
    let none = Lengths { nodes: 0, values: 0, reports: 0 };
    let few = [(tokens - 1, need), (tokens - 1, none), (0, need), (tokens / 2, need)];
    let enough = lengths(text, need).into_iter().zip(0..).map(|(rest, n)| (tokens + n % 3, rest));
    few.into_iter().chain(enough).map(|(tokens, rest)| Lent { tokens, rest }).collect()
}

/// So many words for nodes, values and reports, and enough for tokens.
pub fn lent_for(run: &Run, rest: Lengths) -> Lent {
    Lent { tokens: run.tokens.len(), rest }
}

/// What is lent for a text that is refused whatever is lent.
pub fn lent_to_unreadable(text: &[u8]) -> [Lent; 3] {
    let lent = |words: usize| Lent {
        tokens: words,
        rest: Lengths { nodes: words / 2, values: words / 3, reports: words / 4 },
    };
    [lent(0), lent(text.len() % 61), lent(text.len() + 1)]
}

/// So many triples are drawn for each text, besides the fixed ones.
const DRAWN: usize = 6;

/// Exactly enough, some longer, none, one word short in each slice, and some that are drawn.
/// A text always has the same ones.
pub fn lengths(text: &str, need: Lengths) -> Vec<Lengths> {
    let mut rng = Rng::new(text.bytes().fold(need.nodes as u64, mixed));
    let longer = Lengths {
        nodes: need.nodes + 1 + rng.below(12),
        values: need.values + 1 + rng.below(12),
        reports: need.reports + 1 + rng.below(12),
    };
    let mut all = vec![need, longer, Lengths { nodes: 0, values: 0, reports: 0 }];
    all.push(Lengths { nodes: need.nodes.saturating_sub(1), ..need });
    if need.values > 0 {
        all.push(Lengths { values: need.values - 1, ..need });
    }
    if need.reports > 0 {
        all.push(Lengths { reports: need.reports - 1, ..need });
    }
    all.extend((0..DRAWN).map(|_| Lengths {
        nodes: drawn(&mut rng, need.nodes),
        values: drawn(&mut rng, need.values),
        reports: drawn(&mut rng, need.reports),
    }));
    all
}

fn mixed(state: u64, byte: u8) -> u64 {
    (state ^ u64::from(byte)).wrapping_mul(0x0100_0000_01b3)
}

/// Enough, a little less, or anything below.
fn drawn(rng: &mut Rng, need: usize) -> usize {
    match rng.below(4) {
        0 | 1 => need + rng.below(9),
        2 => need.saturating_sub(rng.below(12)),
        _ => rng.below(need + 1),
    }
}
