//! Trees that the parser doesn't make, drawn from those that it makes.

use generate::Rng;
use oracle::views::{Change, Tree};

/// So many are made of each tree.
const TREES: u64 = 2;

/// A tree always has the same ones.
pub fn changed_trees(tree: &Tree) -> impl Iterator<Item = Tree> {
    (0..TREES).filter_map(|copy| {
        let mut rng = rng_of(tree, copy);
        let most = 1 + tree.count() as usize / 4;
        let changes: Vec<Change> =
            (0..1 + rng.below(most)).map(|_| drawn(&mut rng, tree)).collect();
        tree.changed(&changes)
    })
}

/// For the copy with this number.
pub fn rng_of(tree: &Tree, copy: u64) -> Rng {
    let mixed = |state: u64, word: &u32| (state ^ u64::from(*word)).wrapping_mul(0x0100_0000_01b3);
    Rng::new(tree.words().nodes.iter().fold(copy + 1, mixed))
}

fn drawn(rng: &mut Rng, tree: &Tree) -> Change {
    let count = tree.count() as usize;
    let node = rng.below(count) as u32;
    let above = (count as u32 - 1 - node) as usize;
    match rng.below(8) {
        0..4 => Change::Kind { node, from: rng.below(count) as u32 },
        4 => Change::Child { node, child: 0 },
        5 => Change::Child { node, child: rng.below(count) as u32 },
        6 => Change::Next { node, next: 0 },
        _ if above == 0 => Change::Next { node, next: 0 },
        _ => Change::Next { node, next: node + 1 + rng.below(above) as u32 },
    }
}
