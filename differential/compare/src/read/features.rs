//! What a text shows of the parser: the sample takes texts that show something new.

use oracle::{End, NODE_WIDTH, Run, Step};
use std::collections::HashSet;

/// Heads of nodes, which child stands in which parent, reports and which follow which, and
/// what was made before which token.
pub fn features(run: &Run) -> HashSet<[u32; 3]> {
    let mut all = HashSet::new();
    if let End::Read(words) = &run.end {
        all.extend(words.nodes.chunks(NODE_WIDTH).map(|node| [1, shown_head(node[0]), 0]));
        all.extend(families(&words.nodes));
    }
    let kinds: Vec<u32> = run.reports.chunks(3).map(|report| report[0] >> 26).collect();
    all.extend(kinds.windows(2).map(|pair| [3, pair[0], pair[1]]));
    all.extend(run.reports.chunks(3).map(|report| [4, shown_report(report[0]), 0]));
    all.extend(run.steps.iter().map(|taken| {
        let sort = match taken.step {
            Step::Node => 0,
            Step::Value { .. } => 1,
            Step::Report => 2,
        };
        [5, sort, kind_at(run, taken.cursor)]
    }));
    all
}

/// Offsets and token numbers are left out.
fn shown_head(head: u32) -> u32 {
    match head >> 26 {
        33 | 34 | 36 | 37 | 43 => head >> 26 << 26,
        _ => head,
    }
}

/// Characters are left out.
fn shown_report(word: u32) -> u32 {
    match word >> 26 {
        1..=4 => word,
        kind => kind << 26,
    }
}

/// Parent, child, and whether it is the first, the second or a later one.
fn families(nodes: &[u32]) -> Vec<[u32; 3]> {
    let kind = |node: u32| nodes[NODE_WIDTH * node as usize] >> 26;
    let mut all = Vec::new();
    for parent in nodes.chunks(NODE_WIDTH) {
        let (mut child, mut place) = (parent[4], 0);
        while child != 0 {
            all.push([2, (parent[0] >> 26) << 8 | kind(child), place]);
            place = 2.min(place + 1);
            child = nodes[NODE_WIDTH * child as usize + 3];
        }
    }
    all
}

fn kind_at(run: &Run, cursor: u32) -> u32 {
    run.tokens.get(cursor as usize).map_or(0, |word| word >> 25)
}
