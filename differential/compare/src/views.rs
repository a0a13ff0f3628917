//! The comparison of views: every accessor on every node of the reference's trees.

mod altered;
mod changed;
mod check;
mod fault;
mod tally;
mod tokens;

pub use fault::{FAULTS, Fault};

use crate::{
    options::ViewOptions,
    read,
    run::{Run, in_a_thread},
};
use altered::first_difference_altered;
use changed::changed_trees;
use check::{Difference, first_difference};
use generate::ParseTexts;
use oracle::views::Tree;
use std::process::ExitCode;
use tally::Tally;
use tokens::first_difference_at_tokens;

pub fn run(options: &ViewOptions) -> ExitCode {
    in_a_thread(|| run_all(options))
}

fn run_all(options: &ViewOptions) -> ExitCode {
    let fault = options.plant;
    let mut tally = Tally::default();
    let mut run = Run::new(10_000);
    if let Some(fault) = fault {
        println!("planted fault: {fault:?}");
    }
    let mut all = |sort: &str, texts: &mut dyn Iterator<Item = String>| {
        let texts = texts.map(String::into_bytes);
        run.all(sort, texts, |text| difference(text, fault, &mut tally).is_some());
    };
    all("recorded", &mut read::recorded_texts().into_iter());
    all("generated", &mut ParseTexts::new(options.seed).take(options.texts));
    print!("{tally}");
    run.show_first(|text| difference(text, fault, &mut Tally::default()));
    tally.end(run.texts())
}

/// The first of a text; none where the reference makes no tree.
fn difference(text: &[u8], fault: Option<Fault>, tally: &mut Tally) -> Option<Difference> {
    let mut tree = Tree::read(str::from_utf8(text).ok()?)?;
    tally.trees += 1;
    let difference = first_difference(&mut tree, fault, tally);
    let mut all = vec![difference, first_difference_at_tokens(&tree, fault, tally)];
    for mut changed in changed_trees(&tree) {
        tally.changed_trees += 1;
        all.push(first_difference(&mut changed, fault, tally));
    }
    all.push(first_difference_altered(&tree, fault, tally));
    all.into_iter().flatten().next()
}
