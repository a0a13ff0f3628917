//! Looks for texts that are slow to read: recipes are changed, and a change that makes the text slower is kept.

mod recipe;

use crate::{
    library::Slices,
    read::over_fast_stand_ins,
    texts::{LONGEST, scripts::scripts},
    timing::{in_turn, middle, ratios, sampler},
};
use generate::Rng;
use recipe::{Names, Recipe, Supply};
use std::{
    hint::black_box,
    panic, thread,
    time::{Duration, Instant},
};

pub struct Options {
    seconds: u64,
    seed: u64,
}

impl Options {
    pub fn read(words: &[&str]) -> Option<Self> {
        let mut options = Options { seconds: 60, seed: 1 };
        for pair in words.chunks(2) {
            match pair {
                ["--seconds", seconds] => options.seconds = seconds.parse().ok()?,
                ["--seed", seed] => options.seed = seed.parse().ok()?,
                _ => return None,
            }
        }
        Some(options)
    }
}

/// So many changes in a row that gain nothing end a climb.
const PATIENCE: usize = 60;

/// A climb begins with the slowest of so many recipes.
const DRAWN: usize = 12;

/// So much slower is a gain; less may be chance.
const GAIN: f64 = 1.02;

/// So many of the climbs' ends are told for each supply.
const TOLD: usize = 4;

/// The same time for each supply, as names that are slow would hide all else.
pub fn print(options: &Options) {
    println!(
        "ns a byte: the middle of samples in turn; ratios: the middle, lower and upper quarter"
    );
    println!(
        "{:>10}{:>10}{:>10}  {:<24}  {:<24}  recipe",
        "read", "scripts", "fast", "read / scripts", "read / fast"
    );
    panic::set_hook(Box::new(|_| {}));
    let share = Duration::from_secs(options.seconds) / Supply::ALL.len() as u32;
    for supply in Supply::ALL {
        let mut search = Search::new(options.seed, supply);
        let end = Instant::now() + share;
        let mut found = Vec::new();
        while Instant::now() < end {
            found.push(search.climb(end));
        }
        found.retain(|climbed| climbed.time > 0.0);
        found.sort_by(|one, other| other.time.total_cmp(&one.time));
        println!("{supply}: {} climbs, {} texts", found.len(), search.timed);
        for climbed in found.iter().take(TOLD) {
            println!("{}  {}", search.beside_others(&climbed.recipe), climbed.recipe);
        }
    }
}

struct Climbed {
    recipe: Recipe,
    time: f64,
}

struct Search {
    rng: Rng,
    supply: Supply,
    names: Names,
    enough: Slices,
    timed: usize,
}

impl Search {
    fn new(seed: u64, supply: Supply) -> Self {
        let (rng, names, enough) = (Rng::new(seed), Names::new(), Slices::enough());
        Search { rng, supply, names, enough, timed: 0 }
    }

    fn climb(&mut self, end: Instant) -> Climbed {
        let mut best = self.drawn();
        for _ in 1..DRAWN {
            let other = self.drawn();
            if best.time < other.time {
                best = other;
            }
        }
        let mut in_vain = 0;
        while in_vain < PATIENCE && Instant::now() < end {
            in_vain += 1;
            let recipe = best.recipe.changed(&mut self.rng, self.supply);
            let time = self.time(&recipe);
            if best.time * GAIN < time {
                best = Climbed { recipe, time };
                in_vain = 0;
            }
        }
        best
    }

    fn drawn(&mut self) -> Climbed {
        let recipe = Recipe::drawn(&mut self.rng, self.supply);
        let time = self.time(&recipe);
        Climbed { recipe, time }
    }

    /// Nanoseconds a byte, the shortest of a few; 0 where the text is refused.
    fn time(&mut self, recipe: &Recipe) -> f64 {
        const TRIES: usize = 4;
        /// Seconds from which on a call is told from chance.
        const LONG: f64 = 0.03;
        self.timed += 1;
        let text = recipe.text(&self.names, self.supply.size());
        let Some(mut slices) = self.enough.fitting(text.as_bytes()) else { return 0.0 };
        let mut shortest = f64::INFINITY;
        for _ in 0..TRIES {
            let start = Instant::now();
            black_box(slices.read(text.as_bytes()));
            shortest = shortest.min(start.elapsed().as_secs_f64());
            if LONG < shortest {
                break;
            }
        }
        shortest * 1e9 / text.len() as f64
    }

    /// The text is read beside scripts, and beside the reference over fast stand-ins
    /// unless that panics.
    fn beside_others(&mut self, recipe: &Recipe) -> String {
        let text = recipe.text(&self.names, self.supply.size());
        let ordinary = scripts(LONGEST);
        let mut slices = [&text, &ordinary].map(|text| Slices::for_text(text.as_bytes()));
        let [first, second] = &mut slices;
        let read = sampler(|| {
            black_box(first.read(text.as_bytes()));
        });
        let scripts = sampler(|| {
            black_box(second.read(ordinary.as_bytes()));
        });
        let panics = panic::catch_unwind(|| over_fast_stand_ins(&text)).is_err();
        let fast = sampler(|| if panics { idle() } else { over_fast_stand_ins(&text) });
        let [read, mut scripts, fast] = in_turn([read, scripts, fast], text.len());
        let scale = text.len() as f64 / ordinary.len() as f64;
        scripts.iter_mut().for_each(|time| *time *= scale);
        let (time, ratio) = if panics {
            ("panics".to_string(), String::new())
        } else {
            (format!("{:.1}", middle(&fast)), ratios(&read, &fast))
        };
        format!(
            "{:>10.1}{:>10.1}{time:>10}  {:<24}  {ratio:<24}",
            middle(&read),
            middle(&scripts),
            ratios(&read, &scripts)
        )
    }
}

fn idle() {
    thread::sleep(Duration::from_millis(20));
}
