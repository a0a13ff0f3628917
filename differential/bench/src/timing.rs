//! Calls that are timed in turn, and what their times come to.

use std::time::Instant;

/// Each is timed so often, all in turn.
pub const SAMPLES: usize = 21;

/// At least so long is one sample, in seconds.
const SAMPLE: f64 = 0.02;

/// Takes a sample: the seconds of one call.
type Sampler<'a> = Box<dyn FnMut() -> f64 + 'a>;

/// Of a call, as often as fills a sample.
pub fn sampler<'a>(mut call: impl FnMut() + 'a) -> Sampler<'a> {
    let mut times = 1;
    while seconds(&mut call, times) < SAMPLE {
        times *= 2;
    }
    Box::new(move || seconds(&mut call, times) / f64::from(times))
}

fn seconds(call: &mut impl FnMut(), times: u32) -> f64 {
    let start = Instant::now();
    for _ in 0..times {
        call();
    }
    start.elapsed().as_secs_f64()
}

/// The samples of each, in nanoseconds a byte.
pub fn in_turn<const N: usize>(mut samplers: [Sampler; N], bytes: usize) -> [Vec<f64>; N] {
    let mut times = [const { Vec::new() }; N];
    for _ in 0..SAMPLES {
        for (times, sample) in times.iter_mut().zip(&mut samplers) {
            times.push(sample() * 1e9 / bytes as f64);
        }
    }
    times
}

pub fn middle(values: &[f64]) -> f64 {
    quarter(values, 2)
}

pub fn ratios(of: &[f64], to: &[f64]) -> String {
    let ratios: Vec<f64> = of.iter().zip(to).map(|(a, b)| a / b).collect();
    format!("{:.2} ({:.2} to {:.2})", middle(&ratios), quarter(&ratios, 1), quarter(&ratios, 3))
}

/// The value below which so many quarters lie.
fn quarter(values: &[f64], quarters: usize) -> f64 {
    let mut sorted = values.to_vec();
    sorted.sort_by(f64::total_cmp);
    sorted[(sorted.len() - 1) * quarters / 4]
}
