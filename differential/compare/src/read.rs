//! The comparison of reading.

mod answer;
mod check;
mod corners;
mod fault;
mod features;
mod lengths;
mod record;
mod run;
mod tally;

pub use answer::{Answer, COUNTS, Lent};
pub use fault::{FAULTS, Fault};
pub use record::{texts as recorded_texts, write as record};
pub use run::{difference, run};
