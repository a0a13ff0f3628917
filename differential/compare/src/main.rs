//! The program: `compare -- MODE`.

use std::{env, process::ExitCode};

fn main() -> ExitCode {
    compare::command(env::args().skip(1))
}
