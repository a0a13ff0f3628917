//! The command line.

use crate::{fault, read, views};
use std::path::PathBuf;

pub const USAGE: &str = "compare lex [--texts N] [--seed S] [--plant FAULT]
compare read [--texts N] [--seed S] [--plant FAULT]
compare chart [--texts N] [--seed S] [--plant]
compare views [--texts N] [--seed S] [--plant FAULT]
compare record FILE
compare record-parse FILE";

#[derive(Debug, PartialEq)]
pub enum Command {
    Lex(LexOptions),
    Read(ReadOptions),
    Chart(ChartOptions),
    Views(ViewOptions),
    Record { file: PathBuf },
    RecordParse { file: PathBuf },
}

#[derive(Debug, PartialEq)]
pub struct ChartOptions {
    /// How many texts are generated, besides all short rows.
    pub texts: usize,
    pub seed: u64,
    /// Run against a reference with a planted fault.
    pub plant: bool,
}

/// Of a run that knows several faults.
#[derive(Debug, PartialEq)]
pub struct FaultOptions<F> {
    /// How many texts are generated, besides the fixed ones.
    pub texts: usize,
    pub seed: u64,
    /// The fault that is planted.
    pub plant: Option<F>,
}

pub type LexOptions = FaultOptions<fault::Fault>;
pub type ReadOptions = FaultOptions<read::Fault>;
pub type ViewOptions = FaultOptions<views::Fault>;

impl Command {
    pub fn read(mut arguments: impl Iterator<Item = String>) -> Result<Command, String> {
        match arguments.next().as_deref() {
            Some("lex") => Ok(Command::Lex(LexOptions::read(arguments)?)),
            Some("read") => Ok(Command::Read(ReadOptions::read(arguments)?)),
            Some("chart") => Ok(Command::Chart(ChartOptions::read(arguments)?)),
            Some("views") => Ok(Command::Views(ViewOptions::read(arguments)?)),
            Some("record") => Ok(Command::Record { file: file(arguments.next())? }),
            Some("record-parse") => Ok(Command::RecordParse { file: file(arguments.next())? }),
            _ => Err("no such command".to_string()),
        }
    }
}

impl ChartOptions {
    fn read(mut arguments: impl Iterator<Item = String>) -> Result<ChartOptions, String> {
        let mut options = ChartOptions { texts: 100_000, seed: 1, plant: false };
        while let Some(argument) = arguments.next() {
            match argument.as_str() {
                "--texts" => options.texts = number(arguments.next())?,
                "--seed" => options.seed = number(arguments.next())?,
                "--plant" => options.plant = true,
                _ => return Err(format!("no such option: {argument}")),
            }
        }
        Ok(options)
    }
}

impl LexOptions {
    fn read(arguments: impl Iterator<Item = String>) -> Result<LexOptions, String> {
        fault_options(arguments, 100_000, &fault::FAULTS)
    }
}

impl ReadOptions {
    fn read(arguments: impl Iterator<Item = String>) -> Result<ReadOptions, String> {
        fault_options(arguments, 80_000, &read::FAULTS)
    }
}

impl ViewOptions {
    fn read(arguments: impl Iterator<Item = String>) -> Result<ViewOptions, String> {
        fault_options(arguments, 20_000, &views::FAULTS)
    }
}

fn fault_options<F: Copy>(
    mut arguments: impl Iterator<Item = String>,
    texts: usize,
    faults: &[(&str, F)],
) -> Result<FaultOptions<F>, String> {
    let mut options = FaultOptions { texts, seed: 1, plant: None };
    while let Some(argument) = arguments.next() {
        match argument.as_str() {
            "--texts" => options.texts = number(arguments.next())?,
            "--seed" => options.seed = number(arguments.next())?,
            "--plant" => options.plant = Some(fault(arguments.next(), faults)?),
            _ => return Err(format!("no such option: {argument}")),
        }
    }
    Ok(options)
}

fn file(argument: Option<String>) -> Result<PathBuf, String> {
    argument.map(PathBuf::from).ok_or("record needs a file".to_string())
}

fn fault<F: Copy>(argument: Option<String>, faults: &[(&str, F)]) -> Result<F, String> {
    let named = |name: String| faults.iter().find(|(known, _)| *known == name);
    argument.and_then(named).map(|(_, fault)| *fault).ok_or_else(|| {
        let names: Vec<&str> = faults.iter().map(|(name, _)| *name).collect();
        format!("a fault is wanted: {}", names.join(", "))
    })
}

fn number<N: std::str::FromStr>(argument: Option<String>) -> Result<N, String> {
    argument.and_then(|digits| digits.parse().ok()).ok_or("a number is wanted".to_string())
}
