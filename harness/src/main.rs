//! The second implementation of the garment array, and its comparison with the programs. See README.md.

mod bench;
mod cases;
mod clock;
mod compare;
mod damage;
mod examples;
mod generate;
mod oracle;
mod pieces;
mod plain;
mod reading;
mod rebuild;
mod rng;
mod runner;
mod shrink;
mod slow;
mod sphere;
mod spoil;
mod tally;
#[cfg(test)]
mod tests;
mod text;
mod torn;
mod wood;

use std::io::{Read, Write};
use std::path::Path;
use std::process::ExitCode;

use bench::Bench;
use cases::Kind;
use compare::{compare, Plan};
use oracle::{expected, Program, PROGRAMS};
use runner::Runner;

/// What the gate compares.
const ACCEPTED: usize = 1_400;
const DAMAGED: usize = 900;
const HOUSE_TEXTS: usize = 300;
const LARGE: usize = 20;
const TORN: usize = 2_000;
const ARRAY_TEXTS: usize = 200;
const SEED: u64 = 1;
const WORKERS: usize = 2;
/// Of each program, where times are measured.
const RUNS: usize = 60;

const USAGE: &str = "\
harness check [--run COMMAND] [--seed NUMBER] [--only PROGRAM]
    what the gate compares; COMMAND runs a program: its name stands for {} in it, or follows it
harness examples [--run COMMAND]
    every text of examples/ with meshlines, held to the table there
harness long --seed NUMBER --count NUMBER [--run COMMAND] [--only PROGRAM]
    so many items of all kinds, with a progress line
harness bench [--run COMMAND] [--plain COMMAND] [--seed NUMBER] [--runs NUMBER]
    times and ratios, the least of so many runs; the second COMMAND runs the baseline in C
harness act PROGRAM
    the slow engine in the program's place: standard input to standard output";

fn main() -> ExitCode {
    let words: Vec<String> = std::env::args().skip(1).collect();
    match run(&words) {
        Ok(true) => ExitCode::SUCCESS,
        Ok(false) => ExitCode::from(1),
        Err(message) => {
            eprintln!("harness: {message}\n{USAGE}");
            ExitCode::from(2)
        }
    }
}

fn run(words: &[String]) -> Result<bool, String> {
    let options = Options::read(words.get(1..).unwrap_or_default())?;
    match words.first().map(String::as_str) {
        Some("check") => Ok(check(&options)),
        Some("examples") => examples(&options),
        Some("long") => Ok(long(&options)),
        Some("bench") => bench(&options),
        Some("act") => act(options.only.ok_or("which program?")?),
        _ => Err("no such command".into()),
    }
}

struct Options {
    run: String,
    seed: u64,
    count: usize,
    runs: usize,
    only: Option<Program>,
    plain: Option<String>,
}

impl Options {
    fn read(words: &[String]) -> Result<Options, String> {
        let mut options = Options { run: "tools/run".into(), seed: SEED, count: 10_000, runs: RUNS, only: None, plain: None };
        let mut words = words.iter();
        while let Some(word) = words.next() {
            if let Some(program) = program(word) {
                options.only = Some(program);
                continue;
            }
            let value = words.next().ok_or(format!("{word} wants a value"))?;
            match word.as_str() {
                "--run" => options.run = value.clone(),
                "--seed" => options.seed = value.parse().map_err(|_| "the seed is a number")?,
                "--count" => options.count = value.parse().map_err(|_| "the count is a number")?,
                "--runs" => {
                    options.runs = value.parse().ok().filter(|&runs| runs > 0).ok_or("the runs are a number, 1 or more")?
                }
                "--plain" => options.plain = Some(value.clone()),
                "--only" => options.only = Some(program(value).ok_or("no such program")?),
                _ => return Err(format!("no such word: {word}")),
            }
        }
        Ok(options)
    }

    fn programs(&self) -> Vec<Program> {
        self.only.map_or(PROGRAMS.to_vec(), |program| vec![program])
    }
}

fn program(name: &str) -> Option<Program> {
    PROGRAMS.into_iter().find(|program| program.name() == name)
}

fn check(options: &Options) -> bool {
    let counts = [
        (Kind::Piece, pieces::all().len() + 1),
        (Kind::Large, LARGE),
        (Kind::Accepted, ACCEPTED),
        (Kind::Damaged, DAMAGED),
        (Kind::HouseText, HOUSE_TEXTS),
        (Kind::Torn, TORN),
        (Kind::ArrayText, ARRAY_TEXTS),
    ];
    let items = counts.into_iter().flat_map(|(kind, count)| (0..count).map(move |index| (kind, index))).collect();
    start(options, items, true)
}

fn examples(options: &Options) -> Result<bool, String> {
    let runner = Runner::new(&options.run);
    runner.ready(Program::Meshlines)?;
    examples::examples(Path::new("examples"), |text| runner.run(Program::Meshlines, text))
}

/// Items in the shares that the gate has, the large ones few.
fn long(options: &Options) -> bool {
    let kinds = [Kind::Accepted, Kind::Damaged, Kind::Torn, Kind::Torn, Kind::HouseText, Kind::ArrayText, Kind::Accepted];
    let item = |k: usize| if k % 200 == 199 { (Kind::Large, k / 200) } else { (kinds[k % kinds.len()], k) };
    start(options, (0..options.count).map(item).collect(), false)
}

fn start(options: &Options, items: Vec<(Kind, usize)>, gate: bool) -> bool {
    let runner = Runner::new(&options.run);
    let programs = options.programs();
    for &program in &programs {
        if let Err(failure) = runner.ready(program) {
            println!("harness: {} cannot be run: {failure}", program.name());
            return false;
        }
    }
    let plan = Plan { seed: options.seed, items, programs, workers: WORKERS, progress: !gate, all_numbers: gate };
    compare(&plan, &runner)
}

fn bench(options: &Options) -> Result<bool, String> {
    let (engine, plain) = (Runner::new(&options.run), options.plain.as_deref().map(Runner::new));
    PROGRAMS.into_iter().try_for_each(|program| engine.ready(program))?;
    bench::bench(&Bench { engine: &engine, plain: plain.as_ref(), seed: options.seed, runs: options.runs })?;
    Ok(true)
}

fn act(program: Program) -> Result<bool, String> {
    let mut input = Vec::new();
    std::io::stdin().read_to_end(&mut input).map_err(|error| error.to_string())?;
    std::io::stdout().write_all(&expected(program, &input)).map_err(|error| error.to_string())?;
    Ok(true)
}
