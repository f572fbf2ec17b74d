//! Benchmarks: ratios within one run, and how times grow with n. Never a pass or a failure.
//!
//! Programs are timed as a whole, the text in and out included, and what a program takes for a mesh of eight vertices is taken off:
//! its start, and where it is emulated the translation of its code. What runs inside this process, without text and always natively,
//! has tables of its own: no time of the one kind stands beside one of the other.

use std::hint::black_box;

use crate::clock::{children, own};
use crate::generate::of_family;
use crate::oracle::Program;
use crate::plain;
use crate::reading;
use crate::rng::Rng;
use crate::runner::Runner;
use crate::slow::{answers, build, edge_of, used, verdict, Array, Mesh};
use crate::text::{write_array, write_mesh};

const SIZES: [usize; 3] = [64, 256, 1_024];
/// Of the slow engine, which takes long enough.
const SLOW_RUNS: usize = 3;
/// Stacked, then flipped: the family least like a pattern.
const FAMILY: usize = 1;
/// What is taken off a program's time is its time for a mesh of so many vertices.
const FEW: usize = 8;
/// Programs are compiled for this machine.
const NATIVE: &str = "x86_64";

/// What is measured, and how often.
pub struct Bench<'a> {
    pub engine: &'a Runner,
    /// Runs the baseline in C.
    pub plain: Option<&'a Runner>,
    pub seed: u64,
    pub runs: usize,
}

/// Milliseconds of the processor, the least of many runs, less the time for few vertices.
struct Programs {
    meshlines: f64,
    c: Option<f64>,
    answers: f64,
    rebuildlines: f64,
}

/// Milliseconds of the processor, the least of many runs.
struct Inside {
    plain_build: f64,
    slow_build: f64,
    plain_questions: f64,
    slow_questions: f64,
}

/// Target's reads over all edges: exact counts.
struct Reads {
    all: usize,
    most: usize,
}

struct Row {
    n: usize,
    programs: Programs,
    inside: Inside,
    reads: Reads,
}

/// Measures and prints.
pub fn bench(bench: &Bench) -> Result<(), String> {
    let rows = SIZES.into_iter().map(|n| row(bench, n)).collect::<Result<Vec<Row>, String>>()?;
    println!("Machine: {}, {}{}.", std::env::consts::ARCH, std::env::consts::OS, processors());
    println!(
        "Processor time in ms, the least of {} runs of a program and of plain Rust, of {SLOW_RUNS} of the slow engine.",
        bench.runs
    );
    print_programs(&rows);
    print_inside(&rows);
    print_reads(&rows);
    print_bytes();
    Ok(())
}

/// Their model and how many there are, where the system tells.
fn processors() -> String {
    let told = std::fs::read_to_string("/proc/cpuinfo").unwrap_or_default();
    let model =
        told.lines().find_map(|line| line.strip_prefix("model name")).map(|rest| rest.trim_start_matches([' ', '\t', ':']));
    let count = std::thread::available_parallelism().map_or(String::new(), |count| format!(", {count} processors"));
    model.map_or(String::new(), |model| format!(", {model}")) + &count
}

/// A mesh with its array and both texts.
struct Sample {
    mesh: Mesh,
    array: Array,
    text: Vec<u8>,
    array_text: Vec<u8>,
}

fn sample(seed: u64, n: usize) -> Sample {
    let mesh = of_family(&mut Rng::new(seed, n as u64), n, FAMILY);
    let array = build(&mesh);
    let (text, array_text) = (write_mesh(&mesh), write_array(&array));
    Sample { mesh, array, text, array_text }
}

fn row(bench: &Bench, n: usize) -> Result<Row, String> {
    let (whole, few) = (sample(bench.seed, n), sample(bench.seed, FEW));
    Ok(Row { n, programs: programs(bench, &whole, &few)?, inside: inside(bench, &whole), reads: reads(&whole.array) })
}

fn programs(bench: &Bench, whole: &Sample, few: &Sample) -> Result<Programs, String> {
    let runners: Vec<&Runner> = std::iter::once(bench.engine).chain(bench.plain).collect();
    let builds = above_few(bench.runs, &runners, Program::Meshlines, &whole.text, &few.text)?;
    let alone = |program| above_few(bench.runs, &[bench.engine], program, &whole.array_text, &few.array_text);
    Ok(Programs {
        meshlines: builds[0],
        c: builds.get(1).copied(),
        answers: alone(Program::Answers)?[0],
        rebuildlines: alone(Program::Rebuildlines)?[0],
    })
}

fn inside(bench: &Bench, sample: &Sample) -> Inside {
    Inside {
        plain_build: least(bench.runs, || plain::build(black_box(&sample.mesh))),
        slow_build: least(SLOW_RUNS, || slow_build(black_box(&sample.mesh))),
        plain_questions: least(bench.runs, || ask_all(black_box(&sample.array))),
        slow_questions: least(SLOW_RUNS, || slow_questions(black_box(&sample.mesh))),
    }
}

fn reads(array: &Array) -> Reads {
    let each: Vec<usize> = (0..3 * array.n).filter_map(|j| reading::target(array, j).ok()).map(|(_, reads)| reads).collect();
    Reads { all: each.iter().sum(), most: *each.iter().max().expect("an array has edges") }
}

fn slow_build(mesh: &Mesh) -> Array {
    assert_eq!(verdict(mesh), 0);
    build(mesh)
}

/// The same questions as `ask_all`, by searching triangles.
fn slow_questions(mesh: &Mesh) -> usize {
    let edges: usize = (0..3 * mesh.n).filter(|&j| used(j)).map(|j| black_box(answers(mesh, j)).reads).sum();
    edges + (0..mesh.n).map(|u| edge_of(mesh, u as u16)).sum::<usize>()
}

/// The six questions about every edge and Edge of every vertex, by the readings in plain Rust.
fn ask_all(array: &Array) -> usize {
    let about_edge = |j: usize| {
        let ask = [reading::source, reading::left_front, reading::right_front, reading::left_back, reading::right_back];
        let sum: usize = ask.iter().map(|ask| ask(array, j).unwrap_or(0)).sum();
        sum + reading::target(array, j).map_or(0, |(vertex, reads)| vertex + reads)
    };
    let edges: usize = (0..3 * array.n).filter(|&j| used(j)).map(about_edge).sum();
    edges + (0..array.n).map(|u| reading::edge(array, u).unwrap_or(0)).sum::<usize>()
}

/// The quickest of so many runs.
fn least<T>(runs: usize, run: impl Fn() -> T) -> f64 {
    let once = |_| {
        let began = own();
        black_box(run());
        own() - began
    };
    (0..runs).map(once).fold(f64::INFINITY, f64::min)
}

fn program_time(runner: &Runner, program: Program, input: &[u8]) -> Result<f64, String> {
    let began = children();
    runner.run(program, input)?;
    Ok(children() - began)
}

/// Each runner's time for the input less its time for the one of few vertices. The runners take turns, so that all meet the same
/// machine.
fn above_few(runs: usize, runners: &[&Runner], program: Program, input: &[u8], few: &[u8]) -> Result<Vec<f64>, String> {
    let mut whole = vec![f64::INFINITY; runners.len()];
    let mut off = whole.clone();
    for _ in 0..runs {
        for (k, runner) in runners.iter().enumerate() {
            whole[k] = whole[k].min(program_time(runner, program, input)?);
            off[k] = off[k].min(program_time(runner, program, few)?);
        }
    }
    Ok(whole.iter().zip(off).map(|(whole, off)| whole - off).collect())
}

/// A table as Markdown has it.
fn print_table(title: &str, head: &[&str], rows: Vec<Vec<String>>) {
    println!("\n{title}\n");
    println!("| {} |", head.join(" | "));
    println!("|{}", "---|".repeat(head.len()));
    rows.iter().for_each(|cells| println!("| {} |", cells.join(" | ")));
}

/// What a row's first cell says, and its other cells.
fn cells(first: String, rest: &[String]) -> Vec<String> {
    std::iter::once(first).chain(rest.iter().cloned()).collect()
}

fn print_programs(rows: &[Row]) {
    let how = if std::env::consts::ARCH == NATIVE { "run natively" } else { "run under the emulator" };
    let title = format!("Programs ({how}), the text read and written, less {FEW} vertices");
    let head = ["n", "meshlines", "the same in C", "meshlines / C", "answers", "rebuildlines", "rebuildlines / meshlines"];
    let row = |Row { n, programs: p, .. }: &Row| {
        let c = p.c.map_or(["-".into(), "-".into()], |c| [format!("{c:.2}"), format!("{:.2}", p.meshlines / c)]);
        let rest =
            [format!("{:.2}", p.answers), format!("{:.2}", p.rebuildlines), format!("{:.2}", p.rebuildlines / p.meshlines)];
        cells(n.to_string(), &[vec![format!("{:.2}", p.meshlines)], c.to_vec(), rest.to_vec()].concat())
    };
    print_table(&title, &head, rows.iter().map(row).collect());
    let times: [fn(&Row) -> f64; 3] =
        [|row| row.programs.meshlines, |row| row.programs.answers, |row| row.programs.rebuildlines];
    print_growth(&format!("Growth of the programs ({how})"), &["meshlines", "answers", "rebuildlines"], rows, &times);
}

fn print_inside(rows: &[Row]) {
    let head =
        ["n", "build, plain Rust", "build, slow", "slow / plain", "questions, plain Rust", "questions, slow", "slow / plain"];
    let row = |Row { n, inside: i, .. }: &Row| {
        let build =
            [format!("{:.2}", i.plain_build), format!("{:.2}", i.slow_build), format!("{:.1}", i.slow_build / i.plain_build)];
        let ratio = format!("{:.0}", i.slow_questions / i.plain_questions);
        let questions = [format!("{:.3}", i.plain_questions), format!("{:.2}", i.slow_questions), ratio];
        cells(n.to_string(), &[build, questions].concat())
    };
    print_table("Inside the harness (native), no text", &head, rows.iter().map(row).collect());
    let names = ["build, plain Rust", "build, slow", "questions, plain Rust", "questions, slow"];
    let times: [fn(&Row) -> f64; 4] = [
        |row| row.inside.plain_build,
        |row| row.inside.slow_build,
        |row| row.inside.plain_questions,
        |row| row.inside.slow_questions,
    ];
    print_growth("Growth inside the harness (native)", &names, rows, &times);
}

/// How many times as long it takes where n grows fourfold.
fn print_growth(title: &str, names: &[&str], rows: &[Row], times: &[fn(&Row) -> f64]) {
    let head: Vec<&str> = std::iter::once("n").chain(names.iter().copied()).collect();
    let row = |pair: &[Row]| {
        let grown: Vec<String> = times.iter().map(|time| format!("{:.1}", time(&pair[1]) / time(&pair[0]))).collect();
        cells(format!("{} to {}", pair[0].n, pair[1].n), &grown)
    };
    print_table(&format!("{title}: 4 is linear, 16 is quadratic"), &head, rows.windows(2).map(row).collect());
}

fn print_reads(rows: &[Row]) {
    let row = |Row { n, reads, .. }: &Row| {
        let mean = format!("{:.2}", reads.all as f64 / *n as f64);
        cells(n.to_string(), &[reads.all.to_string(), mean, reads.most.to_string()])
    };
    print_table("Target's reads, all edges asked (counts)", &["n", "all", "a vertex", "most"], rows.iter().map(row).collect());
}

/// Six references of two bytes and three service bytes, against 19 references: three for each of six half-edges, and one.
fn print_bytes() {
    let (array, half_edges) = (6 * 2 + 3, 19 * 2);
    println!("\nBytes a vertex: array {array} (six references of 2, three service bytes), half-edges {half_edges} (19 references of 2).");
    println!("half-edges/array {:.2}; in references alone {:.2}", half_edges as f64 / array as f64, 19.0 / 6.0);
}
