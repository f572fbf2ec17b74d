//! The comparison: cases are made, run and held to the slow engine's answers by a few workers; the first difference is cut down
//! and shown.

use std::sync::atomic::{AtomicBool, AtomicUsize, Ordering};
use std::sync::Mutex;
use std::thread;
use std::time::{Duration, Instant};

use crate::cases::{label, make, Case, Kind};
use crate::oracle::{expected, Program};
use crate::runner::Runner;
use crate::shrink::shrink;
use crate::tally::Tally;

/// What to compare.
pub struct Plan {
    pub seed: u64,
    pub items: Vec<(Kind, usize)>,
    pub programs: Vec<Program>,
    pub workers: usize,
    pub progress: bool,
    pub all_numbers: bool,
}

/// Inputs that a difference may cost while it is cut down.
const TRIES: usize = 1_500;
const SHRINKING: Duration = Duration::from_secs(180);
const PROGRESS: Duration = Duration::from_secs(5);
/// Lines of an output that are shown round the first difference.
const SHOWN: usize = 12;

struct State {
    next: AtomicUsize,
    stop: AtomicBool,
    tally: Mutex<Tally>,
    difference: Mutex<Option<(Kind, usize, Case)>>,
}

/// Compares all items; true where nothing differs and, where the plan asks for it, every number has been met.
pub fn compare(plan: &Plan, runner: &Runner) -> bool {
    let state = State {
        next: AtomicUsize::new(0),
        stop: AtomicBool::new(false),
        tally: Mutex::new(Tally::default()),
        difference: Mutex::new(None),
    };
    let began = Instant::now();
    thread::scope(|scope| {
        for _ in 0..plan.workers {
            scope.spawn(|| work(plan, runner, &state));
        }
        if plan.progress {
            report_progress(plan, &state, began);
        }
    });
    let tally = state.tally.into_inner().expect("no worker fails");
    print!("{tally}");
    println!("harness: seed {}, {} items, {:.0} s", plan.seed, plan.items.len(), began.elapsed().as_secs_f64());
    match state.difference.into_inner().expect("no worker fails") {
        None => !plan.all_numbers || plan.programs.iter().all(|&program| met_all(&tally, program)),
        Some((kind, index, case)) => {
            show(plan, runner, kind, index, &case);
            false
        }
    }
}

fn met_all(tally: &Tally, program: Program) -> bool {
    let missing = tally.missing(program);
    if !missing.is_empty() {
        println!("harness: {} met no case of {missing:?}", program.name());
    }
    missing.is_empty()
}

fn work(plan: &Plan, runner: &Runner, state: &State) {
    // A worker that fails must not leave the others at work.
    let mut guard = StopAtEnd(state, true);
    loop {
        let turn = state.next.fetch_add(1, Ordering::Relaxed);
        if turn >= plan.items.len() || state.stop.load(Ordering::Relaxed) {
            break;
        }
        let (kind, index) = plan.items[turn];
        for case in make(plan.seed, kind, index) {
            if !plan.programs.contains(&case.program) {
                continue;
            }
            state.tally.lock().expect("no worker fails").count(kind, &case);
            if runner.run(case.program, &case.input).as_ref() != Ok(&case.expected) {
                state.stop.store(true, Ordering::Relaxed);
                state.difference.lock().expect("no worker fails").get_or_insert((kind, index, case));
                break;
            }
        }
    }
    guard.1 = false;
}

struct StopAtEnd<'a>(&'a State, bool);

impl Drop for StopAtEnd<'_> {
    fn drop(&mut self) {
        if self.1 {
            self.0.stop.store(true, Ordering::Relaxed);
        }
    }
}

fn report_progress(plan: &Plan, state: &State, began: Instant) {
    let all = plan.items.len();
    let mut last = Instant::now();
    loop {
        let done = state.next.load(Ordering::Relaxed).min(all);
        let over = done == all || state.stop.load(Ordering::Relaxed);
        if over || last.elapsed() > PROGRESS {
            let seconds = began.elapsed().as_secs_f64();
            eprintln!("harness: {done} of {all} items, {seconds:.0} s, {:.1} a second", done as f64 / seconds);
            last = Instant::now();
        }
        if over {
            return;
        }
        thread::sleep(Duration::from_millis(200));
    }
}

/// Cuts the input down as far as it still differs, and shows it with both outputs.
fn show(plan: &Plan, runner: &Runner, kind: Kind, index: usize, case: &Case) {
    let program = case.program;
    println!("DIFFERENCE: {}, {}, seed {}", program.name(), label(kind, index), plan.seed);
    let until = Instant::now() + SHRINKING;
    let mut tries = 0;
    let mut differs = |input: &[u8]| {
        tries += 1;
        tries <= TRIES && Instant::now() < until && runner.run(program, input) != Ok(expected(program, input))
    };
    // A piece's answer is the specification's own; should the slow engine err with the program, there is nothing to cut down.
    let differs_here = differs(&case.input);
    let input = if differs_here { shrink(program, &case.input, &mut differs) } else { case.input.clone() };
    let wanted = if differs_here { expected(program, &input) } else { case.expected.clone() };
    println!("--- input, cut down from {} to {} bytes", case.input.len(), input.len());
    print!("{}", readable(&input));
    match runner.run(program, &input) {
        Ok(wrote) => show_outputs(program, &wanted, &wrote),
        Err(failure) => println!("--- {}: {failure}", program.name()),
    }
    println!("--- end of the difference");
}

fn show_outputs(program: Program, wanted: &[u8], wrote: &[u8]) {
    let (wanted, wrote) = (readable(wanted), readable(wrote));
    let same = wanted.lines().zip(wrote.lines()).take_while(|(a, b)| a == b).count();
    println!("--- the slow engine, from line {}", same + 1);
    wanted.lines().skip(same).take(SHOWN).for_each(|line| println!("{line}"));
    println!("--- {}, from line {}", program.name(), same + 1);
    wrote.lines().skip(same).take(SHOWN).for_each(|line| println!("{line}"));
}

/// The text as it is, with other bytes than printable ones and line feeds written as escapes, and a mark where the last line
/// has no line feed.
fn readable(text: &[u8]) -> String {
    let mut shown = String::new();
    for &byte in text {
        match byte {
            b'\n' => shown.push('\n'),
            b'\\' => shown.push_str("\\\\"),
            b' '..=b'~' => shown.push(byte as char),
            _ => shown.push_str(&format!("\\x{byte:02X}")),
        }
    }
    if !text.ends_with(b"\n") {
        shown.push_str("\\(no line feed)\n");
    }
    shown
}
