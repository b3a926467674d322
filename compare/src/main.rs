//! Compares the second program with the proved library, through the C interface, and ends at the first difference.
//!
//!     compare [--seed S] [--cases N] [--workers W]   N cases made from the seed S
//!     compare [--seed S] --case K                    case K alone, as a difference's report names it
//!     compare --program PATH [--seed S] [--cases N]  the program `slots` at PATH instead of the library

use std::collections::BTreeMap;
use std::io::Write;
use std::process::{Command, ExitCode, Stdio};
use std::sync::atomic::{AtomicBool, Ordering};
use std::time::Instant;

use compare::harness::cases;
use compare::harness::lent::Pattern;
use compare::harness::library::Library;
use compare::harness::tally::Tally;
use compare::second::program::printed;

/// The proved library.
#[cfg(not(feature = "mock"))]
fn library(_fault: usize) -> Library {
    use compare::harness::library::{Bytes, Room};
    extern "C" {
        fn slots_read(text: Bytes, text_len: usize, table: Room, table_len: usize) -> u64;
        fn slots_write(table: Bytes, table_len: usize, text: Room, text_len: usize) -> u64;
        fn slots_judge(table: Bytes, table_len: usize) -> u64;
        fn slots_count(table: Bytes, table_len: usize) -> u64;
        fn slots_match(
            table: Bytes,
            table_len: usize,
            children: Bytes,
            children_len: usize,
            slots: Room,
            slots_len: usize,
        ) -> u64;
        fn slots_step(table: Bytes, table_len: usize, slot: usize, name: Bytes, name_len: usize) -> u64;
        fn slots_part(table: Bytes, table_len: usize, children: Bytes, children_len: usize) -> u64;
    }
    Library {
        read: slots_read,
        write: slots_write,
        judge: slots_judge,
        count: slots_count,
        matching: slots_match,
        step: slots_step,
        part: slots_part,
    }
}

/// A stand-in for the library, which says nothing about it.
#[cfg(feature = "mock")]
fn library(fault: usize) -> Library {
    println!("MOCK: this run says nothing about the library ({})", compare::mock::FAULTS[fault]);
    compare::mock::library(fault)
}

/// The cases of the library, and the inputs of the program, in a run that names no number.
const CASES: u64 = 300_000;
const INPUTS: u64 = 10_000;

/// How the program's answers start: the last line that it prints, but for the values.
const ANSWERS: [&str; 14] = [
    "refused 1",
    "refused 3",
    "refused 4",
    "refused 5",
    "refused 6",
    "refused 7",
    "refused 8",
    "ambiguous",
    "allowed",
    "stopped",
    "short",
    "children refused 21",
    "children refused 22",
    "children refused 23",
];

struct Options {
    seed: u64,
    cases: Option<u64>,
    case: Option<u64>,
    workers: u64,
    fault: usize,
    program: Option<String>,
}

impl Options {
    /// The cases to run: one alone, or as many as wanted.
    fn range(&self, usual: u64) -> (u64, u64) {
        self.case.map_or((0, self.cases.unwrap_or(usual)), |case| (case, case + 1))
    }
}

fn options() -> Option<Options> {
    let mut options = Options { seed: 1, cases: None, case: None, workers: 2, fault: 0, program: None };
    let mut words = std::env::args().skip(1);
    while let Some(flag) = words.next() {
        let value = words.next()?;
        match flag.as_str() {
            "--seed" => options.seed = value.parse().ok()?,
            "--cases" => options.cases = Some(value.parse().ok()?),
            "--case" => options.case = Some(value.parse().ok()?),
            "--workers" => options.workers = value.parse().ok().filter(|workers| *workers > 0)?,
            "--fault" => options.fault = value.parse().ok()?,
            "--program" => options.program = Some(value),
            _ => return None,
        }
    }
    Some(options)
}

fn main() -> ExitCode {
    let Some(options) = options() else {
        eprintln!("usage: compare [--seed S] [--cases N] [--case K] [--workers W] [--program PATH]");
        return ExitCode::from(2);
    };
    let same = match &options.program {
        Some(program) => compare_program(program, &options),
        None => compare_library(&options),
    };
    if same {
        ExitCode::SUCCESS
    } else {
        ExitCode::FAILURE
    }
}

/// Runs the cases, each worker every so many, to the first difference; what was met, and whether there was none.
fn each<Met: Default + Send>(
    options: &Options,
    usual: u64,
    run: impl Fn(&mut Met, u64) -> Result<(), String> + Sync,
) -> (Vec<Met>, bool) {
    let (from, to) = options.range(usual);
    let differs = AtomicBool::new(false);
    let work = |worker: u64| {
        let mut met = Met::default();
        for case in (from + worker..to).step_by(options.workers as usize) {
            if differs.load(Ordering::Relaxed) {
                break;
            }
            if let Err(difference) = run(&mut met, case) {
                differs.store(true, Ordering::Relaxed);
                let program = options.program.as_ref().map_or(String::new(), |path| format!(" --program {path}"));
                println!("DIFFERENCE in case {case}: {difference}");
                println!("again: compare/run{program} --seed {} --case {case}", options.seed);
            }
        }
        met
    };
    let met = std::thread::scope(|scope| {
        let workers: Vec<_> = (0..options.workers).map(|worker| scope.spawn(move || work(worker))).collect();
        workers.into_iter().map(|worker| worker.join().expect("a worker's own fault")).collect()
    });
    (met, !differs.into_inner())
}

/// Says how a run ended.
fn tell(options: &Options, usual: u64, what: &str, started: Instant, same: bool) {
    let (from, to) = options.range(usual);
    let verdict = if same { "no difference" } else { "a difference" };
    let seconds = started.elapsed().as_secs_f64();
    println!("seed {}, {} {what} in {seconds:.1} s: {verdict}", options.seed, to - from);
}

/// Holds the library to the second program, and tells what was met; false at a difference, or if some answer was never
/// met in a whole run.
fn compare_library(options: &Options) -> bool {
    let (library, pattern, started) = (library(options.fault), Pattern::new(options.seed), Instant::now());
    let run = |tally: &mut Tally, case: u64| cases::run(library, &pattern, tally, options.seed, case);
    let (met, same) = each(options, CASES, run);
    let mut tally = Tally::default();
    met.iter().for_each(|one| tally.add(one));
    print!("{tally}");
    let Tally { models, tables, lists, .. } = tally;
    println!("{models} models, {tables} tables, {lists} child lists, {} questions", tally.questions());
    let whole = same && options.case.is_none();
    let thin = if whole { tally.thin(100) } else { Vec::new() };
    for (answer, met) in &thin {
        println!("met under 100 times: {answer}: {met}");
    }
    tell(options, CASES, "cases", started, same);
    same && thin.iter().all(|(_, met)| *met > 0)
}

/// Runs the program `slots` on as many inputs, and holds what it prints, and its status, to the second program; false at
/// a difference, or if some answer was never met in a whole run.
fn compare_program(program: &str, options: &Options) -> bool {
    let started = Instant::now();
    let run = |met: &mut BTreeMap<&str, u64>, case: u64| {
        let input = cases::program_input(options.seed, case);
        let expected = printed(&input);
        let answer = ANSWERS.iter().find(|answer| says(&expected, answer)).expect("it is one of them");
        *met.entry(*answer).or_default() += 1;
        let output = run_program(program, &input);
        if output.as_ref().ok() == Some(&(true, expected.clone())) {
            return Ok(());
        }
        let prints = match output {
            Ok((true, printed)) => format!("prints \"{}\"", printed.escape_ascii()),
            Ok((false, printed)) => format!("prints \"{}\", and its status is not 0", printed.escape_ascii()),
            Err(error) => error.to_string(),
        };
        let (input, expected) = (input.escape_ascii(), expected.escape_ascii());
        Err(format!("the input is \"{input}\"\n{program} {prints}\nthe second program prints \"{expected}\""))
    };
    let (met, same) = each(options, INPUTS, run);
    let times = |answer: &&str| met.iter().filter_map(|one| one.get(answer)).sum::<u64>();
    let told: Vec<String> = ANSWERS.iter().map(|answer| format!("{answer} {}", times(answer))).collect();
    println!("{program}: {}", told.join(" | "));
    let whole = same && options.case.is_none();
    let never = |answer: &&&str| whole && times(answer) == 0;
    ANSWERS.iter().filter(never).for_each(|answer| println!("never met: {answer}"));
    tell(options, INPUTS, "inputs", started, same);
    same && !ANSWERS.iter().any(|answer| never(&answer))
}

/// Whether some line of what the program prints says this: it starts so, and then come other words or none.
fn says(printed: &[u8], answer: &str) -> bool {
    let so = |line: &[u8]| line.strip_prefix(answer.as_bytes()).is_some_and(|rest| rest.first() == Some(&b' '));
    printed.split(|byte| *byte == b'\n').any(so)
}

/// Whether the program ends with status 0, and what it prints.
fn run_program(program: &str, input: &[u8]) -> std::io::Result<(bool, Vec<u8>)> {
    let mut child = Command::new(program).stdin(Stdio::piped()).stdout(Stdio::piped()).spawn()?;
    // The program may end before it has read all of a long input.
    let _ = child.stdin.take().expect("it was piped").write_all(input);
    let output = child.wait_with_output()?;
    Ok((output.status.success(), output.stdout))
}
