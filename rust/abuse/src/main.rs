use abuse::entries::Entries;
use abuse::fuzz::{self, Plan, MOST_WORKERS};
use abuse::{measure, overread};
use oracle::crate_printer;
use oracle::run::{Tally, ABSENT};
use std::process::ExitCode;
use std::time::Instant;

const USAGE: &str = "usage: abuse fuzz [--seed N] [--inputs N] [--workers N] [--heap] [--quick]
       abuse stack [--seed N] [--inputs N] [--quick]
       abuse one NUMBER [--seed N] [--heap]
       abuse overread host|library";

const SEED: u64 = 1;
const INPUTS: u64 = 10_000_000;
const QUICK: u64 = 200_000;
/// Of the stack's run.
const MEASURED: u64 = 300_000;
const QUICKLY_MEASURED: u64 = 20_000;

/// The arguments after the first.
#[derive(Default)]
struct Given {
    seed: Option<u64>,
    inputs: Option<u64>,
    workers: Option<u64>,
    heap: bool,
    quick: bool,
    rest: Vec<String>,
}

fn given(arguments: &[String]) -> Option<Given> {
    let mut given = Given::default();
    let mut arguments = arguments.iter();
    while let Some(argument) = arguments.next() {
        let mut number = || arguments.next()?.parse().ok();
        match argument.as_str() {
            "--seed" => given.seed = Some(number()?),
            "--inputs" => given.inputs = Some(number()?),
            "--workers" => given.workers = Some(number()?),
            "--heap" => given.heap = true,
            "--quick" => given.quick = true,
            other if other.starts_with('-') => return None,
            other => given.rest.push(other.into()),
        }
    }
    Some(given)
}

fn main() -> ExitCode {
    let arguments: Vec<String> = std::env::args().skip(1).collect();
    match arguments
        .split_first()
        .and_then(|(run, rest)| started(run, given(rest)?))
    {
        Some(status) => status,
        None => {
            eprintln!("{USAGE}");
            ExitCode::from(2)
        }
    }
}

fn started(run: &str, given: Given) -> Option<ExitCode> {
    let pick = |quick, full| if given.quick { quick } else { full };
    let cores = std::thread::available_parallelism().map_or(1, |cores| cores.get());
    let workers = given.workers.map_or(cores, |workers| workers as usize);
    let plan = Plan {
        seed: given.seed.unwrap_or(SEED),
        inputs: given.inputs.unwrap_or(pick(QUICK, INPUTS)),
        workers: workers.clamp(1, MOST_WORKERS),
        is_heap: given.heap,
    };
    let rest: Vec<&str> = given.rest.iter().map(String::as_str).collect();
    match (run, &rest[..]) {
        ("fuzz", []) => Some(ended(|| fuzzed(&plan))),
        ("stack", []) => {
            let inputs = given.inputs.unwrap_or(pick(QUICKLY_MEASURED, MEASURED));
            Some(ended(|| measure::run(plan.seed, inputs)))
        }
        ("one", [number]) => {
            let number = number.parse().ok()?;
            Some(ended(|| fuzz::one(&plan, number)))
        }
        ("overread", ["host"]) => Some(unseen(overread::by_host)),
        ("overread", ["library"]) => Some(unseen(overread::by_library)),
        _ => None,
    }
}

fn fuzzed(plan: &Plan) -> Tally {
    let memory = if plan.is_heap {
        "blocks of the heap"
    } else {
        "memory beside guarded pages"
    };
    println!(
        "seed {}, {} inputs in {memory}, workers: {}",
        plan.seed, plan.inputs, plan.workers
    );
    fuzz::run(plan, Entries::LIBRARY)
}

fn ended(run: impl FnOnce() -> Tally) -> ExitCode {
    if !crate_printer::PRESENT {
        println!("{ABSENT}");
    }
    let start = Instant::now();
    let tally = run();
    println!("{:.1} s", start.elapsed().as_secs_f64());
    println!("{tally}");
    if tally.failed > 0 {
        return ExitCode::FAILURE;
    }
    ExitCode::SUCCESS
}

/// Comes here only where nothing watches.
fn unseen(access: fn()) -> ExitCode {
    access();
    println!("a byte past a block was read unseen");
    ExitCode::SUCCESS
}
