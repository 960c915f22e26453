use compare::{bench, documents, literals, tables};
use oracle::run::Tally;
use std::process::ExitCode;

const USAGE: &str = "usage: compare literals [seed]
       compare tables [seed]
       compare documents [seed]
       compare bench [rounds]";

const SEED: u64 = 1;

fn main() -> ExitCode {
    let arguments: Vec<String> = std::env::args().skip(1).collect();
    let arguments: Vec<&str> = arguments.iter().map(String::as_str).collect();
    let (run, number) = match arguments[..] {
        [run] => (run, None),
        [run, number] => (run, Some(number.parse::<u64>())),
        _ => ("", None),
    };
    match (run, number.transpose()) {
        ("literals", Ok(seed)) => {
            let plan = literals::Plan::full(seed.unwrap_or(SEED));
            ended(literals::run(&plan))
        }
        ("tables", Ok(seed)) => {
            let plan = tables::Plan::full(seed.unwrap_or(SEED));
            ended(tables::run(&plan))
        }
        ("documents", Ok(seed)) => {
            let plan = documents::Plan::full(seed.unwrap_or(SEED));
            ended(documents::run(&plan))
        }
        ("bench", Ok(rounds)) => {
            bench::run(rounds.map(|rounds| rounds as usize));
            ExitCode::SUCCESS
        }
        _ => {
            eprintln!("{USAGE}");
            ExitCode::from(2)
        }
    }
}

fn ended(tally: Tally) -> ExitCode {
    println!("{tally}");
    if tally.failed > 0 {
        return ExitCode::FAILURE;
    }
    ExitCode::SUCCESS
}
