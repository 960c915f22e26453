//! The command line tool over the proved library. `dervisclo --help` says what it does.

mod arguments;
mod commands;
mod help;
mod input;
mod output;
mod problem;

use arguments::Asked;
use problem::Problem;
use std::process::ExitCode;

fn main() -> ExitCode {
    match run() {
        Ok(()) => ExitCode::SUCCESS,
        Err(problem) => {
            problem.tell();
            ExitCode::from(problem.status())
        }
    }
}

fn run() -> Result<(), Problem> {
    match arguments::asked(std::env::args_os().skip(1))? {
        Asked::Help(topic) => output::to_standard_output(help::text(topic).as_bytes()),
        Asked::Version => {
            let version = concat!("dervisclo ", env!("CARGO_PKG_VERSION"), "\n");
            output::to_standard_output(version.as_bytes())
        }
        Asked::Work(command, options) => commands::run(command, &options),
    }
}
