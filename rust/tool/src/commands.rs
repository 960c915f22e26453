//! The four commands. Nothing is written unless all of it can be.

use crate::arguments::{Command, Options};
use crate::input;
use crate::output;
use crate::problem::Problem;
use dervisclo::{Form, Kind, Table, TableRefusal};
use dervisclo::{check_document, print_literal_to_vec, read_literal_to_vec};
use std::io::{self, Write};

/// A value of more bytes is refused, so no more are read.
const LONGEST_VALUE: u64 = 65_536;

pub fn run(command: Command, options: &Options) -> Result<(), Problem> {
    match command {
        Command::Print => print(options),
        Command::Check => check(options),
        Command::PrintLiteral => print_literal(options),
        Command::ReadLiteral => read_literal(options),
    }
}

fn print(options: &Options) -> Result<(), Problem> {
    let (name, table) = table(options)?;
    let text = table
        .print(&options.style())
        .map_err(|refusal| Problem::refused(&name, refusal.number(), refusal))?;
    output::write(options.output.as_deref(), &text)
}

fn check(options: &Options) -> Result<(), Problem> {
    let (name, table) = table(options)?;
    table
        .check()
        .map_err(|refusal| Problem::refused(&name, refusal.number(), refusal))?;
    let (nodes, pool) = (table.nodes(), table.pool.len());
    let line = format!("{name}: accepted, {nodes} nodes, a pool of {pool} bytes\n");
    output::to_standard_output(line.as_bytes())
}

/// The table and the name of its file. Settings are looked at first: 1 goes before whatever is wrong with the file.
fn table(options: &Options) -> Result<(String, Table), Problem> {
    let file = options.operand.clone().unwrap_or_default();
    let name = input::name(&file);
    match check_document(&options.style(), &[], &[]) {
        Err(refusal @ TableRefusal::Settings) => {
            Err(Problem::refused(&name, refusal.number(), refusal))
        }
        _ => Ok((name, input::table(&file)?)),
    }
}

fn print_literal(options: &Options) -> Result<(), Problem> {
    let (name, value) = input::argument(options.operand.clone(), LONGEST_VALUE + 1)?;
    let kind = match options.description {
        true => Kind::Description,
        false => Kind::String,
    };
    let text = print_literal_to_vec(&value, kind, &options.style())
        .map_err(|refusal| Problem::refused(&name, refusal.number(), refusal))?;
    output::write(options.output.as_deref(), &text)
}

fn read_literal(options: &Options) -> Result<(), Problem> {
    let (name, text) = input::argument(options.operand.clone(), u64::MAX)?;
    let (form, value) = read_literal_to_vec(&text)
        .map_err(|refusal| Problem::refused(&name, refusal.number(), refusal))?;
    output::write(options.output.as_deref(), &value)?;
    let form = match form {
        Form::Quoted => "quoted",
        Form::Block => "block",
    };
    // the value is written: the form alone is no reason to fail
    let _ = writeln!(io::stderr(), "form: {form}");
    Ok(())
}
