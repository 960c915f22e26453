//! `--help`, of the whole and of each command.

use crate::arguments::Command;
use crate::problem::{INPUT_OUTPUT, USAGE};
use dervisclo::refusals;

const WHOLE: &str = "\
dervisclo prints GraphQL documents and string literals as apollo-compiler 1.33.0
does, by a proved library.

Usage: dervisclo COMMAND [OPTIONS] ..

Commands:
  print FILE             prints the document of a table file as GraphQL text
  check FILE             says whether the table of a table file can be printed
  print-literal [VALUE]  prints a value as a GraphQL string literal
  read-literal [TEXT]    reads a GraphQL string literal and gives its value

  COMMAND --help         says what a command takes
  --help, --version

A table file (*.dvt) holds a document as a node table. docs/TABLE-FILE.md has
its format, and samples/registry.dvt is one.

Examples:
  dervisclo print samples/registry.dvt
  dervisclo print --breaks off --output shop.graphql samples/registry.dvt
  dervisclo check samples/registry.dvt
  dervisclo print-literal --description 'say \"hi\"'
  dervisclo read-literal '\"\\u0061bc\"'
";

const PRINT: &str = "\
Usage: dervisclo print FILE [OPTIONS]

Prints the document of a table file as GraphQL text.

  FILE             a table file (*.dvt); - is standard input
";

const CHECK: &str = "\
Usage: dervisclo check FILE [OPTIONS]

Says whether the table of a table file can be printed under these settings. An
accepted table is told in a line on standard output, with its size; why one is
refused is told on standard error.

  FILE             a table file (*.dvt); - is standard input
";

const PRINT_LITERAL: &str = "\
Usage: dervisclo print-literal [VALUE] [OPTIONS]

Prints a value as a GraphQL string literal, with no line feed behind it.

  VALUE            any UTF-8 of up to 65,536 bytes. Without it, or where it is
                   -, standard input is the value, to the last byte; printf %s
                   adds no line feed
  --description    the value is a description, and takes block form (three
                   quotes) where it can; any other string only where it also
                   holds a line feed
";

const READ_LITERAL: &str = "\
Usage: dervisclo read-literal [TEXT] [OPTIONS]

Reads a GraphQL string literal and writes its value, with no line feed behind
it. The literal's form, quoted or block, is told on standard error.

  TEXT             one literal, with its quotes and nothing around it. Without
                   it, or where it is -, standard input is the text, to the last
                   byte
";

const STYLE: &str = "  --breaks on|off  line breaks, on by default. Off, everything stands on one
                   line and every literal is quoted
  --prefix TEXT    what a line is indented by, once per level: up to 16 spaces
                   and tabs, two spaces by default; \\t is a tab
";

const DOCUMENT_LEVEL: &str =
    "  --level N        the level that lines start from, up to 64, 0 by default. The
                   first line is not indented
";

const LITERAL_LEVEL: &str =
    "  --level N        the level that lines start from, up to 128, 0 by default. The
                   first line is not indented
";

const OUTPUT: &str = "  --output FILE    what is written to instead of standard output. It is left
                   alone where anything is refused
";

const MORE: &str = "
Options may also be written --option=VALUE; -- ends them. Exit statuses, and the
numbers of refusals: dervisclo --help
";

/// Widest line.
const WIDTH: usize = 80;

/// What `--help` shows, of one command or of the whole.
pub fn text(topic: Option<Command>) -> String {
    match topic {
        None => format!("{WHOLE}{}", statuses()),
        Some(Command::Print) => [PRINT, STYLE, DOCUMENT_LEVEL, OUTPUT, MORE].concat(),
        Some(Command::Check) => [CHECK, STYLE, DOCUMENT_LEVEL, MORE].concat(),
        Some(Command::PrintLiteral) => [PRINT_LITERAL, STYLE, LITERAL_LEVEL, OUTPUT, MORE].concat(),
        Some(Command::ReadLiteral) => [READ_LITERAL, OUTPUT, MORE].concat(),
    }
}

fn statuses() -> String {
    let mut text = format!(
        "\nExit status: 0; {USAGE} where the command line is wrong; {INPUT_OUTPUT} where a file cannot be\n\
         read or written; otherwise the number of the refusal, which is told on\n\
         standard error with its place:\n"
    );
    for row in refusals::TABLE {
        let name = format!("{:>4}  {:<10}", row.number, row.name);
        text += &wrapped(&name, row.words);
    }
    text
}

/// The words behind the name, in lines of no more than the width.
fn wrapped(name: &str, words: &str) -> String {
    let indent = name.chars().count();
    let mut text = name.to_string();
    let mut column = indent;
    for word in words.split(' ') {
        let length = word.chars().count();
        if column > indent && column + 1 + length > WIDTH {
            text += &format!("\n{:indent$}", "");
            column = indent;
        }
        if column > indent {
            text.push(' ');
            column += 1;
        }
        text += word;
        column += length;
    }
    text.push('\n');
    text
}
