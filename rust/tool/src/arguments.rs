//! The command line, taken apart.

use crate::problem::Problem;
use dervisclo::Style;
use std::ffi::OsString;
use std::os::unix::ffi::{OsStrExt, OsStringExt};

#[derive(Clone, Copy, Debug, Eq, PartialEq)]
pub enum Command {
    Print,
    Check,
    PrintLiteral,
    ReadLiteral,
}

impl Command {
    pub const ALL: [Self; 4] = [
        Self::Print,
        Self::Check,
        Self::PrintLiteral,
        Self::ReadLiteral,
    ];

    pub fn name(self) -> &'static str {
        match self {
            Self::Print => "print",
            Self::Check => "check",
            Self::PrintLiteral => "print-literal",
            Self::ReadLiteral => "read-literal",
        }
    }

    fn takes(self, flag: &[u8]) -> bool {
        match flag {
            b"--breaks" | b"--prefix" | b"--level" => self != Self::ReadLiteral,
            b"--output" => self != Self::Check,
            b"--description" => self == Self::PrintLiteral,
            _ => false,
        }
    }
}

/// What the command line asks for.
pub enum Asked {
    Help(Option<Command>),
    Version,
    Work(Command, Options),
}

pub struct Options {
    /// FILE, VALUE or TEXT.
    pub operand: Option<OsString>,
    pub breaks: bool,
    pub prefix: Vec<u8>,
    pub level: u64,
    pub description: bool,
    pub output: Option<OsString>,
}

impl Default for Options {
    fn default() -> Self {
        let style = Style::default();
        Self {
            operand: None,
            breaks: style.breaks,
            prefix: style.prefix.to_vec(),
            level: style.level,
            description: false,
            output: None,
        }
    }
}

impl Options {
    pub fn style(&self) -> Style<'_> {
        Style {
            breaks: self.breaks,
            prefix: &self.prefix,
            level: self.level,
        }
    }
}

/// Takes the words behind the program's name apart.
pub fn asked(mut words: impl Iterator<Item = OsString>) -> Result<Asked, Problem> {
    let Some(first) = words.next() else {
        return Err(usage("no command is given"));
    };
    match first.as_bytes() {
        b"--help" | b"-h" | b"help" => match words.next() {
            None => Ok(Asked::Help(None)),
            Some(topic) => command(topic).map(|topic| Asked::Help(Some(topic))),
        },
        b"--version" | b"-V" => Ok(Asked::Version),
        _ => work(command(first)?, words),
    }
}

fn command(word: OsString) -> Result<Command, Problem> {
    let named = Command::ALL
        .into_iter()
        .find(|command| word == command.name());
    named.ok_or_else(|| usage(&format!("there is no command `{}`", word.display())))
}

fn work(command: Command, mut words: impl Iterator<Item = OsString>) -> Result<Asked, Problem> {
    let mut options = Options::default();
    let mut flags_are_over = false;
    while let Some(word) = words.next() {
        let bytes = word.as_bytes();
        if flags_are_over || bytes == b"-" || !bytes.starts_with(b"-") {
            if options.operand.is_some() {
                let what = format!("`{}` is one word too many", word.display());
                return Err(usage(&what));
            }
            options.operand = Some(word);
            continue;
        }
        match bytes {
            b"--" => flags_are_over = true,
            b"--help" | b"-h" => return Ok(Asked::Help(Some(command))),
            _ => options.flag(command, bytes, &mut words)?,
        }
    }
    let needs_file = matches!(command, Command::Print | Command::Check);
    if needs_file && options.operand.is_none() {
        return Err(usage("no FILE is given; `-` is standard input"));
    }
    Ok(Asked::Work(command, options))
}

impl Options {
    /// `--flag VALUE` or `--flag=VALUE`
    fn flag(
        &mut self,
        command: Command,
        word: &[u8],
        words: &mut impl Iterator<Item = OsString>,
    ) -> Result<(), Problem> {
        let (flag, value) = match word.iter().position(|&byte| byte == b'=') {
            Some(at) => (
                &word[..at],
                Some(OsString::from_vec(word[at + 1..].to_vec())),
            ),
            None => (word, None),
        };
        let shown = String::from_utf8_lossy(flag);
        if !command.takes(flag) {
            return Err(usage(&format!("`{}` takes no `{shown}`", command.name())));
        }
        if flag == b"--description" {
            self.description = true;
            return match value {
                None => Ok(()),
                Some(_) => Err(usage("`--description` takes no value")),
            };
        }
        let Some(value) = value.or_else(|| words.next()) else {
            return Err(usage(&format!("`{shown}` has no value")));
        };
        match flag {
            b"--breaks" => self.breaks = breaks(&value)?,
            b"--prefix" => self.prefix = prefix(value.as_bytes()),
            b"--level" => self.level = level(&value)?,
            _ => self.output = Some(value),
        }
        Ok(())
    }
}

fn breaks(value: &OsString) -> Result<bool, Problem> {
    match value.as_bytes() {
        b"on" => Ok(true),
        b"off" => Ok(false),
        _ => Err(usage("`--breaks` is `on` or `off`")),
    }
}

/// The bytes as they stand, but a tab for each `\t`. The library says whether they are spaces and tabs.
fn prefix(value: &[u8]) -> Vec<u8> {
    let mut prefix = Vec::new();
    let mut rest = value;
    while let [first, behind @ ..] = rest {
        match rest.strip_prefix(br"\t") {
            Some(behind) => {
                prefix.push(b'\t');
                rest = behind;
            }
            None => {
                prefix.push(*first);
                rest = behind;
            }
        }
    }
    prefix
}

/// Any number of digits: a level past 64 bits is refused like any other that is too high.
fn level(value: &OsString) -> Result<u64, Problem> {
    let digits = value.to_str().unwrap_or_default();
    if digits.is_empty() || !digits.bytes().all(|byte| byte.is_ascii_digit()) {
        return Err(usage("`--level` is a number"));
    }
    Ok(digits.parse().unwrap_or(u64::MAX))
}

fn usage(what: &str) -> Problem {
    Problem::Usage(what.into())
}
