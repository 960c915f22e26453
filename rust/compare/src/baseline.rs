//! Plain Rust to time the library against, in the straightforward style of `serialize.rs`: it checks, measures, and
//! writes to the lent output, run by run. Same answers as the library.

use dervisclo::{Form, Kind, Refusal, Style};

const TRIPLE_QUOTE: &str = "\"\"\"";
const ESCAPED_TRIPLE_QUOTE: &str = "\\\"\"\"";

/// Where text goes: counted first, then written.
trait Sink {
    fn write(&mut self, text: &[u8]);
}

struct Count(usize);

impl Sink for Count {
    fn write(&mut self, text: &[u8]) {
        self.0 += text.len();
    }
}

struct Output<'a> {
    bytes: &'a mut [u8],
    at: usize,
}

impl Sink for Output<'_> {
    fn write(&mut self, text: &[u8]) {
        self.bytes[self.at..][..text.len()].copy_from_slice(text);
        self.at += text.len();
    }
}

pub fn print_literal(
    value: &[u8],
    kind: Kind,
    style: &Style<'_>,
    out: &mut [u8],
) -> Result<usize, Refusal> {
    let is_blank = |&byte: &u8| byte == b' ' || byte == b'\t';
    if style.level > 128 || style.prefix.len() > 16 || !style.prefix.iter().all(is_blank) {
        return Err(Refusal::Settings);
    }
    if value.len() > 65_536 {
        return Err(Refusal::Size);
    }
    let value = std::str::from_utf8(value).map_err(|_| Refusal::Text)?;
    let contains_newline = value.contains('\n');
    let prefers_block = kind == Kind::Description || contains_newline;
    if style.breaks && prefers_block && can_be_block(value) {
        let mut count = Count(0);
        print_block(&mut count, value, contains_newline, style);
        let needed = fits(count.0, out)?;
        let mut output = Output { bytes: out, at: 0 };
        print_block(&mut output, value, contains_newline, style);
        return Ok(needed);
    }
    let mut count = Count(0);
    print_quoted(&mut count, value);
    let needed = fits(count.0, out)?;
    print_quoted(&mut Output { bytes: out, at: 0 }, value);
    Ok(needed)
}

fn fits(needed: usize, out: &[u8]) -> Result<usize, Refusal> {
    if needed > out.len() {
        return Err(Refusal::Room { needed });
    }
    Ok(needed)
}

fn print_quoted(sink: &mut impl Sink, value: &str) {
    const HEX: &[u8; 16] = b"0123456789ABCDEF";
    sink.write(b"\"");
    let mut rest = value.as_bytes();
    while let Some(at) = rest.iter().position(|&byte| must_be_escaped(byte)) {
        sink.write(&rest[..at]);
        match rest[at] {
            b'\x08' => sink.write(b"\\b"),
            b'\n' => sink.write(b"\\n"),
            b'\x0C' => sink.write(b"\\f"),
            b'\r' => sink.write(b"\\r"),
            b'"' => sink.write(b"\\\""),
            b'\\' => sink.write(b"\\\\"),
            byte => {
                let digits = [HEX[usize::from(byte >> 4)], HEX[usize::from(byte & 15)]];
                sink.write(b"\\u00");
                sink.write(&digits);
            }
        }
        rest = &rest[at + 1..];
    }
    sink.write(rest);
    sink.write(b"\"");
}

fn must_be_escaped(byte: u8) -> bool {
    (byte < b' ' && byte != b'\t') || byte == b'"' || byte == b'\\'
}

fn can_be_block(value: &str) -> bool {
    if value.contains('\r') {
        return false;
    }
    let first = value.split('\n').next().unwrap_or("");
    let last = value.rsplit('\n').next().unwrap_or("");
    let mut lines = value.split('\n');
    !is_blank(first) && !is_blank(last) && lines.any(|line| !is_blank(line) && indent(line) == 0)
}

fn indent(line: &str) -> usize {
    line.len() - line.trim_start_matches([' ', '\t']).len()
}

fn is_blank(line: &str) -> bool {
    indent(line) == line.len()
}

fn print_block(sink: &mut impl Sink, value: &str, contains_newline: bool, style: &Style<'_>) {
    let multi_line = contains_newline || value.len() > 70 || value.ends_with(['"', '\\']);
    sink.write(TRIPLE_QUOTE.as_bytes());
    if !multi_line {
        print_line(sink, value);
    } else {
        for line in value.split('\n') {
            if line.is_empty() {
                sink.write(b"\n");
            } else {
                new_line(sink, style);
                print_line(sink, line);
            }
        }
        new_line(sink, style);
    }
    sink.write(TRIPLE_QUOTE.as_bytes());
}

fn new_line(sink: &mut impl Sink, style: &Style<'_>) {
    sink.write(b"\n");
    for _ in 0..style.level {
        sink.write(style.prefix);
    }
}

fn print_line(sink: &mut impl Sink, line: &str) {
    let mut rest = line;
    while let Some((before, after)) = rest.split_once(TRIPLE_QUOTE) {
        sink.write(before.as_bytes());
        sink.write(ESCAPED_TRIPLE_QUOTE.as_bytes());
        rest = after;
    }
    sink.write(rest.as_bytes());
}

pub fn read_literal(text: &[u8], out: &mut [u8]) -> Result<(Form, usize), Refusal> {
    let text = std::str::from_utf8(text).map_err(|_| Refusal::Literal)?;
    let mut count = Count(0);
    if let Some(rest) = text.strip_prefix(TRIPLE_QUOTE) {
        let block = Block::new(rest)?;
        block.read(&mut count);
        let needed = fits(count.0, out)?;
        block.read(&mut Output { bytes: out, at: 0 });
        return Ok((Form::Block, needed));
    }
    let rest = text.strip_prefix('"').ok_or(Refusal::Literal)?;
    read_quoted(&mut count, rest)?;
    let needed = fits(count.0, out)?;
    read_quoted(&mut Output { bytes: out, at: 0 }, rest)?;
    Ok((Form::Quoted, needed))
}

/// `rest` starts after the opening quote.
fn read_quoted(sink: &mut impl Sink, rest: &str) -> Result<(), Refusal> {
    let mut rest = rest.as_bytes();
    loop {
        let ends_run = |byte: &u8| matches!(byte, b'"' | b'\\' | b'\n' | b'\r');
        let at = rest.iter().position(ends_run).ok_or(Refusal::Literal)?;
        sink.write(&rest[..at]);
        match &rest[at..] {
            [b'"'] => return Ok(()),
            [b'\\', b'u', digits @ ..] => {
                let scalar = scalar(digits).ok_or(Refusal::Literal)?;
                sink.write(scalar.encode_utf8(&mut [0; 4]).as_bytes());
                rest = &digits[4..];
            }
            [b'\\', letter, after @ ..] => {
                sink.write(&[unescaped(*letter).ok_or(Refusal::Literal)?]);
                rest = after;
            }
            _ => return Err(Refusal::Literal),
        }
    }
}

fn unescaped(letter: u8) -> Option<u8> {
    Some(match letter {
        b'"' | b'\\' | b'/' => letter,
        b'b' => b'\x08',
        b'f' => b'\x0C',
        b'n' => b'\n',
        b'r' => b'\r',
        b't' => b'\t',
        _ => return None,
    })
}

fn scalar(digits: &[u8]) -> Option<char> {
    let mut number = 0;
    for &digit in digits.get(..4)? {
        number = number * 16 + char::from(digit).to_digit(16)?;
    }
    char::from_u32(number)
}

/// What stands between the triple quotes, and which part of it is the value.
struct Block<'a> {
    raw: &'a str,
    common_indent: usize,
    /// The numbers of the first line that is not blank and of the one after the last.
    lines: std::ops::Range<usize>,
}

impl<'a> Block<'a> {
    /// `rest` starts after the opening quotes.
    fn new(rest: &'a str) -> Result<Self, Refusal> {
        let raw = raw_block(rest)?;
        let mut common_indent = usize::MAX;
        let mut lines = 0..0;
        for (number, line) in Lines(Some(raw)).enumerate() {
            if is_blank(line) {
                continue;
            }
            if number > 0 {
                common_indent = common_indent.min(indent(line));
            }
            if lines.is_empty() {
                lines.start = number;
            }
            lines.end = number + 1;
        }
        Ok(Self {
            raw,
            common_indent,
            lines,
        })
    }

    fn read(&self, sink: &mut impl Sink) {
        let lines = Lines(Some(self.raw)).enumerate();
        for (number, line) in lines.take(self.lines.end).skip(self.lines.start) {
            if number > self.lines.start {
                sink.write(b"\n");
            }
            let from = if number > 0 { self.common_indent } else { 0 };
            // A blank line may be shorter than the indent.
            read_line(sink, line.get(from..).unwrap_or(""));
        }
    }
}

/// The text before the closing quotes, after which nothing stands.
fn raw_block(rest: &str) -> Result<&str, Refusal> {
    let mut from = 0;
    loop {
        let at = from + rest[from..].find(TRIPLE_QUOTE).ok_or(Refusal::Literal)?;
        let after = at + TRIPLE_QUOTE.len();
        if rest[..at].ends_with('\\') {
            from = after;
        } else if after == rest.len() {
            return Ok(&rest[..at]);
        } else {
            return Err(Refusal::Literal);
        }
    }
}

fn read_line(sink: &mut impl Sink, line: &str) {
    let mut rest = line;
    while let Some((before, after)) = rest.split_once(ESCAPED_TRIPLE_QUOTE) {
        sink.write(before.as_bytes());
        sink.write(TRIPLE_QUOTE.as_bytes());
        rest = after;
    }
    sink.write(rest.as_bytes());
}

/// Lines end at LF, CR LF or CR.
struct Lines<'a>(Option<&'a str>);

impl<'a> Iterator for Lines<'a> {
    type Item = &'a str;

    fn next(&mut self) -> Option<&'a str> {
        let rest = self.0?;
        let ends_line = |byte: &u8| matches!(byte, b'\n' | b'\r');
        let Some(at) = rest.as_bytes().iter().position(ends_line) else {
            self.0 = None;
            return Some(rest);
        };
        let width = if rest[at..].starts_with("\r\n") { 2 } else { 1 };
        self.0 = Some(&rest[at + width..]);
        Some(&rest[..at])
    }
}
