//! A plain reader of one string literal, written from document 01's "Reading" and the Spec's StringValue.

#[derive(Clone, Copy, Debug, Eq, PartialEq)]
pub enum Form {
    Quoted,
    Block,
}

/// Refusal 9: not UTF-8, or not exactly one StringValue.
#[derive(Clone, Copy, Debug, Eq, PartialEq)]
pub struct NotOneLiteral;

pub fn read_literal(source: &[u8]) -> Result<(Form, Vec<u8>), NotOneLiteral> {
    let source = std::str::from_utf8(source).map_err(|_| NotOneLiteral)?;
    if let Some(rest) = source.strip_prefix("\"\"\"") {
        let raw = block_text(rest)?;
        return Ok((Form::Block, block_value(&raw).into_bytes()));
    }
    let rest = source.strip_prefix('"').ok_or(NotOneLiteral)?;
    Ok((Form::Quoted, quoted_value(rest)?.into_bytes()))
}

/// What stands between the quotes, its escapes replaced. `rest` starts after the opening quote.
fn quoted_value(rest: &str) -> Result<String, NotOneLiteral> {
    let mut value = String::new();
    let mut chars = rest.chars();
    loop {
        match chars.next().ok_or(NotOneLiteral)? {
            '"' => break,
            '\n' | '\r' => return Err(NotOneLiteral),
            '\\' => value.push(escape(&mut chars)?),
            other => value.push(other),
        }
    }
    match chars.next() {
        None => Ok(value),
        Some(_) => Err(NotOneLiteral),
    }
}

fn escape(chars: &mut std::str::Chars<'_>) -> Result<char, NotOneLiteral> {
    Ok(match chars.next().ok_or(NotOneLiteral)? {
        '"' => '"',
        '\\' => '\\',
        '/' => '/',
        'b' => '\u{8}',
        'f' => '\u{c}',
        'n' => '\n',
        'r' => '\r',
        't' => '\t',
        'u' => {
            let mut number = 0;
            for _ in 0..4 {
                let digit = chars.next().and_then(|c| c.to_digit(16));
                number = number * 16 + digit.ok_or(NotOneLiteral)?;
            }
            // None for D800 to DFFF
            char::from_u32(number).ok_or(NotOneLiteral)?
        }
        _ => return Err(NotOneLiteral),
    })
}

/// What stands between the triple quotes, `\"""` replaced. `rest` starts after the opening ones.
fn block_text(rest: &str) -> Result<String, NotOneLiteral> {
    let mut raw = String::new();
    let mut rest = rest;
    loop {
        if let Some(after) = rest.strip_prefix("\\\"\"\"") {
            raw.push_str("\"\"\"");
            rest = after;
        } else if let Some(after) = rest.strip_prefix("\"\"\"") {
            return if after.is_empty() {
                Ok(raw)
            } else {
                Err(NotOneLiteral)
            };
        } else {
            let next = rest.chars().next().ok_or(NotOneLiteral)?;
            raw.push(next);
            rest = &rest[next.len_utf8()..];
        }
    }
}

/// The Spec's BlockStringValue.
pub fn block_value(raw: &str) -> String {
    let mut lines = split_lines(raw);
    let common_indent = lines[1..]
        .iter()
        .filter(|line| !is_blank(line))
        .map(|line| line.len() - trim_start(line).len())
        .min();
    if let Some(indent) = common_indent {
        for line in &mut lines[1..] {
            // A blank line may be shorter than the indent.
            *line = line.get(indent..).unwrap_or("");
        }
    }
    while lines.first().is_some_and(|line| is_blank(line)) {
        lines.remove(0);
    }
    while lines.last().is_some_and(|line| is_blank(line)) {
        lines.pop();
    }
    lines.join("\n")
}

/// Lines end at LF, CR LF or CR.
fn split_lines(raw: &str) -> Vec<&str> {
    let mut lines = Vec::new();
    let mut rest = raw;
    while let Some(at) = rest.find(['\n', '\r']) {
        lines.push(&rest[..at]);
        let width = if rest[at..].starts_with("\r\n") { 2 } else { 1 };
        rest = &rest[at + width..];
    }
    lines.push(rest);
    lines
}

fn trim_start(line: &str) -> &str {
    line.trim_start_matches([' ', '\t'])
}

fn is_blank(line: &str) -> bool {
    trim_start(line).is_empty()
}
