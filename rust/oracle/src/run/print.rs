//! One document or one literal, printed by the crate: from the fields of a vector line, or from a table file.

use super::rows::{bytes, words};
use crate::crate_printer;
use crate::plain_check::is_valid;
use crate::settings::Settings;
use crate::table_file;
use std::fs;

fn settings(breaks: &str, level: &str, prefix: &str) -> Result<Settings, String> {
    let prefix = bytes(prefix).and_then(|prefix| String::from_utf8(prefix).ok());
    Ok(Settings {
        breaks: match breaks {
            "0" => false,
            "1" => true,
            _ => return Err("breaks are 0 or 1".into()),
        },
        prefix: prefix.ok_or("the prefix is not hex of UTF-8")?,
        level: level.parse().map_err(|_| "the level is no number")?,
    })
}

/// `<breaks> <level> <prefix> <words> <pool>`: the text as document 01 fixes the first line, or as the crate's Display
/// has it.
pub fn document(fields: [&str; 5], display: bool) -> Result<String, String> {
    let settings = settings(fields[0], fields[1], fields[2])?;
    let words = words(fields[3]).ok_or("the words are not numbers apart by commas")?;
    let pool = bytes(fields[4]).ok_or("the pool is not hex")?;
    checked(&words, &pool)?;
    Ok(match display {
        true => crate_printer::display_document(&words, &pool, &settings),
        false => crate_printer::print_document(&words, &pool, &settings),
    })
}

/// The document of a table file under the default settings.
pub fn file(path: &str) -> Result<String, String> {
    file_under(path, &Settings::default())
}

pub fn file_under(path: &str, settings: &Settings) -> Result<String, String> {
    let file = fs::read(path).map_err(|error| format!("{path}: {error}"))?;
    let table = table_file::read(&file).ok_or(format!("{path}: not a table file"))?;
    checked(&table.words, &table.pool)?;
    let (words, pool) = (&table.words, &table.pool);
    Ok(crate_printer::print_document(words, pool, settings))
}

fn checked(words: &[u32], pool: &[u8]) -> Result<(), String> {
    is_valid(words, pool).map_err(|refusal| format!("document 01 refuses the table: {refusal:?}"))
}

/// `<d|s> <breaks> <level> <prefix> <value>`, by `serialize_string_value`.
pub fn literal(fields: [&str; 5]) -> Result<String, String> {
    let settings = settings(fields[1], fields[2], fields[3])?;
    let value = bytes(fields[4]).and_then(|value| String::from_utf8(value).ok());
    let value = value.ok_or("the value is not hex of UTF-8")?;
    match fields[0] {
        "d" => Ok(crate_printer::print_literal(&value, true, &settings)),
        "s" => Ok(crate_printer::print_literal(&value, false, &settings)),
        _ => Err("a description is d, a string s".into()),
    }
}

#[cfg(test)]
mod tests {
    use super::*;

    const QUERY: &str = "0,0,0,0,3,1,0,0,0,3,29,0,0,1,3";

    #[test]
    fn prints_as_document_01_and_as_display() {
        if !crate_printer::PRESENT {
            return;
        }
        let fields = ["1", "1", "2020", QUERY, "61"];
        assert_eq!(document(fields, false), Ok("{\n    a\n  }\n".into()));
        let display = "  query {\n    a\n  }\n";
        assert_eq!(document(fields, true), Ok(display.into()));
        let fields = ["s", "0", "0", "-", "610a62"];
        assert_eq!(literal(fields), Ok("\"a\\nb\"".into()));
        assert!(document(["1", "0", "-", QUERY, "31"], false).is_err());
        assert!(document(["2", "0", "-", QUERY, "61"], false).is_err());
        assert!(literal(["x", "0", "0", "-", "61"]).is_err());
    }
}
