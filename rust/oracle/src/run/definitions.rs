//! The vectors as theorems about the definitions in `crates/meaning/specs`, in a Rattle crate of their own. Each is
//! closed by `refl`, so that the prover computes what is meant and compares it with the vector.

use super::rows::{bytes, rows, words};
use crate::table::WORDS;
use std::fs;
use std::path::Path;

/// Most nodes of a document that is computed.
const MOST_NODES: usize = 60;

/// Most bytes of a literal's text.
const MOST_TEXT: usize = 400;

/// One vector as antt.
enum Fact {
    Theorems(String),
    TooLarge,
}

/// A file of vectors, and the module that it becomes.
struct Source {
    file: &'static str,
    module: &'static str,
    uses: &'static str,
    /// The fact that a vector's fields state, under a name; nothing where they are no vector of this file.
    fact: fn(&str, &[&str]) -> Option<Fact>,
}

const SOURCES: [Source; 4] = [
    Source {
        file: "documents.txt",
        module: "Documents",
        uses: "use Rattle.std.specs.Prelude.{true, false, List, ℕ}\n\
               use Rattle.meaning.specs.Settings.{settings}\n\
               use Rattle.meaning.specs.Table.{tree_of}\n\
               use Rattle.meaning.specs.Layout.{node_text, document_text}\n\
               use Rattle.meaning.specs.Refusals.{verdict, accepted}\n",
        fact: document,
    },
    Source {
        file: "literals.txt",
        module: "Literals",
        uses: "use Rattle.std.specs.Prelude.{true, false}\n\
               use Rattle.meaning.specs.Settings.{settings}\n\
               use Rattle.meaning.specs.Literal.{literal}\n",
        fact: literal,
    },
    Source {
        file: "refusals.txt",
        module: "Refusals",
        uses: "use Rattle.meaning.specs.Refusals.{verdict, accepted, refusal}\n",
        fact: refusal,
    },
    Source {
        file: "readings.txt",
        module: "Readings",
        uses:
            "use Rattle.meaning.specs.Reading.{reading, refused, value, quoted_form, block_form}\n",
        fact: reading,
    },
];

const USES: &str = "use Rattle.std.specs.Prelude.{◌≡◌, refl, [], ◌∷◌}\n";

/// Writes the crate into a folder, prints how many vectors of each file it holds, and gives their sum.
pub fn write(vectors: &Path, out: &Path) -> Result<usize, String> {
    let mut total = 0;
    let mut modules = String::new();
    for source in &SOURCES {
        let path = vectors.join(source.file);
        let content = fs::read_to_string(&path).map_err(|e| said(&path, e))?;
        let rows = rows(&content);
        let (text, written) = module(source, &rows).map_err(|what| said(&path, what))?;
        save(&out.join(format!("specs/{}.antt", source.module)), &text)?;
        modules += &format!("pub mod {}\n", source.module);
        println!("{}: {written} of {} vectors", source.file, rows.len());
        total += written;
    }
    save(&out.join("specs/Lib.antt"), &modules)?;
    let source = "// Nothing is run: the vectors are theorems in specs/.\n#![tactic(auto)]\n";
    save(&out.join("src/lib.rt"), source)?;
    Ok(total)
}

fn said(path: &Path, what: impl std::fmt::Display) -> String {
    format!("{}: {what}", path.display())
}

fn save(path: &Path, content: &str) -> Result<(), String> {
    let folder = path.parent().expect("a file in a folder");
    fs::create_dir_all(folder).map_err(|e| said(folder, e))?;
    fs::write(path, content).map_err(|e| said(path, e))
}

/// The module's text, and how many vectors it holds.
fn module(source: &Source, rows: &[(usize, Vec<&str>)]) -> Result<(String, usize), String> {
    let mut text = format!(
        "-- The vectors of {}, each under the number of its line.\n{USES}{}",
        source.file, source.uses
    );
    let mut written = 0;
    for (number, fields) in rows {
        match (source.fact)(&format!("line{number}"), fields) {
            Some(Fact::Theorems(theorems)) => {
                text += &theorems;
                written += 1;
            }
            Some(Fact::TooLarge) => {}
            None => return Err(format!("line {number} is not a vector of this file")),
        }
    }
    if written == 0 {
        return Err("no vector to compute".into());
    }
    Ok((text, written))
}

fn list<T: ToString>(items: &[T]) -> String {
    let mut text = String::new();
    for item in items {
        text += &item.to_string();
        text += " ∷ ";
    }
    text + "[]"
}

fn settings(breaks: &str, level: &str, prefix: &str) -> Option<String> {
    let breaks = match breaks {
        "0" => "false",
        "1" => "true",
        _ => return None,
    };
    let level: u32 = level.parse().ok()?;
    let prefix = list(&bytes(prefix)?);
    Some(format!("(settings {breaks} ({prefix}) {level})"))
}

fn constant(name: &str, value: &str) -> String {
    format!("\n{name} : List ℕ\n{name} = {value}\n")
}

fn theorem(name: &str, statement: &str, unfolding: &str) -> String {
    format!("\n{name} : {statement}\nunfolding {unfolding}\n{name} = refl\n")
}

/// The table has a name, since two theorems are about it.
fn document(name: &str, fields: &[&str]) -> Option<Fact> {
    let &[breaks, level, prefix, table, pool, text] = fields else {
        return None;
    };
    let settings = settings(breaks, level, prefix)?;
    let (table, pool, text) = (words(table)?, bytes(pool)?, bytes(text)?);
    if table.len() > MOST_NODES * WORDS {
        return Some(Fact::TooLarge);
    }
    let (w, p) = (format!("{name}_words"), format!("{name}_pool"));
    let text = list(&text);
    let parts = [
        constant(&w, &list(&table)),
        constant(&p, &list(&pool)),
        theorem(
            &format!("{name}_text"),
            &format!("document_text {settings} (tree_of {w} {p}) ≡ {text}"),
            &format!("document_text tree_of node_text {w} {p}"),
        ),
        theorem(
            &format!("{name}_accepted"),
            &format!("verdict {w} {p} ≡ accepted"),
            &format!("verdict {w} {p}"),
        ),
    ];
    Some(Fact::Theorems(parts.concat()))
}

fn literal(name: &str, fields: &[&str]) -> Option<Fact> {
    let &[form, breaks, level, prefix, value, text] = fields else {
        return None;
    };
    let description = match form {
        "d" => "true",
        "s" => "false",
        _ => return None,
    };
    let settings = settings(breaks, level, prefix)?;
    let (value, text) = (bytes(value)?, bytes(text)?);
    if text.len() > MOST_TEXT {
        return Some(Fact::TooLarge);
    }
    let (value, text) = (list(&value), list(&text));
    let statement = format!("literal {settings} {description} ({value}) ≡ {text}");
    Some(Fact::Theorems(theorem(name, &statement, "literal")))
}

fn refusal(name: &str, fields: &[&str]) -> Option<Fact> {
    let &[number, place, table, pool] = fields else {
        return None;
    };
    let (number, place): (u32, u32) = (number.parse().ok()?, place.parse().ok()?);
    let answer = match (number, place) {
        (0, 0) => "accepted".into(),
        (2..=7, _) => format!("refusal {number} {place}"),
        _ => return None,
    };
    let (table, pool) = (list(&words(table)?), list(&bytes(pool)?));
    let statement = format!("verdict ({table}) ({pool}) ≡ {answer}");
    Some(Fact::Theorems(theorem(name, &statement, "verdict")))
}

fn reading(name: &str, fields: &[&str]) -> Option<Fact> {
    let &[form, value, text] = fields else {
        return None;
    };
    let (value, text) = (list(&bytes(value)?), list(&bytes(text)?));
    let answer = match form {
        "q" => format!("value quoted_form ({value})"),
        "b" => format!("value block_form ({value})"),
        "-" => "refused".into(),
        _ => return None,
    };
    let statement = format!("reading ({text}) ≡ {answer}");
    Some(Fact::Theorems(theorem(name, &statement, "reading")))
}
