//! The comparisons at a small size, and the plain Rust of the benchmark against the oracle.

use compare::{baseline, documents, literals, registry, tables, wanted};
use dervisclo::{Form, Kind, Refusal, Style};
use oracle::plain_read;
use oracle::run::literals::short_values;
use oracle::Settings;

#[test]
fn comparison_has_no_failure() {
    let tally = literals::run(&literals::Plan::small(2));
    assert_eq!(tally.failed, 0);
    assert!(tally.passed > 100_000, "{tally}");
}

#[test]
fn comparison_of_tables_has_no_failure() {
    let tally = tables::run(&tables::Plan::small(2));
    assert_eq!(tally.failed, 0);
    assert!(tally.passed > 30_000, "{tally}");
}

#[test]
fn comparison_of_documents_has_no_failure() {
    let tally = documents::run(&documents::Plan::small(2));
    assert_eq!(tally.failed, 0);
    assert!(tally.passed > 100_000, "{tally}");
}

#[test]
fn plain_rust_prints_as_wanted() {
    for value in short_values(4) {
        for (settings, kind) in [
            (Settings::off(), Kind::Description),
            (Settings::default(), Kind::String),
            (Settings::on("\t", 1), Kind::Description),
        ] {
            let style = Style {
                breaks: settings.breaks,
                prefix: settings.prefix.as_bytes(),
                level: settings.level as u64,
            };
            let text = wanted::literal(&value, kind == Kind::Description, &settings);
            let mut out = vec![0; text.len()];
            let room = text.len() - 1;
            let answer = baseline::print_literal(value.as_bytes(), kind, &style, &mut out[..room]);
            assert_eq!(answer, Err(Refusal::Room { needed: text.len() }));
            let answer = baseline::print_literal(value.as_bytes(), kind, &style, &mut out);
            assert_eq!(answer, Ok(text.len()));
            assert_eq!(out, text, "{value:?}");
        }
    }
}

#[test]
fn plain_rust_reads_as_wanted() {
    for inner in short_values(4) {
        for text in [
            inner.clone(),
            format!("\"{inner}\""),
            format!("\"\"\"{inner}\"\"\""),
            format!("\"\"\"\n {inner}\r\n  b\"\"\""),
        ] {
            let mut out = vec![0; text.len()];
            let answer = baseline::read_literal(text.as_bytes(), &mut out);
            let answer = answer.map(|(form, length)| (form, out[..length].to_vec()));
            let wanted = match wanted::read(text.as_bytes()) {
                Ok((plain_read::Form::Quoted, value)) => Ok((Form::Quoted, value)),
                Ok((plain_read::Form::Block, value)) => Ok((Form::Block, value)),
                Err(_) => Err(Refusal::Literal),
            };
            assert_eq!(answer, wanted, "{text:?}");
        }
    }
}

#[test]
fn registry_is_accepted() {
    for seed in 0..3 {
        for nodes in [700, 8_000, 8_192] {
            for table in [
                registry::schema(seed, nodes),
                registry::requests(seed, nodes),
            ] {
                assert_eq!(table.nodes(), nodes);
                let (words, pool) = (&table.words, &table.pool);
                assert_eq!(
                    dervisclo::check_table(words, pool),
                    Ok(()),
                    "pool of {} bytes",
                    pool.len()
                );
            }
        }
    }
}
