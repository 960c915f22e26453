//! Generated tables: the crate's text against the plain printer's, and the crate's Display against both.

use super::coverage::Coverage;
use super::Tally;
use crate::crate_printer;
use crate::generate::{self, OwnTable};
use crate::plain_check;
use crate::plain_print;
use crate::rng::Rng;
use crate::settings::Settings;
use crate::table::{kind, Table, MOST_DEPTH, MOST_NODES};

/// Prefixes of a comparison: none, a tab, the default, and the longest.
pub const PREFIXES: [&str; 4] = ["", "\t", "  ", " \t  \t\t   \t    \t "];

/// Levels of a comparison.
pub const LEVELS: [usize; 4] = [0, 1, 63, 64];

/// How often each rule of the law between Display and document 01's text was used.
#[derive(Default)]
struct Rules {
    equal: usize,
    first_line: usize,
    shorthand_lost: usize,
    shorthand_lost_bare: usize,
    empty_document: usize,
}

pub fn run(seed: u64, count: usize) -> Tally {
    let mut tally = Tally::default();
    let mut coverage = Coverage::default();
    let mut rules = Rules::default();
    let mut rng = Rng::new(seed);
    let mut texts = 0;
    let mut bytes = 0;
    for number in 0..count {
        let table = one_table(&mut rng, number);
        let OwnTable { words, pool } = &table;
        let verdict = plain_check::is_valid(words, pool);
        tally.check(verdict.is_ok(), || {
            format!("a generated table is refused: {verdict:?} {table:?}")
        });
        if verdict.is_err() {
            continue;
        }
        coverage.add(words, pool);
        for settings in settings_for(&mut rng, table.nodes()) {
            bytes += compare_one(&mut tally, &mut rules, &table, &settings);
            texts += 1;
        }
        unnamed_bytes(&mut tally, &mut rng, &table);
    }
    println!(
        "compare: seed {seed}, {count} tables of up to {} nodes, {texts} texts, {bytes} bytes",
        coverage.most_nodes
    );
    coverage.print_kinds();
    report_missing(&mut tally, &coverage, count);
    if crate_printer::PRESENT {
        println!("  Display and document 01: equal {}", rules.equal);
        println!("  Display indents the first line: {}", rules.first_line);
        println!("  and writes query for shorthand: {}", rules.shorthand_lost);
        let bare = rules.shorthand_lost_bare;
        println!("  with an empty prefix, only that: {bare}");
        println!("  indents an empty document: {}", rules.empty_document);
    }
    println!("compare: {tally}");
    tally
}

/// Full coverage is owed by runs of a fair size only.
fn report_missing(tally: &mut Tally, coverage: &Coverage, count: usize) {
    let missing = coverage.missing();
    println!("  kinds, variants and parts not seen: {}", missing.len());
    if count >= 1_000 {
        tally.check(missing.is_empty(), || format!("not seen: {missing:?}"));
        for kind in [
            kind::FIELD,
            kind::NAMED_TYPE,
            kind::LIST_TYPE,
            kind::LIST,
            kind::OBJECT_VALUE,
        ] {
            let deepest = coverage.deepest[kind as usize];
            tally.check(deepest >= MOST_DEPTH - 1, || {
                format!("kind {kind} seen no deeper than {deepest}")
            });
        }
    }
}

/// The first tables are the empty document and the largest; the rest is random, some of it deep.
fn one_table(rng: &mut Rng, number: usize) -> OwnTable {
    match number {
        0 => generate::table(rng, 1),
        1 => generate::table(rng, MOST_NODES),
        _ if number % 20 == 2 => generate::deep_table(rng),
        _ if number % 5 == 3 => {
            let kind = 1 + (number / 5 % 17) as u32;
            let nodes = rng.between(1, 30);
            generate::table_of_kind(rng, kind, nodes)
        }
        _ => {
            let nodes = generate::any_size(rng);
            generate::table(rng, nodes)
        }
    }
}

/// All settings for small tables, some for large ones.
fn settings_for(rng: &mut Rng, nodes: usize) -> Vec<Settings> {
    let mut all = vec![Settings::off()];
    all.push(Settings {
        breaks: false,
        ..Settings::on(PREFIXES[3], *rng.pick(&LEVELS))
    });
    for prefix in PREFIXES {
        all.extend(LEVELS.map(|level| Settings::on(prefix, level)));
    }
    if nodes > 40 {
        let few = if nodes > 1_000 { 2 } else { 4 };
        all = (0..few).map(|_| rng.pick(&all).clone()).collect();
    }
    all
}

/// The number of bytes in document 01's text.
fn compare_one(
    tally: &mut Tally,
    rules: &mut Rules,
    table: &OwnTable,
    settings: &Settings,
) -> usize {
    let OwnTable { words, pool } = table;
    let case = || format!("{settings:?} {table:?}");
    let plain = plain_print::print_document(words, pool, settings);
    if crate_printer::PRESENT {
        let by_crate = crate_printer::print_document(words, pool, settings);
        tally.same("crate, plain printer", by_crate.as_bytes(), &plain, case);
        let displayed = crate_printer::display_document(words, pool, settings);
        let expected = displayed_as(rules, table, settings, &plain);
        tally.same("Display, its law", displayed.as_bytes(), &expected, case);
    }
    plain.len()
}

/// What Display gives: with breaks on and a level of 1 or more, the prefix per level, then `query ` where the first
/// definition could be shorthand, then document 01's text; otherwise just that.
fn displayed_as(
    rules: &mut Rules,
    table: &OwnTable,
    settings: &Settings,
    document_01: &[u8],
) -> Vec<u8> {
    if !settings.breaks || settings.level == 0 {
        rules.equal += 1;
        return document_01.to_vec();
    }
    let mut text = settings.prefix.repeat(settings.level).into_bytes();
    let is_indented = !text.is_empty();
    let is_empty = table.nodes() == 1;
    if first_could_be_short(table) {
        text.extend_from_slice(b"query ");
        if is_indented {
            rules.shorthand_lost += 1;
        } else {
            rules.shorthand_lost_bare += 1;
        }
    } else if is_indented && is_empty {
        rules.empty_document += 1;
    } else if is_indented {
        rules.first_line += 1;
    } else {
        rules.equal += 1;
    }
    text.extend_from_slice(document_01);
    text
}

fn first_could_be_short(own: &OwnTable) -> bool {
    let table = Table {
        words: &own.words,
        pool: &own.pool,
    };
    own.nodes() > 1
        && table.kind(1) == kind::OPERATION
        && table.variant(1) == 0
        && table.text_length(1) == 0
        && table.children(1).all(|child| {
            !matches!(
                table.kind(child),
                kind::VARIABLE_DEFINITION | kind::DIRECTIVE
            )
        })
}

/// Bytes that no node names are changed: the table is still accepted and has the same text.
fn unnamed_bytes(tally: &mut Tally, rng: &mut Rng, own: &OwnTable) {
    let table = Table {
        words: &own.words,
        pool: &own.pool,
    };
    let mut named = vec![false; own.pool.len()];
    for node in 0..own.nodes() {
        named[table.text_start(node)..][..table.text_length(node)].fill(true);
    }
    if named.iter().all(|&is_named| is_named) {
        return;
    }
    let mut changed = own.clone();
    for (byte, is_named) in changed.pool.iter_mut().zip(named) {
        if !is_named {
            *byte = rng.below(256) as u8;
        }
    }
    let settings = Settings::default();
    let text = |table: &OwnTable| plain_print::print_document(&table.words, &table.pool, &settings);
    let accepted = plain_check::is_valid(&changed.words, &changed.pool).is_ok();
    tally.check(accepted && text(own) == text(&changed), || {
        format!("unnamed bytes matter: {own:?}")
    });
}
