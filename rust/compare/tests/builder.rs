//! Tables made by the builder print as the crate's own printer prints the tables that they were made after (as the
//! plain printer does where the crate's sources are absent).

use compare::{registry, wanted};
use dervisclo::builder::Builder;
use dervisclo::{NodeKind, Style, Table};
use oracle::generate::{self, OwnTable};
use oracle::rng::Rng;
use oracle::Settings;

/// Adds the children of a node of another table.
fn rebuild(builder: &mut Builder, from: &OwnTable, node: usize) {
    let view = from.view();
    for child in view.children(node) {
        let kind = NodeKind::from_number(view.kind(child)).unwrap();
        builder.node(kind, view.variant(child), view.text(child), |below| {
            rebuild(below, from, child);
        });
    }
}

fn rebuilt(from: &OwnTable) -> Table {
    Table::document(|document| rebuild(document, from, 0))
}

/// Printed alike in several styles, and by way of a file.
fn prints_alike(from: &OwnTable) {
    let table = rebuilt(from);
    assert_eq!(table.nodes(), from.nodes());
    assert_eq!(table.check(), Ok(()));
    let file = table.to_file().unwrap();
    assert_eq!(Table::from_file(&file).as_ref(), Ok(&table));
    for settings in [
        Settings::default(),
        Settings::off(),
        Settings::on("\t", 3),
        Settings::on("", 64),
    ] {
        let style = Style {
            breaks: settings.breaks,
            prefix: settings.prefix.as_bytes(),
            level: settings.level as u64,
        };
        let text = wanted::text(&from.words, &from.pool, &settings);
        assert!(table.print(&style) == Ok(text), "{settings:?} {from:?}");
    }
}

#[test]
fn generated_tables() {
    let mut rng = Rng::new(7);
    for number in 0..1_500 {
        let nodes = rng.between(1, 120);
        let table = match number % 3 {
            0 => generate::table(&mut rng, nodes),
            1 => generate::table_of_kind(&mut rng, 1 + number / 3 % 17, nodes),
            _ => generate::deep_table(&mut rng),
        };
        prints_alike(&table);
    }
}

#[test]
fn registries() {
    prints_alike(&registry::schema(1, 8_000));
    prints_alike(&registry::requests(1, 8_000));
}

#[test]
fn kinds_have_the_oracles_names() {
    for (kind, name) in NodeKind::ALL.into_iter().zip(oracle::table::KIND_NAMES) {
        assert_eq!(format!("{kind:?}"), name);
    }
}
