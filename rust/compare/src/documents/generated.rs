//! Tables that document 01 accepts: every kind, variant and part, present and absent, with breaks on and off.

use super::{Judge, Plan};
use oracle::generate::{self, OwnTable};
use oracle::rng::Rng;
use oracle::run::compare::{LEVELS, PREFIXES};
use oracle::run::coverage::Coverage;
use oracle::table::{kind, MOST_DEPTH};
use oracle::Settings;

/// Most nodes of a small table.
pub const SMALL: usize = 30;

/// From so many tables on, full coverage is owed.
const FAIR: usize = 100_000;

/// Breaks on and off, each level, each prefix.
pub fn all_settings() -> Vec<Settings> {
    let mut all = Vec::new();
    for breaks in [true, false] {
        for level in LEVELS {
            all.extend(PREFIXES.map(|prefix| Settings {
                breaks,
                ..Settings::on(prefix, level)
            }));
        }
    }
    all
}

/// All settings in turn, and others for every third table.
pub fn tables(judge: &mut Judge, plan: &Plan) {
    let mut rng = plan.rng(1);
    let all = all_settings();
    let mut used = vec![0; all.len()];
    // with breaks off, and on
    let mut seen = [Coverage::default(), Coverage::default()];
    for number in 0..plan.tables {
        let table = any_table(&mut rng, number);
        let one_more = (number % 3 == 0).then(|| rng.below(all.len()));
        for at in one_more.into_iter().chain([number / 2 % all.len()]) {
            used[at] += 1;
            seen[usize::from(all[at].breaks)].add(&table.words, &table.pool);
            judge.accepted(&table, &all[at]);
        }
    }
    let least = used.iter().min().unwrap();
    println!(
        "  {} tables; each of {} settings at least {least} times",
        plan.tables,
        all.len()
    );
    if plan.tables >= FAIR {
        let fair = plan.tables / all.len();
        judge
            .tally
            .check(*least >= fair, || format!("settings used {used:?}"));
        report(judge, "off", &seen[0]);
        report(judge, "on", &seen[1]);
    }
}

/// Mostly small; some of a few hundred nodes, and some as deep as may be.
pub fn any_table(rng: &mut Rng, number: usize) -> OwnTable {
    match number {
        0 => generate::table(rng, 1),
        _ if number % 500 == 7 => generate::deep_table(rng),
        _ if number % 200 == 9 => {
            let nodes = rng.between(100, 400);
            generate::table(rng, nodes)
        }
        _ => small_table(rng, number),
    }
}

/// Every second has one definition, the kinds in turn.
pub fn small_table(rng: &mut Rng, number: usize) -> OwnTable {
    let nodes = rng.between(1, SMALL);
    match number % 2 {
        0 => generate::table_of_kind(rng, 1 + (number / 2 % 17) as u32, nodes),
        _ => generate::table(rng, nodes),
    }
}

fn report(judge: &mut Judge, breaks: &str, seen: &Coverage) {
    let missing = seen.missing();
    println!(
        "  breaks {breaks}: {} nodes; kinds, variants and parts not seen: {}",
        seen.kinds.iter().sum::<usize>(),
        missing.len()
    );
    judge.tally.check(missing.is_empty(), || {
        format!("with breaks {breaks} not seen: {missing:?}")
    });
    for kind in [
        kind::FIELD,
        kind::NAMED_TYPE,
        kind::LIST_TYPE,
        kind::LIST,
        kind::OBJECT_VALUE,
    ] {
        let deepest = seen.deepest[kind as usize];
        judge.tally.check(deepest >= MOST_DEPTH - 1, || {
            format!("with breaks {breaks} kind {kind} seen no deeper than {deepest}")
        });
    }
}
