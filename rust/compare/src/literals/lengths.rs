//! Outputs of every length, from none to one more than is needed.

use super::random::{any_settings, any_value};
use super::short::all_settings;
use super::{Placed, Plan};
use crate::call::Print;
use crate::judge::Judge;
use crate::wanted;
use oracle::run::literals::short_values;
use oracle::Settings;

/// Longest indent of a line, so that texts stay short.
const INDENT: usize = 256;

/// Longest text.
const TEXT: usize = 3_000;

/// All values of up to so many bytes, both kinds, all settings of a moderate indent.
pub fn short(judge: &mut Judge, plan: &Plan) {
    let mut settings = all_settings();
    settings.retain(|settings| settings.level * settings.prefix.len() <= INDENT);
    for value in short_values(plan.every_length) {
        for settings in &settings {
            for is_description in [false, true] {
                one_literal(judge, &value, is_description, settings);
            }
        }
    }
}

pub fn random(judge: &mut Judge, plan: &Plan) {
    let mut rng = plan.rng(1);
    for _ in 0..plan.random / 20 {
        let value = any_value(&mut rng);
        let settings = any_settings(&mut rng);
        one_literal(judge, &value, rng.percent(50), &settings);
    }
}

fn one_literal(judge: &mut Judge, value: &str, is_description: bool, settings: &Settings) {
    let text = wanted::literal(value, is_description, settings);
    if text.len() > TEXT {
        return;
    }
    let print = Print::new(value.as_bytes(), is_description, settings);
    judge.print_at(&print, 0..=text.len() + 1, Ok(&text));
    let form = wanted::form(value, is_description, settings.breaks);
    let wanted = Ok((form, value.as_bytes().to_vec()));
    judge.read_at(&text, 0..=value.len() + 1, &wanted);
}

/// Letters with one other character among them: every length up to 40, every place, every address modulo 8.
pub fn places(judge: &mut Judge, _: &Plan) {
    let settings = Settings::on(" ", 1);
    let others = [
        "\"", "\\", "\n", "\r", "\t", "\u{1}", "\u{7f}", "é", "😀", "\"\"\"",
    ];
    let others = others.map(str::as_bytes).into_iter();
    for other in others.chain([&b"\xff"[..], b"\xe2\x82"]) {
        for length in 0..40 {
            for place in 0..=length {
                let value = [&vec![b'a'; place], other, &vec![b'a'; length - place]].concat();
                for address in 0..8 {
                    let placed = Placed::new(&vec![b'"'; address], &value, b"\"\"\xbf");
                    let is_description = (length + place + address) % 2 == 0;
                    judge.print_as_wanted(&Print::new(placed.bytes(), is_description, &settings));
                }
                let placed = Placed::quotes_around(&[b"\"", &value[..], b"\""].concat());
                judge.read_as_wanted(placed.bytes());
            }
        }
    }
}
