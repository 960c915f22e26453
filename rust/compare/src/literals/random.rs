//! Random values with Unicode, under random settings.

use super::{Placed, Plan};
use crate::call::Print;
use crate::judge::{few_rooms, Judge};
use crate::wanted;
use oracle::generate::texts;
use oracle::rng::Rng;
use oracle::Settings;

/// Any string, or several of them joined.
pub fn any_value(rng: &mut Rng) -> String {
    let mut value = texts::string(rng);
    while rng.percent(25) {
        value += *rng.pick(&["", "\n", " ", "\"\"\"", "\\"]);
        value += &texts::string(rng);
    }
    value
}

/// Breaks on three times in four.
pub fn any_settings(rng: &mut Rng) -> Settings {
    let length = *rng.pick(&[0, 1, 2, 2, 3, 4, 8, 15, 16]);
    Settings {
        breaks: rng.percent(75),
        prefix: (0..length).map(|_| *rng.pick(&[' ', '\t'])).collect(),
        level: *rng.pick(&[0, 1, 2, 3, 7, 63, 64, 127, 128]),
    }
}

/// Each of both kinds and under two settings, at a random address.
pub fn values(judge: &mut Judge, plan: &Plan) {
    let mut rng = plan.rng(0);
    for _ in 0..plan.random {
        let value = any_value(&mut rng);
        let before = vec![b'"'; rng.below(16)];
        let placed = Placed::new(&before, value.as_bytes(), b"\"\"\n\xff");
        for settings in [any_settings(&mut rng), any_settings(&mut rng)] {
            for is_description in [false, true] {
                let text = wanted::literal(&value, is_description, &settings);
                let print = Print::new(placed.bytes(), is_description, &settings);
                let any_room = rng.below(text.len() + 40);
                let rooms = few_rooms(text.len()).chain([any_room]);
                judge.print_at(&print, rooms, Ok(&text));
                let form = wanted::form(&value, is_description, settings.breaks);
                judge.read_back(&text, form, value.as_bytes());
                let any_room = rng.below(value.len() + 4);
                judge.read(&text, any_room, &Ok((form, value.as_bytes().to_vec())));
            }
        }
    }
}
