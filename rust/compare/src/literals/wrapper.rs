//! The safe functions of `dervisclo` give the C interface's answers.

use super::random::{any_settings, any_value};
use super::Plan;
use crate::call::Print;
use crate::judge::{describe, few_rooms, safe_form, Judge};
use crate::lent::Lent;
use crate::wanted::{self, Reading};
use dervisclo::{
    print_literal, print_literal_to_vec, read_literal, read_literal_to_vec, Kind, Refusal, Style,
};

pub fn same_answers(judge: &mut Judge, plan: &Plan) {
    let mut rng = plan.rng(4);
    let mut lent = Lent::default();
    for _ in 0..plan.random / 10 {
        let mut value = any_value(&mut rng).into_bytes();
        let settings = any_settings(&mut rng);
        let mut print = Print::new(&[], rng.percent(50), &settings);
        match rng.below(20) {
            0 => print.level += 129,
            1 => print.prefix = b"\n",
            2 => value.push(0xFF),
            3 => value.resize(65_537 + rng.below(9), b'a'),
            _ => {}
        }
        print.value = &value;
        let wanted = wanted::printed(&print).map_err(refusal);
        printing(judge, &mut lent, &print, &wanted);
        let mut text = wanted.unwrap_or_default();
        if rng.percent(20) {
            text.pop();
        }
        reading(judge, &mut lent, &text, &wanted::read(&text));
    }
}

/// Of printing, other than 8.
fn refusal(number: u32) -> Refusal {
    match number {
        1 => Refusal::Settings,
        2 => Refusal::Size,
        _ => Refusal::Text,
    }
}

type Printing = Result<Vec<u8>, Refusal>;

fn printing(judge: &mut Judge, lent: &mut Lent, print: &Print<'_>, wanted: &Printing) {
    let kind = match print.description {
        1 => Kind::Description,
        _ => Kind::String,
    };
    let style = Style {
        breaks: print.breaks == 1,
        prefix: print.prefix,
        level: print.level,
    };
    let same = print_literal_to_vec(print.value, kind, &style) == *wanted;
    judge.prints += 1;
    judge
        .tally
        .check(same, || format!("to a vector: {}", describe(print)));
    for room in few_rooms(wanted.as_ref().map_or(3, Vec::len)) {
        let answer = print_literal(print.value, kind, &style, lent.lend(room));
        let (right, written) = match wanted {
            Ok(text) if text.len() > room => (too_short(text), &[][..]),
            Ok(text) => (Ok(text.len()), &text[..]),
            Err(refusal) => (Err(*refusal), &[][..]),
        };
        let same = lent.holds(room, written) && answer == right;
        judge.prints += 1;
        judge
            .tally
            .check(same, || format!("to {room} bytes: {}", describe(print)));
    }
}

fn too_short<T>(written: &[u8]) -> Result<T, Refusal> {
    let needed = written.len();
    Err(Refusal::Room { needed })
}

fn reading(judge: &mut Judge, lent: &mut Lent, text: &[u8], wanted: &Reading) {
    let wanted = match wanted {
        Ok((form, value)) => Ok((safe_form(*form), value.clone())),
        Err(_) => Err(Refusal::Literal),
    };
    let same = read_literal_to_vec(text) == wanted;
    judge.reads += 1;
    let shown = || String::from_utf8_lossy(text);
    judge
        .tally
        .check(same, || format!("reading to a vector: {}", shown()));
    let need = wanted.as_ref().map_or(3, |(_, value)| value.len());
    for room in few_rooms(need) {
        let answer = read_literal(text, lent.lend(room));
        let (right, written) = match &wanted {
            Ok((_, value)) if value.len() > room => (too_short(value), &[][..]),
            Ok((form, value)) => (Ok((*form, need)), &value[..]),
            Err(refusal) => (Err(*refusal), &[][..]),
        };
        let same = lent.holds(room, written) && answer == right;
        judge.reads += 1;
        judge
            .tally
            .check(same, || format!("reading to {room} bytes: {}", shown()));
    }
}
