//! Literals with one byte changed, left out or put in; cut; extended.

use super::random::{any_settings, any_value};
use super::Plan;
use crate::judge::Judge;
use crate::wanted;
use oracle::generate::{sources, texts::string};

/// Longest literal that is damaged.
const LONGEST: usize = 150;

/// Bytes put in the place of others.
const BYTES: &[u8] = b"\"\\/ \t\n\rabfnrtu0189AFDdg\x00\x01\x1f\x7f\x80\xbf\xc2\xe2\xed\xf4\xff";

/// Printed literals and the generators' texts, each damaged in every such way.
pub fn literals(judge: &mut Judge, plan: &Plan) {
    let mut rng = plan.rng(3);
    let mut whole = sources::texts(&mut rng);
    whole.retain(|text| text.len() <= LONGEST);
    whole.truncate(plan.damaged);
    let sources = whole.len();
    while whole.len() < sources + plan.damaged {
        let value = if rng.percent(50) {
            string(&mut rng)
        } else {
            any_value(&mut rng)
        };
        let mut settings = any_settings(&mut rng);
        settings.level %= 4;
        let text = wanted::literal(&value, rng.percent(60), &settings);
        if text.len() <= LONGEST {
            whole.push(text);
        }
    }
    for text in &whole {
        judge.read_as_wanted(text);
        damage(judge, text);
    }
}

fn damage(judge: &mut Judge, text: &[u8]) {
    for at in 0..=text.len() {
        // What was cut off still stands beside these.
        judge.read_as_wanted(&text[..at]);
        judge.read_as_wanted(&text[at..]);
        let (before, after) = text.split_at(at);
        for &byte in BYTES {
            judge.read_as_wanted(&[before, &[byte], after].concat());
            if let Some(after) = after.get(1..) {
                judge.read_as_wanted(&[before, &[byte], after].concat());
            }
        }
        if let Some(after) = after.get(1..) {
            judge.read_as_wanted(&[before, after].concat());
        }
    }
    for byte in 0..=255 {
        judge.read_as_wanted(&[text, &[byte]].concat());
        judge.read_as_wanted(&[&[byte], text].concat());
    }
    judge.read_as_wanted(&[text, text].concat());
    judge.read_as_wanted(&[b"\xef\xbb\xbf", text].concat());
}
