//! The runs of the program `oracle`.

pub mod compare;
pub mod coverage;
pub mod definitions;
pub mod jobs;
pub mod known;
pub mod literals;
pub mod print;
pub mod rows;
pub mod vectors;

/// How many failures a run prints in full.
const SHOWN: usize = 5;

/// Longest text printed of a failing case.
const SHOWN_BYTES: usize = 2_000;

/// Counts of checks.
#[derive(Clone, Copy, Debug, Default, Eq, PartialEq)]
pub struct Tally {
    pub passed: usize,
    pub failed: usize,
}

impl Tally {
    /// Counts one check and describes it where it failed.
    pub fn check(&mut self, holds: bool, describe: impl FnOnce() -> String) {
        if holds {
            self.passed += 1;
            return;
        }
        self.failed += 1;
        if self.failed <= SHOWN {
            let mut text = describe();
            let end = (0..=SHOWN_BYTES.min(text.len()))
                .rev()
                .find(|&at| text.is_char_boundary(at));
            text.truncate(end.unwrap_or(0));
            println!("FAILED {text}");
        }
    }

    pub fn same(&mut self, what: &str, left: &[u8], right: &[u8], case: impl FnOnce() -> String) {
        self.check(left == right, || {
            format!(
                "{what}\n  left  {}\n  right {}\n  {}",
                show(left),
                show(right),
                case()
            )
        });
    }

    pub fn add(&mut self, other: Tally) {
        self.passed += other.passed;
        self.failed += other.failed;
    }
}

impl std::fmt::Display for Tally {
    fn fmt(&self, f: &mut std::fmt::Formatter<'_>) -> std::fmt::Result {
        write!(f, "{} passed, {} failed", self.passed, self.failed)
    }
}

fn show(text: &[u8]) -> String {
    let start = String::from_utf8_lossy(&text[..text.len().min(300)]).into_owned();
    format!("{} bytes {start:?}", text.len())
}

/// The line that a run prints where it cannot ask the crate.
pub const ABSENT: &str = "the crate's sources are absent: comparison with it is skipped \
     (DERVISCLO_CRATE_SOURCES names their folder, ../shared/docs/src otherwise)";
