//! The built tool, run.

mod common;
mod documents;
mod jobs;
mod literals;
mod refusals;
mod usage;
