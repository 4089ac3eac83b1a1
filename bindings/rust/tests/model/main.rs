//! Random calls to a few nodes, and the same calls to a plain model of them (`plain.rs`), which was written from the pages of
//! `docs/` alone: after each call the nodes must tell just what the model does. Frames are lost, repeated and reordered.
//!
//! `ZOMTAGI_CASES` says how many runs of 50 calls there are, and `ZOMTAGI_SEED` the seed of the first; the next has the next
//! seed. If a run fails, its seed and its calls are printed: that seed again, with one case, makes the same calls.

mod chance;
#[path = "../common/mod.rs"]
mod common;
mod member;
mod plain;
mod run;

use common::Folder;
use run::Run;
use std::env;

/// The number that a variable of the environment has.
fn number(name: &str, default: u64) -> u64 {
    env::var(name).map_or(default, |text| text.parse().unwrap_or_else(|_| panic!("{name} is no number: {text}")))
}

#[test]
fn nodes_tell_what_a_plain_model_tells() {
    let folder = Folder::new("model");
    let (first, cases) = (number("ZOMTAGI_SEED", 1), number("ZOMTAGI_CASES", 200));
    (first..first + cases).for_each(|seed| Run::new(seed, &folder).go());
}
