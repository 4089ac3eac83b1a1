//! Writes the frames of a baseline in plain Rust into the folder that the argument names, as bytes one after
//! another: a file for the mix and for each kind that is measured by itself, named as in the baseline's lines.

use plumbase::frame::{encode, Frame};
use plumbase::sample::{Sampler, KINDS};

const SEED: u64 = 1;

/// The kinds of frames that are measured by themselves, with their numbers.
const SINGLE: [(&str, u8); 4] = [("gossip", 1), ("prune", 4), ("xinner", 14), ("xbucket", 16)];

fn main() {
    let folder = std::env::args().nth(1).expect("usage: samples FOLDER");
    let write = |name: &str, frames: &[Frame]| {
        let spelled = frames.iter().map(|frame| encode(frame).expect("samples are short"));
        std::fs::write(format!("{folder}/{name}"), spelled.collect::<Vec<_>>().concat()).expect("the file is written");
    };
    write("mix", &Sampler::tame(SEED).mix(512 * usize::from(KINDS)));
    let mut sampler = Sampler::tame(SEED);
    for (name, kind) in SINGLE {
        write(name, &(0..1_024).map(|_| sampler.frame(kind)).collect::<Vec<_>>());
    }
}
