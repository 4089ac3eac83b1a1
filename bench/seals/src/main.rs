//! Seals and opens frames of 100, 1,000 and 16,000 bytes by the library of a node (`node`), and by the crates `hmac` and
//! `sha2` (`plain`), and prints for each a line `which name value unit`: the median of many samples, in nanoseconds a frame.

use hmac::{Hmac, Mac};
use sha2::Sha256;
use std::hint::black_box;
use std::time::Instant;
use zomtagi::SealKeys;

const KEY: [u8; 32] = [7; 32];
const SEAL_LEN: usize = 16;

type Code = Hmac<Sha256>;

/// Code and frame of plain Rust. The code of a key is made once.
struct Plain(Code);

impl Plain {
    fn seal(&self, frame: &[u8]) -> Vec<u8> {
        let code = self.0.clone().chain_update(frame).finalize().into_bytes();
        [frame, &code[..SEAL_LEN]].concat()
    }

    fn open<'a>(&self, bytes: &'a [u8]) -> Option<&'a [u8]> {
        let (frame, seal) = bytes.split_at(bytes.len().checked_sub(SEAL_LEN)?);
        self.0.clone().chain_update(frame).verify_truncated_left(seal).ok().map(|()| frame)
    }
}

/// The median of the nanoseconds that a call takes, of 101 samples of two milliseconds or more.
fn median(mut call: impl FnMut()) -> u128 {
    let mut count = 1u32;
    let mut sample = || loop {
        let began = Instant::now();
        (0..count).for_each(|_| call());
        let taken = began.elapsed().as_nanos();
        if taken >= 2_000_000 {
            return taken / u128::from(count);
        }
        count *= 2;
    };
    let mut samples: Vec<u128> = (0..101).map(|_| sample()).collect();
    samples.sort_unstable();
    samples[50]
}

fn main() {
    let (keys, plain) = (SealKeys::new(KEY), Plain(Code::new_from_slice(&KEY).expect("any length is a key")));
    for len in [100, 1_000, 16_000] {
        let frame = vec![3; len];
        let sealed = keys.seal(&frame).expect("memory");
        assert_eq!(sealed, plain.seal(&frame));
        let say = |which, call, value| println!("{which} {call}_{len} {value} ns");
        say("node", "seal", median(|| drop(black_box(keys.seal(black_box(&frame))))));
        say("plain", "seal", median(|| drop(black_box(plain.seal(black_box(&frame))))));
        say("node", "open", median(|| drop(black_box(keys.open(black_box(&sealed)).map(<[u8]>::len)))));
        say("plain", "open", median(|| drop(black_box(plain.open(black_box(&sealed)).map(<[u8]>::len)))));
    }
}
