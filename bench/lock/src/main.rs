//! Stands beside `crates/bench lock` in plain Rust, and prints lines `name value unit` under the same names. Nothing is
//! proved.
//!
//! - `peek arc-swap`: readers and a writer share a fixed set of keys with a swap for each, by the crate `arc-swap`: the
//!   least that a write can cost, and an upper bound, since no new key and no view of several keys at one time is had.
//! - `peek rwlock`: they share one map under a lock of std.
//! - `disk FOLDER BYTES`: writes and syncs of a file in the folder, bare.

use arc_swap::ArcSwap;
use std::collections::BTreeMap;
use std::fs::OpenOptions;
use std::hint::black_box;
use std::io;
use std::os::unix::fs::FileExt;
use std::path::Path;
use std::sync::atomic::{AtomicBool, AtomicU64, Ordering};
use std::sync::RwLock;
use std::thread;
use std::time::{Duration, Instant};

/// How many keys there are.
const KEYS: usize = 8_192;

/// For how long a writer writes in a sample.
const SPAN: Duration = Duration::from_millis(300);

/// For how long a paced writer rests after each write.
const PAUSE: Duration = Duration::from_millis(1);

/// How many samples there are, of which the middle one counts.
const SAMPLES: usize = 3;

/// How often a reader looks before it asks whether the writer is done.
const LOOKS: u64 = 32;

/// How many bare writes there are, of which the middle time counts.
const WRITES: usize = 40;

/// A node in its life.
type Actor = (u16, u32);

/// A value under a key, and when it was written.
#[derive(Clone)]
#[allow(dead_code)] // (it is copied, and nobody asks what it is)
struct Value {
    stamp: u64,
    body: Option<Vec<u8>>,
}

/// What one writer wrote under a key: how often, and the values that nobody has replaced.
struct Entry {
    id: Actor,
    count: u64,
    values: Vec<Value>,
}

/// What stands under a key.
type Object = Vec<Entry>;

/// What a look answers: the siblings, and how much of each writer they know.
type Shown = (Vec<Value>, Vec<(Actor, u64)>);

fn shown(object: &Object) -> Shown {
    let values = object.iter().flat_map(|entry| entry.values.iter().cloned());
    (values.collect(), object.iter().map(|entry| (entry.id, entry.count)).collect())
}

fn object(count: u64) -> Object {
    let value = Value { stamp: 0, body: Some(vec![b'a'; 100]) };
    vec![Entry { id: (0, 1), count, values: vec![value] }]
}

/// A key of one full prefix.
fn key(number: usize) -> Vec<u8> {
    format!("key-{number:05}").into_bytes()
}

/// A set of keys that threads share.
trait Shared: Sync {
    fn new() -> Self;
    fn peek(&self, key: &[u8]) -> Shown;
    fn write(&self, key: &[u8], object: Object);
}

impl Shared for RwLock<BTreeMap<Vec<u8>, Object>> {
    fn new() -> Self {
        RwLock::new((0..KEYS).map(|number| (key(number), object(1))).collect())
    }

    fn peek(&self, key: &[u8]) -> Shown {
        shown(&self.read().expect("no thread panics")[key])
    }

    fn write(&self, key: &[u8], object: Object) {
        let mut map = RwLock::write(self).expect("no thread panics");
        *map.get_mut(key).expect("it is there") = object;
    }
}

impl Shared for BTreeMap<Vec<u8>, ArcSwap<Object>> {
    fn new() -> Self {
        (0..KEYS).map(|number| (key(number), ArcSwap::from_pointee(object(1)))).collect()
    }

    fn peek(&self, key: &[u8]) -> Shown {
        shown(&self[key].load())
    }

    fn write(&self, key: &[u8], object: Object) {
        self[key].store(object.into());
    }
}

/// What chooses places that look random, the same in each run, as `crates/bench` does.
struct Dice(u64);

impl Dice {
    fn place(&mut self) -> usize {
        self.0 = self.0.wrapping_mul(6_364_136_223_846_793_005).wrapping_add(1_442_695_040_888_963_407);
        (self.0 >> 33) as usize % KEYS
    }
}

/// Looks until the writer is done: how often.
fn look<S: Shared>(shared: &S, keys: &[Vec<u8>], is_over: &AtomicBool, seed: u64) -> u64 {
    let (mut dice, mut count) = (Dice(seed), 0);
    while !is_over.load(Ordering::SeqCst) {
        for _ in 0..LOOKS {
            black_box(shared.peek(&keys[dice.place()]));
        }
        count += LOOKS;
    }
    count
}

/// Writes until the time is over: how often.
fn write<S: Shared>(shared: &S, keys: &[Vec<u8>], is_paced: bool) -> u64 {
    let (mut dice, mut count, start) = (Dice(10), 0, Instant::now());
    while start.elapsed() < SPAN {
        shared.write(&keys[dice.place()], object(count + 2));
        count += 1;
        if is_paced {
            thread::sleep(PAUSE);
        }
    }
    count
}

/// How many reads, and how many writes, were made in a second.
fn sample<S: Shared>(shared: &S, keys: &[Vec<u8>], readers: u64, is_paced: bool) -> (u64, u64) {
    let (is_over, reads) = (&AtomicBool::new(false), &AtomicU64::new(0));
    let start = Instant::now();
    let writes = thread::scope(|scope| {
        for seed in 0..readers {
            scope.spawn(move || reads.fetch_add(look(shared, keys, is_over, seed), Ordering::SeqCst));
        }
        let writes = write(shared, keys, is_paced);
        is_over.store(true, Ordering::SeqCst);
        writes
    });
    let rate = |count: u64| (count as f64 / start.elapsed().as_secs_f64()) as u64;
    (rate(reads.load(Ordering::SeqCst)), rate(writes))
}

fn median<T: Ord + Copy>(mut samples: Vec<T>) -> T {
    samples.sort();
    samples[samples.len() / 2]
}

fn measure_peeks<S: Shared>() {
    let keys: Vec<Vec<u8>> = (0..KEYS).map(key).collect();
    let shared = S::new();
    for (readers, is_paced) in [(1, true), (4, true), (1, false), (4, false)] {
        let samples: Vec<_> = (0..SAMPLES).map(|_| sample(&shared, &keys, readers, is_paced)).collect();
        let pace = if is_paced { "paced" } else { "busy" };
        let reads = median(samples.iter().map(|of| of.0).collect());
        let writes = median(samples.iter().map(|of| of.1).collect());
        println!("peek_{readers}_readers_{pace}_reads {reads} reads/s");
        println!("peek_{readers}_readers_{pace}_writes {writes} writes/s");
    }
}

/// Two writes of a new file with their syncs, as often as there are samples: so many bytes behind a byte, and that byte.
fn measure_disk(folder: &str, bytes: usize) -> io::Result<()> {
    let path = Path::new(folder).join("bench-bare.tmp");
    let file = OpenOptions::new().write(true).create_new(true).open(&path)?;
    let (bytes, mut at, mut samples) = (vec![7; bytes], 0, Vec::new());
    for _ in 0..WRITES {
        let start = Instant::now();
        file.write_all_at(&bytes, at + 1)?;
        file.sync_data()?;
        file.write_all_at(&[1], at)?;
        file.sync_data()?;
        samples.push(start.elapsed().as_nanos());
        at += bytes.len() as u64;
    }
    println!("put_over_fdatasync {} ops/s", 1_000_000_000 / median(samples).max(1));
    std::fs::remove_file(path)
}

fn main() -> io::Result<()> {
    let words: Vec<String> = std::env::args().skip(1).collect();
    match words.iter().map(String::as_str).collect::<Vec<_>>()[..] {
        ["peek", "arc-swap"] => measure_peeks::<BTreeMap<_, ArcSwap<_>>>(),
        ["peek", "rwlock"] => measure_peeks::<RwLock<_>>(),
        ["disk", folder, bytes] => measure_disk(folder, bytes.parse().map_err(io::Error::other)?)?,
        _ => (),
    }
    Ok(())
}
