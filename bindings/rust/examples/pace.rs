//! How many steps a node makes in a second through this package: the work and the lines of `bench node steps`
//! (`crates/bench`), beside which `scripts/bindings-pace` runs it.
//!
//!     cargo run --release --offline --example pace

use std::time::Instant;
use zomtagi::{Error, Key, Node, Taken, Value};

/// How many steps a sample has, and how many samples there are; the median counts.
const CALLS: usize = 2_000;
const SAMPLES: usize = 11;

/// Keys of one full prefix, which are chosen as if at random, and the value that is written under them.
struct Rows {
    keys: Vec<Key>,
    value: Value,
    dice: u64,
}

impl Rows {
    fn new(count: usize) -> Rows {
        let keys = (0..count).map(|number| Key::new("bench", "p", format!("key-{number:05}"))).collect();
        Rows { keys, value: Value::text([b'a'; 100]), dice: 1 }
    }

    fn any_key(&mut self) -> &Key {
        self.dice = self.dice.wrapping_mul(6_364_136_223_846_793_005).wrapping_add(1_442_695_040_888_963_407);
        &self.keys[(self.dice >> 33) as usize % self.keys.len()]
    }

    /// A node that holds the value under each key, and knows nobody.
    fn lone(&self) -> Result<Node, Error> {
        let mut node = Node::new(0, 1)?;
        self.keys.iter().try_for_each(|key| node.write_over(key, &self.value).map(drop))?;
        Ok(node)
    }

    /// Two neighbours that hold it, by writes of the first.
    fn neighbours(&self) -> Result<(Node, Node), Error> {
        let (mut writer, mut reader) = (Node::new(0, 1)?, Node::new(1, 1)?);
        for frame in reader.join(0)? {
            writer.take(frame.bytes())?;
        }
        for key in &self.keys {
            for frame in writer.write_over(key, &self.value)? {
                reader.take(frame.bytes())?;
            }
        }
        Ok((writer, reader))
    }
}

/// The nanoseconds that some work takes: the median of the samples.
fn median(mut sample: impl FnMut() -> Result<u128, Error>) -> Result<u128, Error> {
    let mut samples = (0..SAMPLES).map(|_| sample()).collect::<Result<Vec<_>, Error>>()?;
    samples.sort_unstable();
    Ok(samples[SAMPLES / 2])
}

/// The nanoseconds of writes.
fn writes(rows: &mut Rows, node: &mut Node) -> Result<u128, Error> {
    let (value, start) = (rows.value.clone(), Instant::now());
    for _ in 0..CALLS {
        node.write_over(rows.any_key(), &value)?;
    }
    Ok(start.elapsed().as_nanos())
}

/// The nanoseconds in which the frames of writes are taken, each of which brings something new.
fn gossips(rows: &mut Rows, writer: &mut Node, reader: &mut Node) -> Result<u128, Error> {
    let (value, mut frames) = (rows.value.clone(), Vec::new());
    for _ in 0..CALLS {
        frames.extend(writer.write_over(rows.any_key(), &value)?);
    }
    let start = Instant::now();
    for frame in &frames {
        assert_eq!(reader.take(frame.bytes())?.0, Taken::Fresh);
    }
    let nanos = start.elapsed().as_nanos();
    assert_eq!(frames.len(), CALLS);
    Ok(nanos)
}

fn print_rate(name: &str, count: usize, nanos: u128) {
    println!("{name}_{count}_keys_1_prefix {} ops/s", CALLS as u128 * 1_000_000_000 / nanos);
}

fn main() -> Result<(), Error> {
    for count in [100, 8_192] {
        let mut rows = Rows::new(count);
        let mut node = rows.lone()?;
        print_rate("step_put_over", count, median(|| writes(&mut rows, &mut node))?);
        let (mut writer, mut reader) = rows.neighbours()?;
        print_rate("step_fresh_gossip", count, median(|| gossips(&mut rows, &mut writer, &mut reader))?);
    }
    Ok(())
}
