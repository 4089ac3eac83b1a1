//! Sixteen drivers in one process, by a clock of its own.

#![allow(dead_code)]

use std::collections::BTreeMap;
use std::sync::{Arc, Mutex};
use zomtagi::{Driver, Error, Frame, Key, Node, Pace, Store, Value};

pub const NODES: u16 = 16;
pub const PACE: Pace = Pace { tick: 1_000, quiet: 60_000 };
/// The most milliseconds that a frame takes.
const SLOWEST: u64 = 50;

/// How frames go from one node to another.
#[derive(Clone, Copy)]
pub enum Links {
    /// One may overtake another, and a node that is down is silent.
    Datagrams,
    /// They keep their order, and links to a node that is down fail.
    Streams,
}

/// Numbers that look random, by xorshift.
pub struct Chance(u64);

impl Chance {
    fn new(seed: u64) -> Chance {
        Chance(seed.wrapping_mul(0x9e37_79b9_7f4a_7c15) | 1)
    }

    fn word(&mut self) -> u64 {
        self.0 ^= self.0 << 13;
        self.0 ^= self.0 >> 7;
        self.0 ^= self.0 << 17;
        self.0
    }

    pub fn below(&mut self, end: u64) -> u64 {
        self.word() % end
    }
}

/// The file of a node.
#[derive(Clone)]
struct InMemory(Arc<Mutex<Vec<u8>>>);

impl InMemory {
    fn empty(node: u16) -> InMemory {
        InMemory(Arc::new(Mutex::new([b"PMNODE02", &node.to_be_bytes()[..], b"\0"].concat())))
    }
}

impl Store for InMemory {
    fn append(&mut self, gate: u64, record: &[u8]) -> Result<(), Error> {
        let mut file = self.0.lock().unwrap();
        file.truncate(gate as usize);
        file.extend(record);
        Ok(())
    }
}

pub struct Cluster {
    /// `None` for a node that is down.
    drivers: Vec<Option<Driver>>,
    files: Vec<InMemory>,
    now: u64,
    pub chance: Chance,
    links: Links,
    /// How many of a hundred frames are lost.
    lost: u64,
    /// How many frames each node has sent.
    pub sent: Vec<u64>,
    /// The frames on their way, by when they come, and how many were sent before.
    coming: BTreeMap<(u64, u64), Frame>,
    /// When the last frame from one node to another comes.
    latest: BTreeMap<(u16, u16), u64>,
}

impl Cluster {
    /// Nodes in their first lives, which begin within a second.
    pub fn start(seed: u64, links: Links, lost: u64) -> Cluster {
        let mut cluster = Cluster {
            drivers: (0..NODES).map(|_| None).collect(),
            files: (0..NODES).map(InMemory::empty).collect(),
            now: 0,
            chance: Chance::new(seed),
            links,
            lost,
            sent: vec![0; NODES.into()],
            coming: BTreeMap::new(),
            latest: BTreeMap::new(),
        };
        for number in 0..NODES {
            cluster.begin(number);
            cluster.pass(PACE.tick / u64::from(NODES));
        }
        cluster
    }

    /// Begins the next life of a node, with what it has stored.
    pub fn begin(&mut self, number: u16) {
        let file = self.files[number as usize].clone();
        let bytes = file.0.lock().unwrap().clone();
        let mut node = Node::serve(number, &bytes, file).unwrap();
        let mut words = Chance::new(self.chance.word());
        node.set_words(move || words.word());
        let mut driver = Driver::new(node, self.now, PACE).unwrap();
        (0..NODES).for_each(|member| driver.add(self.now, member).unwrap());
        self.drivers[number as usize] = Some(driver);
    }

    pub fn kill(&mut self, number: u16) {
        self.drivers[number as usize] = None;
    }

    /// The nodes that aren't down.
    pub fn living(&self) -> impl Iterator<Item = &Node> {
        self.drivers.iter().flatten().map(Driver::node)
    }

    pub fn fewest_neighbours(&self) -> usize {
        self.living().map(|node| node.neighbours().unwrap().len()).min().unwrap()
    }

    /// So many milliseconds pass.
    pub fn pass(&mut self, millis: u64) {
        let end = self.now + millis;
        loop {
            let wakes = self.drivers.iter().zip(0..).filter_map(|(it, number)| Some((it.as_ref()?.wake(), number)));
            let (wake, number) = wakes.min().unwrap_or((u64::MAX, 0));
            let come = self.coming.first_key_value().map_or(u64::MAX, |((at, _), _)| *at);
            self.now = wake.min(come).min(end).max(self.now); // (something may be past due)
            if wake <= self.now {
                self.call(number, |driver, now| {
                    driver.on_time(now).unwrap();
                    assert!(driver.wake() > now);
                });
            } else if come <= self.now {
                self.arrive();
            } else {
                return;
            }
        }
    }

    fn arrive(&mut self) {
        let (_, frame) = self.coming.pop_first().unwrap();
        let is_there = self.call(frame.to(), |driver, now| {
            driver.on_frame(now, frame.bytes()).unwrap();
        });
        if let (false, Links::Streams) = (is_there, self.links) {
            self.call(frame.from(), |driver, now| driver.on_failure(now, frame.to()).unwrap());
        }
    }

    /// Calls a driver, unless it is down, and sends what it gives.
    fn call(&mut self, number: u16, call: impl FnOnce(&mut Driver, u64)) -> bool {
        let Some(driver) = &mut self.drivers[number as usize] else { return false };
        call(driver, self.now);
        let frames = driver.frames();
        self.send(frames);
        true
    }

    fn send(&mut self, frames: Vec<Frame>) {
        for frame in frames {
            self.sent[frame.from() as usize] += 1;
            let mut at = self.now + 1 + self.chance.below(SLOWEST);
            if let Links::Streams = self.links {
                let latest = self.latest.entry((frame.from(), frame.to())).or_default();
                *latest = at.max(*latest);
                at = *latest;
            }
            if self.chance.below(100) >= self.lost {
                self.coming.insert((at, self.sent.iter().sum()), frame);
            }
        }
    }

    /// A node writes over what it shows.
    pub fn write(&mut self, number: u16, name: &str, text: &str) {
        let driver = self.drivers[number as usize].as_mut().unwrap();
        let frames = driver.node_mut().write_over(&key(name), &Value::text(text)).unwrap();
        self.send(frames);
    }

    /// Whether no node is down, and all hold the same.
    pub fn agrees(&self) -> bool {
        let mut roots: Vec<_> = self.living().map(|node| node.root().unwrap()).collect();
        let living = roots.len();
        roots.dedup();
        living == self.drivers.len() && roots.len() == 1
    }
}

pub fn key(name: &str) -> Key {
    Key::new("app", "flags", name)
}

/// The nodes that show this value.
pub fn showing(cluster: &Cluster, name: &str, text: &str) -> usize {
    cluster.living().filter(|node| node.peek(&key(name)).unwrap() == [Value::text(text)]).count()
}
