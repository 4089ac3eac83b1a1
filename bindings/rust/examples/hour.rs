//! An hour of sixteen drivers by a clock of their own, for `scripts/simulate-hours`.
//!
//!     cargo run --release --offline --example hour -- datagrams|streams SEED
//!
//! Five of a hundred frames are lost. For fifty minutes one node writes each second; each fourth minute one is killed, and begins
//! its next life, with what it has stored, 10 to 110 seconds later. Ten minutes of rest follow. It prints a line for each figure:
//! its name, and a number.

#[path = "../tests/common/drivers.rs"]
mod drivers;

use drivers::{showing, Cluster, Links, NODES};
use std::collections::BTreeMap;
use std::env;
use zomtagi::Node;

const LOST: u64 = 5;
const WRITES: u64 = 50 * 60;
const REST: u64 = 10 * 60;
/// From one kill to the next, and how long a node is down, in seconds.
const KILLS: u64 = 4 * 60;
const DOWN: (u64, u64) = (10, 110);
/// How many keys each node writes.
const KEYS: u64 = 20;

/// A set of nodes, as bits.
type Nodes = u16;

/// For how many seconds something was so.
#[derive(Clone, Default)]
struct Spell {
    all: u64,
    longest: u64,
    now: u64,
}

impl Spell {
    fn note(&mut self, is_so: bool) {
        self.now = if is_so { self.now + 1 } else { 0 };
        self.all += u64::from(is_so);
        self.longest = self.longest.max(self.now);
    }

    fn tell(&self, name: &str) {
        println!("{name} {}\n{name}-longest {}\n{name}-at-end {}", self.all, self.longest, self.now);
    }
}

/// What is seen each second.
#[derive(Default)]
struct Seen {
    /// Not all nodes are joined by links between neighbours, in whichever direction; the same without nodes that are down.
    in_pieces: Spell,
    in_pieces_up: Spell,
    /// Along neighbours not every node that is up leads to every other.
    one_way: Spell,
    alone: Vec<Spell>,
    sent: Vec<u64>,
    most_sent: u64,
    seconds_up: u64,
    /// How many nodes showed a write half a second later, and how many there were.
    shown: usize,
    could_show: usize,
}

impl Seen {
    fn note(&mut self, cluster: &Cluster) {
        let bits = |nodes: Vec<u16>| nodes.iter().fold(0, |all, it| all | 1 << it);
        let links: BTreeMap<u16, Nodes> =
            cluster.living().map(|node| (node.number(), bits(node.neighbours().unwrap()))).collect();
        let up = bits(links.keys().copied().collect());
        let is_whole = |from, among, both_ways| reached(&links, from, among, both_ways) == among;
        let first = up.trailing_zeros() as u16;
        self.in_pieces.note(!is_whole(first, !0, true));
        self.in_pieces_up.note(!is_whole(first, up, true));
        self.one_way.note(!links.keys().all(|from| is_whole(*from, up, false)));
        self.alone.resize(NODES.into(), Spell::default());
        self.alone.iter_mut().zip(0..).for_each(|(it, node)| it.note(links.get(&node) == Some(&0)));
        let before = std::mem::replace(&mut self.sent, cluster.sent.clone());
        let most = self.sent.iter().zip(&before).map(|(now, before)| now - before).max();
        self.most_sent = self.most_sent.max(most.unwrap_or(0));
        self.seconds_up += links.len() as u64;
    }

    fn tell(&self) {
        self.in_pieces.tell("in-pieces");
        self.in_pieces_up.tell("in-pieces-up");
        self.one_way.tell("one-way");
        println!("alone {}", self.alone.iter().map(|it| it.all).sum::<u64>());
        println!("alone-longest {}", self.alone.iter().map(|it| it.longest).max().unwrap());
        println!("alone-at-end {}", self.alone.iter().filter(|it| it.now > 0).count());
        println!("shown {}\ncould-show {}", self.shown, self.could_show);
        println!("sent {}\nmost-sent {}\nseconds-up {}", self.sent.iter().sum::<u64>(), self.most_sent, self.seconds_up);
    }
}

/// The nodes among these to which links lead from one.
fn reached(links: &BTreeMap<u16, Nodes>, from: u16, among: Nodes, both_ways: bool) -> Nodes {
    let mut found = 1 << from;
    loop {
        let more = links.iter().fold(found, |all, (node, to)| {
            let there = if found & 1 << node != 0 { *to } else { 0 };
            let back = if both_ways && found & to != 0 { 1 << node } else { 0 };
            all | there | back
        }) & among;
        if more == found {
            return found;
        }
        found = more;
    }
}

fn main() {
    let words: Vec<String> = env::args().skip(1).collect();
    let (links, seed) = match words.iter().map(String::as_str).collect::<Vec<_>>()[..] {
        ["datagrams", seed] => (Links::Datagrams, seed.parse().unwrap()),
        ["streams", seed] => (Links::Streams, seed.parse().unwrap()),
        _ => panic!("usage: hour datagrams|streams SEED"),
    };
    let mut cluster = Cluster::start(seed, links, LOST);
    let (mut seen, mut written, mut down, mut agreed) = (Seen::default(), BTreeMap::new(), None, None);
    for second in 1..=WRITES + REST {
        let (mut name, text) = (String::new(), second.to_string());
        if second <= WRITES {
            let up: Vec<u16> = cluster.living().map(Node::number).collect();
            let node = up[cluster.chance.below(up.len() as u64) as usize];
            name = format!("{node}-{}", cluster.chance.below(KEYS));
            cluster.write(node, &name, &text);
            written.insert(name.clone(), text.clone());
        }
        for tenth in 1..=10 {
            cluster.pass(100);
            if second <= WRITES && tenth == 5 {
                seen.shown += showing(&cluster, &name, &text);
                seen.could_show += cluster.living().count();
            }
            if second >= WRITES && agreed.is_none() && cluster.agrees() {
                agreed = Some((second - WRITES) * 10 + tenth);
            }
        }
        seen.note(&cluster);
        if let Some((node, _)) = down.filter(|(_, until)| *until == second) {
            cluster.begin(node);
            down = None;
        } else if second % KILLS == 0 && second < WRITES {
            let node = cluster.chance.below(NODES.into()) as u16;
            cluster.kill(node);
            down = Some((node, second + DOWN.0 + cluster.chance.below(DOWN.1 - DOWN.0 + 1)));
        }
    }
    seen.tell();
    println!("tenths-to-agree {}", agreed.expect("after ten minutes they don't agree"));
    let lost = written.iter().filter(|(name, text)| showing(&cluster, name, text) < NODES.into());
    println!("keys {}\nlost {}", written.len(), lost.count());
}
