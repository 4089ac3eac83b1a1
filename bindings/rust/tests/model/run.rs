//! A run of calls to a few nodes, and of the same calls to the plain ones.

use crate::chance::Chance;
use crate::common::Folder;
use crate::member::{Carried, Fails, Home, Member, Seen};
use crate::plain::{under, Known, Table, Writes};
use std::collections::{HashMap, VecDeque};
use std::slice;
use std::thread;
use zomtagi::{Batch, Error, Frame, FullPrefix, Key, Node, Refusal, Taken, Value};

const CALLS: usize = 50;

/// How many frames may be on their way, and how many reads a node remembers: the oldest are lost.
const MOST_CARRIED: usize = 60;
const MOST_SEEN: usize = 6;

type Call = fn(&mut Run);

/// The calls, each with how often it is made, of a hundred or so.
const KINDS: &[(usize, Call)] = &[
    (12, Run::write),
    (7, Run::write_over),
    (4, Run::batch),
    (3, Run::resolve),
    (9, Run::read),
    (3, Run::keep),
    (4, Run::exchange),
    (4, Run::begin_exchange),
    (8, Run::join),
    (10, Run::tick),
    (2, Run::part),
    (10, Run::deliver),
    (10, Run::deliver_all),
    (2, Run::lose),
    (3, Run::restart),
    (2, Run::crash),
    (2, Run::watch),
    (4, Run::changes),
    (3, Run::mistake),
    (3, Run::mistake_of_a_frame),
];

/// What was done, which is printed if the test fails.
struct Told {
    seed: u64,
    lines: Vec<String>,
}

impl Drop for Told {
    fn drop(&mut self) {
        if thread::panicking() {
            eprintln!("the calls of seed {}:\n{}", self.seed, self.lines.join("\n"));
        }
    }
}

pub struct Run {
    told: Told,
    chance: Chance,
    writes: Writes,
    members: Vec<Member>,
    keys: Vec<Key>,
    is_sealed: bool,
    way: VecDeque<Carried>,
    /// What nodes saw in earlier lives.
    old: Vec<Seen>,
    /// The roots that there were, and what was known with each.
    roots: HashMap<[u8; 32], Table>,
}

/// The keys of all runs: names that are as long as may be, that begin alike, and that are no text.
fn keys() -> Vec<Key> {
    let longest = Key::new([0xff; 64], [0; 64], [0x80; 256]);
    let name = |prefix, sub, name| Key::new(prefix, sub, name);
    vec![name("a", "b", "k"), name("a", "b", "kk"), name("a", "bb", "k"), name("ab", "b", "k"), longest]
}

impl Run {
    pub fn new(seed: u64, folder: &Folder) -> Run {
        let mut chance = Chance::new(seed);
        let (count, first, is_sealed) = (2 + chance.below(3), chance.below(16), chance.one_in(2));
        let numbers = (0..count).map(|place| ((first + 5 * place) % 16) as u16);
        let mut members: Vec<Member> = numbers
            .map(|number| match chance.below(8) {
                0 => Member::begin(number, Home::Path(folder.at(&format!("{seed}-{number}")))),
                1..5 => Member::begin(number, Member::empty_disk(number)),
                _ => Member::begin(number, Home::Nowhere),
            })
            .collect();
        members.iter_mut().for_each(|it| it.set_up(Chance::new(chance.word()), is_sealed));
        Run {
            told: Told { seed, lines: Vec::new() },
            chance,
            writes: Writes::default(),
            members,
            keys: keys(),
            is_sealed,
            way: VecDeque::new(),
            old: Vec::new(),
            roots: HashMap::new(),
        }
    }

    /// Makes the calls, and compares the nodes with the plain ones after each.
    pub fn go(mut self) {
        for _ in 0..CALLS {
            self.call()(&mut self);
            self.check();
        }
    }

    fn call(&mut self) -> Call {
        let mut left = self.chance.below(KINDS.iter().map(|(weight, _)| weight).sum());
        let chosen = KINDS.iter().find(|(weight, _)| {
            let is_here = left < *weight;
            left = left.saturating_sub(*weight);
            is_here
        });
        chosen.expect("the weights are more than what was drawn").1
    }

    fn check(&mut self) {
        for member in &self.members {
            member.check(&self.writes, &self.keys);
            let root = member.node.root().unwrap();
            let known = self.roots.entry(root).or_insert_with(|| member.plain.table.clone());
            assert_eq!(*known, member.plain.table, "node {} has this root, and knows something else", member.plain.number);
        }
        for (place, member) in self.members.iter().enumerate() {
            let alike = self.members[..place].iter().filter(|it| it.plain.table == member.plain.table);
            alike.for_each(|it| assert_eq!(it.node.root().unwrap(), member.node.root().unwrap(), "nodes that know the same"));
        }
    }

    fn tell(&mut self, at: usize, what: String) {
        let plain = &self.members[at].plain;
        self.told.lines.push(format!("node {} in life {}: {what}", plain.number, plain.life));
    }

    fn member(&mut self) -> usize {
        self.chance.below(self.members.len())
    }

    /// Two members.
    fn two(&mut self) -> (usize, usize) {
        let one = self.member();
        (one, (one + 1 + self.chance.below(self.members.len() - 1)) % self.members.len())
    }

    /// Any key, half of the time the first, so that much happens under one.
    fn key(&mut self) -> Key {
        let place = if self.chance.one_in(2) { 0 } else { self.chance.below(self.keys.len()) };
        self.keys[place].clone()
    }

    fn prefix(&mut self) -> FullPrefix {
        under(&self.key())
    }

    fn value(&mut self) -> Value {
        let stamp = *self.chance.pick(&[0, 1, u64::MAX]);
        let body = match self.chance.below(8) {
            0 | 1 => None,
            2 => Some(Vec::new()),
            3 => Some(vec![0xee; 1024]),
            number => Some(format!("{number}").into_bytes()),
        };
        Value { stamp, body }
    }

    /// What the last step of a member sends.
    fn sent(&mut self, at: usize, frames: Vec<Frame>) -> Vec<Carried> {
        self.members[at].carried(&self.writes, frames, self.is_sealed)
    }

    /// The same, which is on its way then.
    fn send(&mut self, at: usize, frames: Vec<Frame>) {
        let carried = self.sent(at, frames);
        self.way.extend(carried);
        self.way.drain(..self.way.len().saturating_sub(MOST_CARRIED));
    }

    fn addressee(&self, carried: &Carried) -> usize {
        self.members.iter().position(|it| it.plain.number == carried.frame.to()).expect("it is one of them")
    }

    /// Hands a frame to the node that it names. Returns what that sends.
    fn hand_over(&mut self, carried: &Carried) -> Vec<Carried> {
        let at = self.addressee(carried);
        self.tell(at, format!("takes {carried}"));
        let member = &mut self.members[at];
        let (taken, frames) = member.node.take(carried.frame.bytes()).unwrap();
        let wanted = carried.object.as_ref().map_or(Taken::Taken, |(key, known)| member.plain.learn(key, known));
        assert_eq!(taken, wanted);
        self.sent(at, frames)
    }

    // What the nodes write, read and keep.

    fn write(&mut self) {
        let (at, value) = (self.member(), self.value());
        let seen = match self.members[at].seen.len() {
            0 => None,
            count if self.chance.one_in(2) => Some(self.chance.below(count)),
            _ => None,
        };
        let key = match seen {
            Some(it) => self.members[at].seen[it].key.clone(),
            None => self.key(),
        };
        self.tell(at, format!("writes {} under {key}, having read {seen:?}", short(&value)));
        let member = &mut self.members[at];
        let seen = seen.map(|it| &member.seen[it]);
        let frames = member.node.write(&key, &value, seen.map(|it| &it.context)).unwrap();
        member.plain.write(&mut self.writes, &key, &value, seen.map_or_else(Known::new, |it| it.known.clone()));
        self.send(at, frames);
    }

    fn write_over(&mut self) {
        let (at, key, value) = (self.member(), self.key(), self.value());
        self.tell(at, format!("writes {} over {key}", short(&value)));
        let member = &mut self.members[at];
        let frames = member.node.write_over(&key, &value).unwrap();
        member.plain.write_over(&mut self.writes, &[(key, value)]);
        self.send(at, frames);
    }

    /// Values under one key or more.
    fn values(&mut self) -> Vec<(Key, Value)> {
        let mut keys = self.keys.clone();
        keys.rotate_left(self.chance.below(self.keys.len()));
        keys.truncate(1 + self.chance.below(self.keys.len()));
        keys.into_iter().map(|key| (key, self.value())).collect()
    }

    /// Writes that are stored at once; those that are refused are left out.
    fn batch(&mut self) {
        let (at, values) = (self.member(), self.values());
        self.tell(at, format!("writes over, at once: {}", told(&values)));
        let member = &mut self.members[at];
        let ((), frames) = member.node.batch(|batch| write_each(batch, &values)).unwrap();
        member.plain.write_over(&mut self.writes, &values);
        self.send(at, frames);
    }

    fn resolve(&mut self) {
        let (at, key) = (self.member(), self.key());
        self.tell(at, format!("resolves {key}"));
        let member = &mut self.members[at];
        let frames = member.node.resolve(&key, |read| read.lww().cloned()).unwrap();
        let known = member.plain.known(&key);
        match self.writes.values(&known) {
            values if values.iter().any(|it| *it != values[0]) => {
                member.plain.write(&mut self.writes, &key, values.iter().max().expect("there are two"), known);
            }
            _ => assert_eq!(frames, []),
        }
        self.send(at, frames);
    }

    fn read(&mut self) {
        let (at, key) = (self.member(), self.key());
        self.tell(at, format!("reads {key}"));
        let member = &mut self.members[at];
        let (read, known) = (member.node.read(&key).unwrap(), member.plain.known(&key));
        assert_eq!(read.values, self.writes.values(&known));
        member.seen.push(Seen { context: read.context, key, known });
        let count = member.seen.len();
        member.seen.drain(..count.saturating_sub(MOST_SEEN));
    }

    fn keep(&mut self) {
        let (at, key) = (self.member(), self.key());
        self.tell(at, format!("keeps {key}"));
        self.members[at].node.keep(&key).unwrap();
        self.members[at].plain.keep(&key);
    }

    fn watch(&mut self) {
        let (at, prefix, capacity) = (self.member(), self.prefix(), *self.chance.pick(&[1, 2, 1024]));
        self.tell(at, format!("watches {prefix:?}, {capacity} changes"));
        let member = &mut self.members[at];
        match member.node.watch(&prefix.0, &prefix.1, capacity) {
            Ok(number) => member.plain.watch(number, prefix, capacity),
            Err(error) => assert_eq!((error.refusal(), member.plain.may_watch()), (Some(Refusal::BadWatch), false)),
        }
    }

    fn changes(&mut self) {
        let at = self.member();
        for number in self.members[at].plain.watches() {
            self.tell(at, format!("tells the changes of watch {number}"));
            let member = &mut self.members[at];
            assert_eq!(member.node.changes(number).unwrap(), member.plain.changes(&self.writes, number));
        }
    }

    // What goes from node to node.

    /// A whole exchange: each frame is delivered, in the order in which they were sent.
    fn exchange(&mut self) {
        let (one, other) = self.two();
        let peer = self.members[other].plain.number;
        self.tell(one, format!("exchanges with {peer}"));
        let mut union = self.members[one].plain.table.clone();
        for (key, known) in &self.members[other].plain.table {
            union.entry(key.clone()).or_default().extend(known);
        }
        let frames = self.members[one].node.exchange(peer).unwrap();
        let mut carried = VecDeque::from(self.sent(one, frames));
        while let Some(next) = carried.pop_front() {
            let answers = self.hand_over(&next);
            carried.extend(answers);
        }
        assert_eq!([&self.members[one].plain.table, &self.members[other].plain.table], [&union, &union]);
    }

    fn begin_exchange(&mut self) {
        let (one, other) = self.two();
        let peer = self.members[other].plain.number;
        self.tell(one, format!("begins an exchange with {peer}"));
        let frames = self.members[one].node.exchange(peer).unwrap();
        self.send(one, frames);
    }

    fn join(&mut self) {
        let (one, other) = self.two();
        let contact = self.members[other].plain.number;
        self.tell(one, format!("joins through {contact}"));
        for call in [Node::hello, Node::join] {
            let frames = call(&mut self.members[one].node, contact).unwrap();
            self.send(one, frames);
        }
    }

    fn tick(&mut self) {
        let (at, count) = (self.member(), *self.chance.pick(&[1, 3, 10]));
        self.tell(at, format!("ticks, {count} times"));
        for _ in 0..count {
            let frames = self.members[at].node.tick().unwrap();
            self.send(at, frames);
        }
    }

    /// A peer is down, or the node leaves.
    fn part(&mut self) {
        let (one, other) = self.two();
        let peer = self.members[other].plain.number;
        let leaves = self.chance.one_in(3);
        self.tell(one, if leaves { "leaves".into() } else { format!("hears that {peer} is down") });
        let node = &mut self.members[one].node;
        let frames = if leaves { node.leave() } else { node.peer_down(peer) }.unwrap();
        let left = node.neighbours().unwrap();
        assert!(!left.contains(&peer) && (left.is_empty() || !leaves), "{left:?}");
        self.send(one, frames);
    }

    /// Any frame that is on its way arrives; it may arrive again.
    fn deliver(&mut self) {
        if self.way.is_empty() {
            return;
        }
        let place = self.chance.below(self.way.len());
        let carried = self.way[place].clone();
        if !self.chance.one_in(4) {
            self.way.remove(place);
        }
        let answers = self.hand_over(&carried);
        self.way.extend(answers);
    }

    /// What is on its way arrives, in any order, and what answers it, or some is lost.
    fn deliver_all(&mut self) {
        for _ in 0..MOST_CARRIED {
            self.deliver();
        }
    }

    fn lose(&mut self) {
        let count = self.chance.below(self.way.len() + 1);
        self.way.drain(..count);
        self.told.lines.push(format!("{count} frames are lost"));
    }

    // What ends a life.

    fn begin_life(&mut self, at: usize) {
        let seen = self.members[at].restart();
        self.old.extend(seen);
        let words = Chance::new(self.chance.word());
        self.members[at].set_up(words, self.is_sealed);
    }

    fn restart(&mut self) {
        let at = self.member();
        self.tell(at, "restarts".into());
        self.members[at].plain.restart();
        self.begin_life(at);
    }

    /// The store fails in a write or a batch, which stops the node: it is served again from what was stored.
    fn crash(&mut self) {
        let (at, values) = (self.member(), self.values());
        let fails = *self.chance.pick(&[Fails::Midway, Fails::AtItsEnd]);
        let member = &mut self.members[at];
        if !member.fail(fails) {
            return;
        }
        let failed = match &values[..] {
            [(key, value)] => member.node.write_over(key, value).map(drop),
            values => member.node.batch(|batch| write_each(batch, values)).map(drop),
        };
        assert!(failed.unwrap_err().ends_node());
        assert_eq!(member.node.tick().unwrap_err().refusal(), Some(Refusal::Stopped));
        member.plain.crash(&mut self.writes, &values, fails == Fails::AtItsEnd);
        self.tell(at, format!("(its store failed {fails:?} of writes over, at once: {})", told(&values)));
        self.begin_life(at);
    }

    // What is refused, and changes nothing.

    fn mistake(&mut self) {
        let (one, other) = self.two();
        self.tell(one, "makes mistakes".into());
        let number = self.members[one].plain.number;
        let key = self.key();
        let elsewhere = self.members[other].seen.pop().into_iter().chain(self.old.pop());
        let member = &mut self.members[one];
        for seen in elsewhere {
            let refused = member.node.write(&seen.key, &Value::text("x"), Some(&seen.context));
            assert!(matches!(refused, Err(Error::OtherContext)));
        }
        for seen in member.seen.iter().filter(|it| it.key != key) {
            let refused = member.node.write(&key, &Value::text("x"), Some(&seen.context)).unwrap_err();
            assert_eq!(refused.refusal(), Some(Refusal::WrongKey));
        }
        let node = &mut member.node;
        let refusals = [
            (node.write_over(&key, &Value::text([0; 1025])), Refusal::ValueTooLong),
            (node.write_over(&Key::new("a", "b", [0; 257]), &Value::text("x")), Refusal::BadName),
            (node.exchange(number), Refusal::BadNode),
            (node.changes(u64::MAX).map(|_| Vec::new()), Refusal::NoSuchWatch),
        ];
        for (result, wanted) in refusals {
            assert_eq!(result.unwrap_err().refusal(), Some(wanted));
        }
    }

    /// A frame comes to the wrong node; and if frames are sealed, one comes that was changed on its way.
    fn mistake_of_a_frame(&mut self) {
        let Some(carried) = self.way.pop_front() else {
            return;
        };
        let at = self.addressee(&carried);
        let other = (at + 1) % self.members.len();
        self.tell(other, format!("takes what isn't for it, or was changed: {carried}"));
        let mut bytes = carried.frame.bytes().to_vec();
        assert_eq!(self.members[other].node.take(&bytes).unwrap_err().refusal(), Some(Refusal::NotAddressed));
        if self.is_sealed {
            let place = self.chance.below(bytes.len());
            bytes[place] ^= 1 << self.chance.below(8);
            assert_eq!(self.members[at].node.take(&bytes).unwrap_err().refusal(), Some(Refusal::BadSeal));
        }
    }
}

/// Writes each value over what is shown, and one that is refused behind each.
fn write_each(batch: &mut Batch<'_>, values: &[(Key, Value)]) {
    for (key, value) in values {
        batch.write_over(key, value).unwrap();
        assert_eq!(batch.peek(key).unwrap(), slice::from_ref(value));
        let refused = batch.write_over(key, &Value::text([0; 1025])).unwrap_err();
        assert_eq!(refused.refusal(), Some(Refusal::ValueTooLong));
    }
}

/// Values under keys, as they are printed.
fn told(values: &[(Key, Value)]) -> String {
    values.iter().map(|(key, value)| format!("{} over {key}", short(value))).collect::<Vec<_>>().join(", ")
}

/// A value, as it is printed.
fn short(value: &Value) -> String {
    match &value.body {
        None => format!("a tombstone @{}", value.stamp),
        Some(body) if body.len() > 8 => format!("{} bytes @{}", body.len(), value.stamp),
        Some(body) => format!("{:?} @{}", String::from_utf8_lossy(body), value.stamp),
    }
}
