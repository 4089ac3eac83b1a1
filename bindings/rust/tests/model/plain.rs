//! A cluster as the pages of `docs/` tell it, without a frame: what each write had read, and which writes each node knows.

use std::cmp::Reverse;
use std::collections::{BTreeMap, BTreeSet, VecDeque};
use zomtagi::{Change, Changes, Counter, FullPrefix, Key, Listed, Taken, Value};

/// Writes, by number.
pub type Known = BTreeSet<usize>;

/// The writes that are known under each key.
pub type Table = BTreeMap<Key, Known>;

struct Write {
    key: Key,
    value: Value,
    /// A node in one of its lives.
    writer: (u16, u32),
    /// How many writes of the writer there are under the key, up to this one.
    count: u64,
    read: Known,
}

/// All writes that were made.
#[derive(Default)]
pub struct Writes(Vec<Write>);

impl Writes {
    fn make(&mut self, writer: (u16, u32), key: &Key, value: &Value, read: Known) -> usize {
        let earlier = self.0.iter().filter(|it| it.writer == writer && it.key == *key).count();
        self.0.push(Write { key: key.clone(), value: value.clone(), writer, count: earlier as u64 + 1, read });
        self.0.len() - 1
    }

    /// The known writes that no known write had read: by writer, and of each writer the newest first.
    fn shown(&self, known: &Known) -> Vec<&Write> {
        let read: Known = known.iter().flat_map(|it| &self.0[*it].read).copied().collect();
        let mut shown: Vec<&Write> = known.difference(&read).map(|it| &self.0[*it]).collect();
        shown.sort_by_key(|it| (it.writer, Reverse(it.count)));
        shown
    }

    /// The siblings.
    pub fn values(&self, known: &Known) -> Vec<Value> {
        self.shown(known).into_iter().map(|it| it.value.clone()).collect()
    }

    /// How many writes of each writer are known.
    fn vector(&self, known: &Known) -> Vec<Counter> {
        let mut counts = BTreeMap::new();
        known.iter().for_each(|it| *counts.entry(self.0[*it].writer).or_insert(0) += 1);
        counts.into_iter().map(|((node, life), count)| Counter { node, life, count }).collect()
    }

    /// What is known, as an object in a frame: of each writer how many writes, and which values are shown.
    pub fn spelled(&self, known: &Known) -> Vec<u8> {
        let vector = self.vector(known);
        let mut bytes = (vector.len() as u16).to_be_bytes().to_vec();
        for Counter { node, life, count } in vector {
            let shown: Vec<&Write> = self.shown(known).into_iter().filter(|it| it.writer == (node, life)).collect();
            bytes.extend(node.to_be_bytes());
            bytes.extend(life.to_be_bytes());
            bytes.extend(count.to_be_bytes());
            bytes.extend((shown.len() as u16).to_be_bytes());
            bytes.extend(shown.into_iter().flat_map(|it| spelled_value(&it.value)));
        }
        bytes
    }
}

fn spelled_value(value: &Value) -> Vec<u8> {
    let (tag, stamp) = (&[u8::from(value.body.is_some())][..], &value.stamp.to_be_bytes()[..]);
    match &value.body {
        None => [tag, stamp].concat(),
        Some(body) => [tag, stamp, &(body.len() as u16).to_be_bytes(), body].concat(),
    }
}

/// A watch, and what it has noted.
struct Watch {
    number: u64,
    under: FullPrefix,
    capacity: usize,
    missed: u64,
    noted: VecDeque<(Key, Known)>,
}

impl Watch {
    fn note(&mut self, key: &Key, known: &Known) {
        if under(key) != self.under {
            return;
        }
        self.noted.push_back((key.clone(), known.clone()));
        if self.noted.len() > self.capacity {
            self.noted.pop_front();
            self.missed += 1;
        }
    }
}

/// The full prefix of a key.
pub fn under(key: &Key) -> FullPrefix {
    (key.prefix.clone(), key.sub.clone())
}

/// A node.
pub struct Plain {
    pub number: u16,
    pub life: u32,
    pub table: Table,
    /// What its file has, if it has one.
    image: Option<Table>,
    watches: Vec<Watch>,
}

impl Plain {
    pub fn new(number: u16, has_file: bool) -> Plain {
        Plain { number, life: 1, table: Table::new(), image: has_file.then(Table::new), watches: Vec::new() }
    }

    pub fn has_file(&self) -> bool {
        self.image.is_some()
    }

    pub fn known(&self, key: &Key) -> Known {
        self.table.get(key).cloned().unwrap_or_default()
    }

    /// A write of a value that had read these. It is in the file, if there is one.
    pub fn write(&mut self, writes: &mut Writes, key: &Key, value: &Value, read: Known) {
        let made = writes.make((self.number, self.life), key, value, read);
        self.change(key, &Known::from([made]));
        self.keep(key);
    }

    /// What comes of an object with these writes.
    pub fn learn(&mut self, key: &Key, known: &Known) -> Taken {
        if known.is_subset(&self.known(key)) {
            return Taken::Stale;
        }
        self.change(key, known);
        Taken::Fresh
    }

    fn change(&mut self, key: &Key, more: &Known) {
        let known = self.table.entry(key.clone()).or_default();
        known.extend(more);
        self.watches.iter_mut().for_each(|it| it.note(key, known));
    }

    /// What is known under the key goes into the file.
    pub fn keep(&mut self, key: &Key) {
        if let (Some(image), Some(known)) = (&mut self.image, self.table.get(key)) {
            image.insert(key.clone(), known.clone());
        }
    }

    /// The next life begins, with what the file has.
    pub fn restart(&mut self) {
        self.life += 1;
        self.table = self.image.clone().unwrap_or_default();
        self.watches.clear();
    }

    /// Each value is written over all that is known under its key.
    pub fn write_over(&mut self, writes: &mut Writes, values: &[(Key, Value)]) {
        for (key, value) in values {
            self.write(writes, key, value, self.known(key));
        }
    }

    /// The next life begins after writes over all that the store didn't accept: the file may have all of them, or none.
    pub fn crash(&mut self, writes: &mut Writes, values: &[(Key, Value)], are_in_file: bool) {
        if are_in_file {
            self.write_over(writes, values);
        }
        self.restart();
    }

    pub fn prefixes(&self) -> Vec<FullPrefix> {
        let prefixes: BTreeSet<FullPrefix> = self.table.keys().map(under).collect();
        prefixes.into_iter().collect()
    }

    /// The keys under a full prefix, and which of them are deleted: those that show only tombstones.
    pub fn listed(&self, writes: &Writes, prefix: &FullPrefix) -> Vec<Listed> {
        let there = self.table.iter().filter(|(key, _)| under(key) == *prefix);
        let is_deleted = |known| writes.values(known).iter().all(|it| it.body.is_none());
        there.map(|(key, known)| Listed { key: key.clone(), is_deleted: is_deleted(known) }).collect()
    }

    /// Whether it may have a further watch.
    pub fn may_watch(&self) -> bool {
        self.watches.len() < 16
    }

    pub fn watch(&mut self, number: u64, under: FullPrefix, capacity: usize) {
        assert!(self.watches.iter().all(|it| it.number != number), "the watch {number} was there");
        self.watches.push(Watch { number, under, capacity, missed: 0, noted: VecDeque::new() });
    }

    /// The numbers of its watches.
    pub fn watches(&self) -> Vec<u64> {
        self.watches.iter().map(|it| it.number).collect()
    }

    /// What a watch hands out.
    pub fn changes(&mut self, writes: &Writes, number: u64) -> Changes {
        let watch = self.watches.iter_mut().find(|it| it.number == number).expect("it was begun");
        let noted = watch.noted.drain(..).map(|(key, known)| Change { key, vector: writes.vector(&known) }).collect();
        Changes { missed: std::mem::take(&mut watch.missed), noted }
    }
}
