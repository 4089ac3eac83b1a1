//! A node of the library, and beside it the plain node that it should be like.

use crate::chance::Chance;
use crate::plain::{Known, Plain, Writes};
use std::fmt;
use std::io;
use std::mem::{replace, take};
use std::path::PathBuf;
use std::sync::{Arc, Mutex};
use zomtagi::{Context, Error, FileStore, Frame, Key, Node, SealKeys, Store, SEAL_LEN};

/// Where a node has its file.
pub enum Home {
    Nowhere,
    Memory(Arc<Mutex<Disk>>),
    Path(PathBuf),
}

/// A file in memory, whose next append may fail.
pub struct Disk {
    bytes: Vec<u8>,
    fails: Option<Fails>,
}

#[derive(Clone, Copy, Debug, PartialEq, Eq)]
pub enum Fails {
    /// Behind the closed gate stands the first half of the record.
    Midway,
    /// All is stored.
    AtItsEnd,
}

struct Memory(Arc<Mutex<Disk>>);

impl Store for Memory {
    fn append(&mut self, gate: u64, record: &[u8]) -> Result<(), Error> {
        let mut disk = self.0.lock().unwrap();
        let fails = disk.fails.take();
        disk.bytes.truncate(gate as usize);
        match fails {
            Some(Fails::Midway) => disk.bytes.extend([&[0], &record[1..record.len() / 2]].concat()),
            _ => disk.bytes.extend(record),
        }
        fails.map_or(Ok(()), |_| Err(io::Error::other("this is wanted").into()))
    }
}

/// What a read has shown, and what the plain node knew then.
pub struct Seen {
    pub context: Context,
    pub key: Key,
    pub known: Known,
}

/// A frame on its way, with what the sender knew under the key of the object that it carries, if it carries one.
#[derive(Clone)]
pub struct Carried {
    pub frame: Frame,
    pub object: Option<(Key, Known)>,
}

impl fmt::Display for Carried {
    fn fmt(&self, out: &mut fmt::Formatter<'_>) -> fmt::Result {
        let bytes = self.frame.bytes();
        let number = u64::from_be_bytes(bytes[8..16].try_into().expect("it has eight bytes"));
        write!(out, "frame {number} of kind {} from {} to {}", bytes[3], bytes[5], bytes[7])?;
        match &self.object {
            Some((key, known)) => write!(out, ", with {known:?} of {key:?}", key = key.to_string()),
            None => Ok(()),
        }
    }
}

pub struct Member {
    pub plain: Plain,
    pub node: Node,
    pub seen: Vec<Seen>,
    home: Home,
    /// How many frames it has sent in this life.
    sent: u64,
}

impl Member {
    pub fn begin(number: u16, home: Home) -> Member {
        let node = match &home {
            Home::Nowhere => Node::new(number, 1),
            Home::Memory(disk) => Member::serve(number, disk),
            Home::Path(path) => FileStore::create(path, number),
        };
        let plain = Plain::new(number, !matches!(home, Home::Nowhere));
        Member { plain, node: node.unwrap(), seen: Vec::new(), home, sent: 0 }
    }

    /// A file of this node, which had no life yet.
    pub fn empty_disk(number: u16) -> Home {
        let bytes = [b"PMNODE02", &number.to_be_bytes()[..], &[0]].concat();
        Home::Memory(Arc::new(Mutex::new(Disk { bytes, fails: None })))
    }

    fn serve(number: u16, disk: &Arc<Mutex<Disk>>) -> Result<Node, Error> {
        let bytes = disk.lock().unwrap().bytes.clone();
        Node::serve(number, &bytes, Memory(Arc::clone(disk)))
    }

    /// Lets the next append fail, if the file is one in memory.
    pub fn fail(&mut self, fails: Fails) -> bool {
        match &self.home {
            Home::Memory(disk) => disk.lock().unwrap().fails = Some(fails),
            _ => return false,
        }
        true
    }

    /// Ends the node's life and begins the next one, in which the plain node is. Returns what it had seen.
    pub fn restart(&mut self) -> Vec<Seen> {
        let number = self.plain.number;
        if let Home::Path(path) = &self.home {
            assert!(matches!(FileStore::open(path, number), Err(Error::InUse)));
        }
        drop(replace(&mut self.node, Node::new(number, 1).unwrap()));
        let node = match &self.home {
            Home::Nowhere => Node::new(number, self.plain.life),
            Home::Memory(disk) => Member::serve(number, disk),
            Home::Path(path) => FileStore::open(path, number),
        };
        self.node = node.unwrap();
        self.sent = 0;
        take(&mut self.seen)
    }

    /// What a life begins with: where the words come from, and the keys of the cluster.
    pub fn set_up(&mut self, mut words: Chance, is_sealed: bool) {
        self.node.set_words(move || words.word());
        self.node.set_keys(is_sealed.then(|| SealKeys::new([7; 32])));
    }

    /// Looks at the frames that the last step sends: `docs/FORMATS.md` has where their fields are.
    pub fn carried(&mut self, writes: &Writes, frames: Vec<Frame>, is_sealed: bool) -> Vec<Carried> {
        let seal = if is_sealed { SEAL_LEN } else { 0 };
        let frames = frames.into_iter().map(|frame| {
            self.sent += 1;
            let (header, body) = frame.bytes()[..frame.bytes().len() - seal].split_at(20);
            assert_eq!(header[..3], [0x50, 0x54, 2]);
            assert_eq!(header[4..6], self.plain.number.to_be_bytes());
            assert_eq!(header[6..8], frame.to().to_be_bytes());
            assert_eq!(header[8..16], self.sent.to_be_bytes());
            assert_eq!(header[16..], (body.len() as u32).to_be_bytes());
            let object = match header[3] {
                GOSSIP => Some(self.object(writes, &body[2..])),
                XOBJECT => Some(self.object(writes, body)),
                _ => None,
            };
            Carried { frame, object }
        });
        frames.collect()
    }

    /// The key that a frame spells, and what is known there. What the frame spells behind the key is just that.
    fn object(&self, writes: &Writes, mut bytes: &[u8]) -> (Key, Known) {
        let mut part = || {
            let (len, rest) = bytes.split_at(2);
            let (part, rest) = rest.split_at(u16::from_be_bytes([len[0], len[1]]).into());
            bytes = rest;
            part
        };
        let key = Key::new(part(), part(), part());
        let known = self.plain.known(&key);
        assert_eq!(bytes, writes.spelled(&known), "the object of a frame of node {}, under {key}", self.plain.number);
        (key, known)
    }

    /// Compares all that the node tells with what the plain one does.
    pub fn check(&self, writes: &Writes, keys: &[Key]) {
        let (plain, node) = (&self.plain, &self.node);
        assert_eq!((node.number(), node.life(), node.is_stopped()), (plain.number, plain.life, false));
        assert_eq!(node.file_len().is_some(), plain.has_file());
        assert_eq!(node.key_count(), plain.table.len(), "the keys of node {}", plain.number);
        assert_eq!(node.prefixes().unwrap(), plain.prefixes(), "the prefixes of node {}", plain.number);
        for key in keys {
            let (shown, wanted) = (node.peek(key).unwrap(), writes.values(&plain.known(key)));
            assert_eq!(shown, wanted, "node {}, under {key}", plain.number);
            let listed = node.list(&key.prefix, &key.sub).unwrap();
            let wanted = plain.listed(writes, &(key.prefix.clone(), key.sub.clone()));
            assert_eq!(listed, wanted, "what node {} lists beside {key}", plain.number);
        }
    }
}

const GOSSIP: u8 = 1;
const XOBJECT: u8 = 17;
