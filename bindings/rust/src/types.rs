use crate::keys::SEAL_LEN;
use std::fmt;
use std::io::{self, Read as _};
use std::sync::{Arc, Mutex};

/// A key: two prefixes of 1 to 64 bytes, and a name of 1 to 256.
///
/// ```
/// let key = zomtagi::Key::new("app", "flags", "colour");
/// assert_eq!(key.to_string(), "app/flags/colour");
/// ```
#[derive(Clone, Debug, PartialEq, Eq, PartialOrd, Ord, Hash)]
pub struct Key {
    /// The first part of its full prefix.
    pub prefix: Vec<u8>,
    /// The second part of its full prefix.
    pub sub: Vec<u8>,
    /// Its name under the full prefix.
    pub name: Vec<u8>,
}

impl Key {
    /// The key of these parts. Whether they are too long is said by the call that gets it.
    ///
    /// ```
    /// # use zomtagi::{Key, Node, Refusal};
    /// let key = Key::new("app", "flags", [0, 255]); // bytes, text or not
    /// assert_eq!((&key.prefix[..], &key.name[..]), (&b"app"[..], &[0, 255][..]));
    /// let long = Key::new("app", "flags", [0; 257]);
    /// assert_eq!(Node::new(0, 1)?.read(&long).unwrap_err().refusal(), Some(Refusal::BadName));
    /// # Ok::<(), zomtagi::Error>(())
    /// ```
    pub fn new(prefix: impl AsRef<[u8]>, sub: impl AsRef<[u8]>, name: impl AsRef<[u8]>) -> Key {
        Key { prefix: prefix.as_ref().to_vec(), sub: sub.as_ref().to_vec(), name: name.as_ref().to_vec() }
    }
}

impl fmt::Display for Key {
    fn fmt(&self, out: &mut fmt::Formatter<'_>) -> fmt::Result {
        let text = String::from_utf8_lossy;
        write!(out, "{}/{}/{}", text(&self.prefix), text(&self.sub), text(&self.name))
    }
}

/// The two prefixes that keys have in common: the prefix and the sub-prefix.
///
/// ```
/// # use zomtagi::{Key, Node, Value};
/// # let (mut node, colour) = (Node::new(0, 1)?, Key::new("app", "flags", "colour"));
/// # node.write_over(&colour, &Value::text("red"))?;
/// let mut keys = Vec::new(); // all that the node holds
/// for (prefix, sub) in node.prefixes()? {
///     keys.extend(node.list(&prefix, &sub)?.into_iter().map(|it| it.key));
/// }
/// assert_eq!(keys, [colour]);
/// # Ok::<(), zomtagi::Error>(())
/// ```
pub type FullPrefix = (Vec<u8>, Vec<u8>);

/// What a write stores: a stamp of the writer's choice, which the store never reads, and a body of up to 1,024 bytes, or none
/// for a tombstone.
///
/// ```
/// use zomtagi::Value;
///
/// assert_eq!(Value::text("red").body.as_deref(), Some(&b"red"[..]));
/// assert!(Value::tombstone().is_tombstone());
/// assert!(Value::tombstone().with_stamp(2) > Value::text("red").with_stamp(1)); // by stamp, then by body
/// ```
#[derive(Clone, Debug, PartialEq, Eq, PartialOrd, Ord, Hash)]
pub struct Value {
    /// What the writer says of its time or version.
    pub stamp: u64,
    /// The bytes, or none for a tombstone.
    pub body: Option<Vec<u8>>,
}

impl Value {
    /// A value of these bytes, text or not, with stamp 0.
    ///
    /// ```
    /// # use zomtagi::Value;
    /// assert_eq!(Value::text("red"), Value { stamp: 0, body: Some(b"red".to_vec()) });
    /// assert_eq!(Value::text([0, 255]).body, Some(vec![0, 255]));
    /// ```
    pub fn text(bytes: impl AsRef<[u8]>) -> Value {
        Value { stamp: 0, body: Some(bytes.as_ref().to_vec()) }
    }

    /// A tombstone, with stamp 0.
    ///
    /// ```
    /// # use zomtagi::{Key, Node, Value};
    /// # let (mut node, colour) = (Node::new(0, 1)?, Key::new("app", "flags", "colour"));
    /// # node.write_over(&colour, &Value::text("red"))?;
    /// node.write_over(&colour, &Value::tombstone())?; // deletes it
    /// assert_eq!(node.peek(&colour)?, [Value { stamp: 0, body: None }]);
    /// # Ok::<(), zomtagi::Error>(())
    /// ```
    pub fn tombstone() -> Value {
        Value { stamp: 0, body: None }
    }

    /// The same with this stamp.
    ///
    /// ```
    /// # use std::time::{SystemTime, UNIX_EPOCH};
    /// # use zomtagi::Value;
    /// let now = SystemTime::now().duration_since(UNIX_EPOCH).unwrap().as_secs();
    /// let (earlier, later) = (Value::text("red").with_stamp(now - 60), Value::text("blue").with_stamp(now));
    /// assert!(earlier < later); // so `Read::lww` chooses the later one
    /// ```
    pub fn with_stamp(self, stamp: u64) -> Value {
        Value { stamp, ..self }
    }

    /// Whether it has no body: a delete wrote it.
    ///
    /// ```
    /// # use zomtagi::Value;
    /// assert!(Value::tombstone().is_tombstone());
    /// assert!(!Value::text("").is_tombstone()); // an empty body is a body
    /// ```
    pub fn is_tombstone(&self) -> bool {
        self.body.is_none()
    }
}

/// What a read has shown, for a write that replaces it. The context itself stays in the node; it is forgotten once this is
/// dropped.
///
/// ```
/// use zomtagi::{Error, Key, Node, Value};
///
/// let (mut node, colour) = (Node::new(0, 1)?, Key::new("app", "flags", "colour"));
/// node.write(&colour, &Value::text("red"), None)?;
/// let context = node.read(&colour)?.context;
/// node.write(&colour, &Value::text("blue"), None)?; // after the read
/// node.write(&colour, &Value::text("green"), Some(&context))?; // replaces red alone
/// assert_eq!(node.peek(&colour)?, [Value::text("green"), Value::text("blue")]);
/// let other = Node::new(1, 1)?.write(&colour, &Value::text("grey"), Some(&context));
/// assert!(matches!(other, Err(Error::OtherContext)));
/// # Ok::<(), zomtagi::Error>(())
/// ```
#[derive(Debug)]
pub struct Context {
    pub(crate) number: u64,
    pub(crate) dropped: Arc<Mutex<Vec<u64>>>,
}

impl Drop for Context {
    fn drop(&mut self) {
        if let Ok(mut dropped) = self.dropped.lock() {
            dropped.push(self.number);
        }
    }
}

/// What a node shows under a key: its siblings, and the context of the read.
///
/// ```
/// use zomtagi::{Key, Node, Value};
///
/// let (mut node, users) = (Node::new(0, 1)?, Key::new("app", "limits", "users"));
/// node.write(&users, &Value::text("40"), None)?;
/// node.write(&users, &Value::text("25"), None)?;
/// let read = node.read(&users)?;
/// let least = read.values.iter().filter_map(|it| String::from_utf8_lossy(it.body.as_ref()?).parse::<u32>().ok()).min();
/// node.write(&users, &Value::text(least.unwrap_or(10).to_string()), Some(&read.context))?; // in the place of both
/// assert_eq!(node.peek(&users)?, [Value::text("25")]);
/// # Ok::<(), zomtagi::Error>(())
/// ```
#[derive(Debug)]
pub struct Read {
    /// The siblings, by writer and of each writer the newest first; none if nothing was ever written.
    pub values: Vec<Value>,
    /// For a write that replaces just these.
    pub context: Context,
}

impl Read {
    /// The last writer's value: that of the greatest stamp, and then of the greatest body, where a tombstone is least. It goes by
    /// the stamps that writers gave, as by [`Value::with_stamp`]: of values with stamp 0 the greatest body is chosen.
    ///
    /// ```
    /// # use zomtagi::{Key, Node, Value};
    /// # let (mut node, colour) = (Node::new(0, 1)?, Key::new("app", "flags", "colour"));
    /// assert_eq!(node.read(&colour)?.lww(), None);
    /// node.write(&colour, &Value::text("red").with_stamp(1), None)?;
    /// node.write(&colour, &Value::text("blue").with_stamp(2), None)?;
    /// assert_eq!(node.read(&colour)?.lww(), Some(&Value::text("blue").with_stamp(2)));
    /// # Ok::<(), zomtagi::Error>(())
    /// ```
    pub fn lww(&self) -> Option<&Value> {
        self.values.iter().max()
    }

    /// The value of the greatest body, where a tombstone is least, and then of the greatest stamp.
    ///
    /// ```
    /// # use zomtagi::{Key, Node, Value};
    /// # let (mut node, colour) = (Node::new(0, 1)?, Key::new("app", "flags", "colour"));
    /// node.write(&colour, &Value::text("red").with_stamp(1), None)?;
    /// node.write(&colour, &Value::text("blue").with_stamp(2), None)?;
    /// node.write(&colour, &Value::tombstone().with_stamp(3), None)?;
    /// assert_eq!(node.read(&colour)?.greatest(), Some(&Value::text("red").with_stamp(1)));
    /// # Ok::<(), zomtagi::Error>(())
    /// ```
    pub fn greatest(&self) -> Option<&Value> {
        self.values.iter().max_by_key(|value| (&value.body, value.stamp))
    }
}

/// A key that a node holds.
///
/// ```
/// use zomtagi::{Key, Listed, Node, Value};
///
/// let (mut node, colour) = (Node::new(0, 1)?, Key::new("app", "flags", "colour"));
/// node.write(&colour, &Value::tombstone(), None)?;
/// assert_eq!(node.list(b"app", b"flags")?, [Listed { key: colour.clone(), is_deleted: true }]);
/// node.write(&colour, &Value::text("red"), None)?; // a sibling of the delete
/// assert_eq!(node.list(b"app", b"flags")?, [Listed { key: colour, is_deleted: false }]);
/// # Ok::<(), zomtagi::Error>(())
/// ```
#[derive(Clone, Debug, PartialEq, Eq)]
pub struct Listed {
    /// The key.
    pub key: Key,
    /// Whether all that is shown under it was deleted.
    pub is_deleted: bool,
}

/// Of the known writes under a key, how many a node made in one of its lives.
///
/// ```
/// use zomtagi::{Counter, Key, Node, Value};
///
/// let (mut node, colour) = (Node::new(3, 7)?, Key::new("app", "flags", "colour"));
/// let flags = node.watch(b"app", b"flags", 8)?;
/// node.write_over(&colour, &Value::text("red"))?;
/// node.write_over(&colour, &Value::text("green"))?;
/// assert_eq!(node.changes(flags)?.noted[1].vector, [Counter { node: 3, life: 7, count: 2 }]);
/// # Ok::<(), zomtagi::Error>(())
/// ```
#[derive(Clone, Copy, Debug, PartialEq, Eq, PartialOrd, Ord, Hash)]
pub struct Counter {
    /// The number of the node.
    pub node: u16,
    /// The number of its life; 0 in what a file of version 1 brought.
    pub life: u32,
    /// How many of its writes, from 1.
    pub count: u64,
}

/// A key that changed, by a write of this node or of another one, and which writes were known under it then.
///
/// ```
/// use zomtagi::{Change, Counter, Key, Node, Value};
///
/// let (mut node, colour) = (Node::new(0, 1)?, Key::new("app", "flags", "colour"));
/// let flags = node.watch(b"app", b"flags", 8)?;
/// node.write_over(&colour, &Value::text("red"))?;
/// let vector = vec![Counter { node: 0, life: 1, count: 1 }];
/// assert_eq!(node.changes(flags)?.noted, [Change { key: colour, vector }]);
/// # Ok::<(), zomtagi::Error>(())
/// ```
#[derive(Clone, Debug, PartialEq, Eq)]
pub struct Change {
    /// The key.
    pub key: Key,
    /// The version vector: a counter for each writer that is known, in the order of nodes and lives.
    pub vector: Vec<Counter>,
}

/// The changes under a full prefix that a watch noted, oldest first, and how many it had missed. A key stands there once for each
/// change, whoever wrote it, this node too.
///
/// ```
/// use zomtagi::{Changes, Key, Node, Value};
///
/// let (mut node, colour) = (Node::new(0, 1)?, Key::new("app", "flags", "colour"));
/// let flags = node.watch(b"app", b"flags", 8)?;
/// node.write_over(&colour, &Value::text("red"))?;
/// node.write_over(&colour, &Value::tombstone())?;
/// let Changes { missed, noted } = node.changes(flags)?;
/// assert_eq!((missed, &noted[0].key, &noted[1].key), (0, &colour, &colour));
/// # Ok::<(), zomtagi::Error>(())
/// ```
#[derive(Clone, Debug, PartialEq, Eq)]
pub struct Changes {
    /// How many changes it had no room for.
    pub missed: u64,
    /// The others.
    pub noted: Vec<Change>,
}

impl Changes {
    /// The key of each change that was noted.
    ///
    /// ```
    /// use zomtagi::{Key, Node, Value};
    ///
    /// let (mut node, colour) = (Node::new(0, 1)?, Key::new("app", "flags", "colour"));
    /// let flags = node.watch(b"app", b"flags", 8)?;
    /// node.write_over(&colour, &Value::text("red"))?;
    /// assert!(node.changes(flags)?.keys().eq([&colour]));
    /// # Ok::<(), zomtagi::Error>(())
    /// ```
    pub fn keys(&self) -> impl Iterator<Item = &Key> {
        self.noted.iter().map(|it| &it.key)
    }
}

/// What came of a frame that was taken.
///
/// ```
/// use zomtagi::{Key, Node, Taken, Value};
///
/// let (mut zero, mut one) = (Node::new(0, 1)?, Node::new(1, 1)?);
/// let join = one.join(0)?.remove(0);
/// assert_eq!(zero.take(join.bytes())?.0, Taken::Taken);
/// let gossip = zero.write_over(&Key::new("app", "flags", "colour"), &Value::text("red"))?.remove(0);
/// assert_eq!(one.take(gossip.bytes())?.0, Taken::Fresh);
/// assert_eq!(one.take(gossip.bytes())?.0, Taken::Stale);
/// # Ok::<(), zomtagi::Error>(())
/// ```
#[derive(Clone, Copy, Debug, PartialEq, Eq)]
pub enum Taken {
    /// It had no object.
    Taken,
    /// Its object counts a write that wasn't known.
    Fresh,
    /// Its object counts no write that wasn't known.
    Stale,
}

/// A frame, to send or as it came.
///
/// ```
/// use zomtagi::Node;
///
/// let (mut zero, mut one) = (Node::new(0, 1)?, Node::new(1, 1)?);
/// for frame in one.join(0)? {
///     assert_eq!((frame.from(), frame.to()), (1, 0));
///     zero.take(frame.bytes())?;
/// }
/// # Ok::<(), zomtagi::Error>(())
/// ```
#[derive(Clone, Debug, PartialEq, Eq)]
pub struct Frame(pub(crate) Vec<u8>);

impl Frame {
    /// The length of a frame's header, of which the last four bytes say how many follow, and the most that may.
    const HEADER: usize = 20;
    const MOST: u32 = (1 << 24) - Frame::HEADER as u32;

    /// The node that sent it, as it says itself: only a sealed frame that was taken is known to come from the cluster.
    ///
    /// ```
    /// # use zomtagi::{Frame, Node};
    /// let hello = Node::new(0, 1)?.hello(1)?.remove(0);
    /// assert_eq!(hello.from(), 0);
    /// let mut bytes = hello.bytes().to_vec();
    /// bytes[5] = 2; // anyone can write this
    /// let forged = Frame::read(&mut &bytes[..], false)?;
    /// assert_eq!(forged.map(|it| it.from()), Some(2));
    /// # Ok::<(), zomtagi::Error>(())
    /// ```
    pub fn from(&self) -> u16 {
        u16::from_be_bytes([self.0[4], self.0[5]])
    }

    /// The node to which it is addressed.
    ///
    /// ```
    /// # use zomtagi::{Frame, Key, Node, Value};
    /// # let mut node = Node::new(0, 1)?;
    /// # for peer in 1..3 {
    /// #     node.take(Node::new(peer, 1)?.join(0)?[0].bytes())?;
    /// # }
    /// let frames = node.write_over(&Key::new("app", "flags", "colour"), &Value::text("red"))?;
    /// assert_eq!(frames.iter().map(Frame::to).collect::<Vec<_>>(), [1, 2]); // to each neighbour
    /// # Ok::<(), zomtagi::Error>(())
    /// ```
    pub fn to(&self) -> u16 {
        u16::from_be_bytes([self.0[6], self.0[7]])
    }

    /// What is sent, and what [`Node::take`](crate::Node::take) takes: the frame, and behind it its seal, if the node has keys.
    ///
    /// ```
    /// # use zomtagi::{Node, SealKeys, SEAL_LEN};
    /// # let mut node = Node::new(0, 1)?;
    /// let bare = node.hello(1)?.remove(0);
    /// node.set_keys(Some(SealKeys::new([7; 32])));
    /// let sealed = node.hello(1)?.remove(0);
    /// assert_eq!(sealed.bytes().len(), bare.bytes().len() + SEAL_LEN);
    /// # Ok::<(), zomtagi::Error>(())
    /// ```
    pub fn bytes(&self) -> &[u8] {
        &self.0
    }

    /// The key of the object in it; `None` if its kind has none. Of a frame that came fresh it is what [`Node::keep`](crate::Node::keep)
    /// stores.
    ///
    /// ```
    /// # use zomtagi::{Key, Node, Value};
    /// # let (mut zero, mut one) = (Node::new(0, 1)?, Node::new(1, 1)?);
    /// let join = one.join(0)?.remove(0);
    /// assert_eq!(join.key(), None);
    /// zero.take(join.bytes())?;
    /// let gossip = zero.write_over(&Key::new("app", "flags", "colour"), &Value::text("red"))?.remove(0);
    /// assert_eq!(gossip.key(), Some(Key::new("app", "flags", "colour")));
    /// # Ok::<(), zomtagi::Error>(())
    /// ```
    pub fn key(&self) -> Option<Key> {
        key_of(&self.0)
    }

    /// Reads the next frame of a stream on which frames stand one behind the other, each with its seal if they are sealed; `None`
    /// where the stream ends. It takes memory as bytes come. Whether they are a frame is said by who takes them.
    ///
    /// Fails with `UnexpectedEof` if the stream ends within a frame, and with `InvalidData` if its header says that it is longer
    /// than any: close the stream then.
    ///
    /// ```
    /// # use zomtagi::{Frame, Node};
    /// let frames = Node::new(0, 1)?.hello(1)?;
    /// let mut stream = frames[0].bytes();
    /// assert_eq!(Frame::read(&mut stream, false)?.as_ref(), frames.first());
    /// assert_eq!(Frame::read(&mut stream, false)?, None);
    /// # Ok::<(), zomtagi::Error>(())
    /// ```
    pub fn read(stream: &mut impl io::Read, are_sealed: bool) -> io::Result<Option<Frame>> {
        let mut bytes = Vec::with_capacity(128);
        if !read_up_to(stream, Frame::HEADER, &mut bytes)? {
            return Ok(None);
        }
        let len = u32::from_be_bytes([bytes[16], bytes[17], bytes[18], bytes[19]]);
        if len > Frame::MOST {
            return Err(io::Error::new(io::ErrorKind::InvalidData, "a frame that is longer than any"));
        }
        let seal = if are_sealed { SEAL_LEN } else { 0 };
        if !read_up_to(stream, len as usize + seal, &mut bytes)? && len as usize + seal > 0 {
            return Err(io::ErrorKind::UnexpectedEof.into());
        }
        Ok(Some(Frame(bytes)))
    }
}

/// The key of the object in a frame: it stands behind the header, in a GOSSIP behind two bytes more.
pub(crate) fn key_of(frame: &[u8]) -> Option<Key> {
    let start = match frame.get(3)? {
        1 => Frame::HEADER + 2,
        17 => Frame::HEADER,
        _ => return None,
    };
    let mut rest = frame.get(start..)?;
    let mut name = || {
        let (len, behind) = rest.split_first_chunk::<2>()?;
        let (name, behind) = behind.split_at_checked(u16::from_be_bytes(*len) as usize)?;
        rest = behind;
        Some(name.to_vec())
    };
    Some(Key { prefix: name()?, sub: name()?, name: name()? })
}

/// Reads as many bytes; or says that there are none.
fn read_up_to(stream: &mut impl io::Read, len: usize, bytes: &mut Vec<u8>) -> io::Result<bool> {
    let read = io::Read::take(&mut *stream, len as u64).read_to_end(bytes)?;
    if 0 < read && read < len {
        return Err(io::ErrorKind::UnexpectedEof.into());
    }
    Ok(read > 0)
}
