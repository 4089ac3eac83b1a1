use crate::batch::Batch;
use crate::error::Error;
use crate::keys::SealKeys;
use crate::raw::*;
use crate::refusal::Refusal;
use crate::types::{key_of, Change, Changes, Context, Counter, Frame, FullPrefix, Key, Listed, Read, Taken, Value};
use std::cell::{RefCell, UnsafeCell};
use std::collections::hash_map::RandomState;
use std::fmt;
use std::hash::{BuildHasher, Hasher};
use std::mem::{forget, take};
use std::sync::{Arc, Mutex};

/// What executes what a node asks to be stored. After `Ok` all of it is durable.
///
/// [`FileStore`](crate::FileStore) is one. This one keeps the file in memory:
///
/// ```
/// use std::sync::{Arc, Mutex};
/// use zomtagi::{Error, Key, Node, Store, Value};
///
/// struct InMemory(Arc<Mutex<Vec<u8>>>);
///
/// impl Store for InMemory {
///     fn append(&mut self, gate: u64, record: &[u8]) -> Result<(), Error> {
///         let mut file = self.0.lock().unwrap();
///         file.truncate(gate as usize);
///         file.extend(record);
///         Ok(())
///     }
/// }
///
/// let empty = b"PMNODE02\0\x03\0"; // the file of node 3, which had no life yet
/// let file = Arc::new(Mutex::new(empty.to_vec()));
/// let mut node = Node::serve(3, empty, InMemory(Arc::clone(&file)))?;
/// let colour = Key::new("app", "flags", "colour");
/// node.write_over(&colour, &Value::text("red"))?;
/// let bytes = file.lock().unwrap().clone();
/// let next = Node::serve(3, &bytes, InMemory(file))?;
/// assert_eq!((next.life(), next.peek(&colour)?), (2, vec![Value::text("red")]));
/// # Ok::<(), zomtagi::Error>(())
/// ```
pub trait Store: Send {
    /// Writes all bytes of the record but the first at the offset after the gate, syncs, writes the first over the gate, and
    /// syncs. If the first write fails, as on a full disk, a store may make it again, whole, before it goes on; `FileStore`
    /// repeats nothing. If this returns an error, or panics, the node is stopped, and is served from the file again. What the
    /// disk holds isn't known after a sync that failed, which is an [`Error::Sync`]: then the bytes are written into a new file
    /// first.
    fn append(&mut self, gate: u64, record: &[u8]) -> Result<(), Error>;
}

/// A node. It may move to another thread, and starts none; it isn't shared by several: send its thread what happens.
///
/// Its steps want random words. They come from std's `RandomState`, unless [`Node::set_words`] says otherwise.
///
/// ```
/// use zomtagi::{Key, Node, Value};
///
/// let (mut zero, mut one) = (Node::new(0, 1)?, Node::new(1, 1)?);
/// let join = one.join(0)?.remove(0);
/// zero.take(join.bytes())?; // in place of a network: they are neighbours now
/// let colour = Key::new("app", "flags", "colour");
/// for frame in zero.write_over(&colour, &Value::text("red"))? {
///     one.take(frame.bytes())?;
/// }
/// assert_eq!(one.peek(&colour)?, [Value::text("red")]);
/// # Ok::<(), zomtagi::Error>(())
/// ```
pub struct Node {
    /// (an export that only tells writes the slot too)
    slot: UnsafeCell<Slot>,
    store: Option<Box<dyn Store>>,
    keys: Option<SealKeys>,
    is_keeping: bool,
    words: Box<dyn FnMut() -> u64 + Send>,
    /// The contexts that were dropped, and are to be forgotten.
    dropped: Arc<Mutex<Vec<u64>>>,
    buffer: RefCell<Vec<u8>>,
    /// Whether a step was made whose reply couldn't be handed out.
    is_stopped: bool,
}

/// Calls an export of a slot and a key.
macro_rules! of_key {
    ($export:ident, $slot:expr, $key:expr $(, $rest:expr)*) => {{
        let Key { prefix, sub, name } = $key;
        let (prefix_len, sub_len, name_len) = (prefix.len(), sub.len(), name.len());
        unsafe { $export($slot, prefix.as_ptr(), prefix_len, sub.as_ptr(), sub_len, name.as_ptr(), name_len $(, $rest)*) }
    }};
}

/// The answer of an export.
pub(crate) fn answered(number: u16) -> Result<(), Error> {
    match number {
        0 => Ok(()),
        number => Err(Refusal::of(number).into()),
    }
}

/// The refusal of the bytes of a file that is damaged.
pub(crate) fn damage(node: u16, bytes: &[u8]) -> Error {
    let mut at = 0;
    match Refusal::of(unsafe { zomtagi_check_file(bytes.as_ptr(), bytes.len(), node, &mut at) }) {
        Refusal::Damaged => Error::Damaged { at: at as u64 },
        refusal => refusal.into(),
    }
}

/// The refusal of the bytes of a frame whose body is at fault.
fn bad_body(frame: &[u8]) -> Error {
    let mut at = 0;
    match Refusal::of(unsafe { zomtagi_check_frame(frame.as_ptr(), frame.len(), &mut at) }) {
        Refusal::BadBody => Error::BadBody { at: at as u64 },
        refusal => refusal.into(),
    }
}

/// A word of a hash under a key that the operating system began, another one each time.
fn random_word() -> u64 {
    RandomState::new().build_hasher().finish()
}

impl Node {
    /// A node without a file, in the life of this number, from 1. See to it that it never had a life of this number or a
    /// greater one.
    ///
    /// ```
    /// # use zomtagi::{Node, Refusal};
    /// let node = Node::new(3, 1)?;
    /// assert_eq!((node.number(), node.life(), node.key_count()), (3, 1, 0));
    /// assert_eq!(Node::new(16, 1).unwrap_err().refusal(), Some(Refusal::BadNode));
    /// assert_eq!(Node::new(3, 0).unwrap_err().refusal(), Some(Refusal::BadLife));
    /// # Ok::<(), zomtagi::Error>(())
    /// ```
    pub fn new(node: u16, life: u32) -> Result<Node, Error> {
        let mut made = Node::empty();
        answered(unsafe { zomtagi_new(made.slot.get_mut(), node, life) })?;
        Ok(made)
    }

    /// A node in its next life, served from the bytes of its file, of which `store` keeps the rest. The record of the life is
    /// stored before this returns.
    ///
    /// ```
    /// # use zomtagi::{Error, Node, Refusal, Store};
    /// struct Nowhere; // a store that keeps nothing
    ///
    /// impl Store for Nowhere {
    ///     fn append(&mut self, _gate: u64, _record: &[u8]) -> Result<(), Error> {
    ///         Ok(())
    ///     }
    /// }
    ///
    /// let empty = b"PMNODE02\0\x03\0"; // the file of node 3, which had no life yet
    /// assert_eq!(Node::serve(3, empty, Nowhere)?.life(), 1);
    /// assert_eq!(Node::serve(4, empty, Nowhere).unwrap_err().refusal(), Some(Refusal::OtherNode));
    /// assert!(matches!(Node::serve(3, &empty[..10], Nowhere), Err(Error::Damaged { at: 10 }))); // it ends there
    /// # Ok::<(), zomtagi::Error>(())
    /// ```
    pub fn serve(node: u16, bytes: &[u8], store: impl Store + 'static) -> Result<Node, Error> {
        Node::of_bytes(node, bytes)?.stored_in(store)
    }

    /// A node that is served from these bytes, once the record of its life is stored.
    pub(crate) fn of_bytes(node: u16, bytes: &[u8]) -> Result<Node, Error> {
        let mut made = Node::empty();
        match answered(unsafe { zomtagi_serve(made.slot.get_mut(), bytes.as_ptr(), bytes.len(), node) }) {
            Err(Error::Refused(Refusal::Damaged)) => Err(damage(node, bytes)),
            served => served.map(|()| made),
        }
    }

    /// Stores the record of its life.
    pub(crate) fn stored_in(mut self, store: impl Store + 'static) -> Result<Node, Error> {
        self.store = Some(Box::new(store));
        self.store_record()?;
        Ok(self)
    }

    fn empty() -> Node {
        Node {
            slot: UnsafeCell::new(Slot::EMPTY),
            store: None,
            keys: None,
            is_keeping: false,
            words: Box::new(random_word),
            dropped: Arc::default(),
            buffer: RefCell::new(vec![0; 4096]),
            is_stopped: false,
        }
    }

    /// Seals each frame from now on, and takes only what opens: [`Frame::bytes`] are sealed, and [`Node::take`] refuses other
    /// bytes with 17 `BadSeal`, and the node never sees them. `None` as it began: frames go out and are taken as they are.
    ///
    /// ```
    /// # use zomtagi::{Node, Refusal, SealKeys};
    /// # let (mut zero, mut one) = (Node::new(0, 1)?, Node::new(1, 1)?);
    /// zero.set_keys(Some(SealKeys::new([7; 32]))); // (yours is random)
    /// let bare = one.hello(0)?.remove(0);
    /// assert_eq!(zero.take(bare.bytes()).unwrap_err().refusal(), Some(Refusal::BadSeal));
    /// one.set_keys(Some(SealKeys::new([7; 32])));
    /// let sealed = one.hello(0)?.remove(0);
    /// zero.take(sealed.bytes())?;
    /// # Ok::<(), zomtagi::Error>(())
    /// ```
    pub fn set_keys(&mut self, keys: Option<SealKeys>) {
        self.keys = keys;
    }

    /// Keeps what comes from now on: [`Node::take`] stores each object that was fresh, so that the node shows it in its next life
    /// from the start. That takes two syncs for each such frame, during which the node does nothing else: a node that others
    /// overwhelm with writes falls behind. As it began, what came is stored only by [`Node::keep`], or with a write of its key, and
    /// after a restart comes again by exchanges.
    ///
    /// ```
    /// # use zomtagi::{FileStore, Key, Node, Value};
    /// # let folder = std::env::temp_dir().join(format!("zomtagi-doc-set-keeping-{}", std::process::id()));
    /// # std::fs::create_dir(&folder)?;
    /// # let path = folder.join("node-1");
    /// # let (mut zero, mut one) = (Node::new(0, 1)?, FileStore::create(&path, 1)?);
    /// # zero.take(one.join(0)?[0].bytes())?;
    /// # let colour = Key::new("app", "flags", "colour");
    /// one.set_keeping(true);
    /// let gossip = zero.write_over(&colour, &Value::text("red"))?.remove(0);
    /// one.take(gossip.bytes())?;
    /// drop(one);
    /// assert_eq!(FileStore::open(&path, 1)?.peek(&colour)?, [Value::text("red")]);
    /// # std::fs::remove_dir_all(folder)?;
    /// # Ok::<(), zomtagi::Error>(())
    /// ```
    pub fn set_keeping(&mut self, is_keeping: bool) {
        self.is_keeping = is_keeping;
    }

    /// Takes the words of later steps from here. They should be random; a test that makes the same calls with the same words gets
    /// the same frames.
    ///
    /// ```
    /// # use zomtagi::{Error, Node};
    /// let shuffle = |word| {
    ///     let mut node = Node::new(0, 1)?;
    ///     for peer in 1..4 {
    ///         node.take(Node::new(peer, 1)?.join(0)?[0].bytes())?;
    ///     }
    ///     node.set_words(move || word);
    ///     (0..10).map(|_| node.tick()).collect::<Result<Vec<_>, Error>>() // the tenth goes to a neighbour by chance
    /// };
    /// assert_eq!(shuffle(1)?, shuffle(1)?);
    /// assert_ne!(shuffle(1)?, shuffle(2)?);
    /// # Ok::<(), zomtagi::Error>(())
    /// ```
    pub fn set_words(&mut self, words: impl FnMut() -> u64 + Send + 'static) {
        self.words = Box::new(words);
    }

    /// What the node shows under a key.
    ///
    /// ```
    /// # use zomtagi::{Key, Node, Value};
    /// # let (mut node, colour) = (Node::new(0, 1)?, Key::new("app", "flags", "colour"));
    /// assert_eq!(node.read(&colour)?.values, []);
    /// node.write(&colour, &Value::text("red"), None)?;
    /// node.write(&colour, &Value::text("blue"), None)?;
    /// assert_eq!(node.read(&colour)?.values, [Value::text("blue"), Value::text("red")]);
    /// # Ok::<(), zomtagi::Error>(())
    /// ```
    pub fn read(&mut self, key: &Key) -> Result<Read, Error> {
        let reply = self.step(|slot| of_key!(zomtagi_read, slot, key))?;
        let mut number = 0;
        answered(unsafe { zomtagi_keep_context(self.slot.get_mut(), &mut number) })?;
        let context = Context { number, dropped: Arc::clone(&self.dropped) };
        Ok(Read { values: Fields(&reply[1..]).values(), context })
    }

    /// Writes a value, which replaces what the context's read has shown, or nothing. Returns the frames to send.
    ///
    /// ```
    /// # use zomtagi::{Key, Node, Value};
    /// # let (mut node, colour) = (Node::new(0, 1)?, Key::new("app", "flags", "colour"));
    /// node.write(&colour, &Value::text("red"), None)?;
    /// node.write(&colour, &Value::text("blue"), None)?; // beside it
    /// let read = node.read(&colour)?;
    /// node.write(&colour, &Value::text("green"), Some(&read.context))?; // in the place of both
    /// node.write(&colour, &Value::text("grey"), Some(&read.context))?; // beside green, which that read hasn't shown
    /// assert_eq!(node.peek(&colour)?, [Value::text("grey"), Value::text("green")]);
    /// # Ok::<(), zomtagi::Error>(())
    /// ```
    pub fn write(&mut self, key: &Key, value: &Value, context: Option<&Context>) -> Result<Vec<Frame>, Error> {
        self.stepped(|node| node.ask_write(key, value, context))?;
        self.frames()
    }

    /// Writes a value over all that the node shows. Returns the frames to send.
    ///
    /// ```
    /// # use zomtagi::{Key, Node, Value};
    /// # let (mut node, colour) = (Node::new(0, 1)?, Key::new("app", "flags", "colour"));
    /// node.write(&colour, &Value::text("red"), None)?;
    /// node.write(&colour, &Value::text("blue"), None)?;
    /// node.write_over(&colour, &Value::tombstone())?; // a delete
    /// assert_eq!(node.peek(&colour)?, [Value::tombstone()]);
    /// # Ok::<(), zomtagi::Error>(())
    /// ```
    pub fn write_over(&mut self, key: &Key, value: &Value) -> Result<Vec<Frame>, Error> {
        self.stepped(|node| node.ask_write_over(key, value))?;
        self.frames()
    }

    /// Reads a key, and if it shows values that differ, writes the one that is chosen in their place; they stay if `None` is. Of
    /// one value, none, or equal ones nothing is asked. Nodes that choose alike of what they are shown, as by [`Read::lww`], end
    /// with equal values: two that resolve at once with two of them, which stay beside one another until a write has read them.
    /// Returns the frames to send.
    ///
    /// ```
    /// # use zomtagi::{Key, Node, Value};
    /// # let (mut node, colour) = (Node::new(0, 1)?, Key::new("app", "flags", "colour"));
    /// node.write(&colour, &Value::text("red").with_stamp(1), None)?;
    /// node.write(&colour, &Value::text("blue").with_stamp(2), None)?;
    /// node.resolve(&colour, |read| read.lww().cloned())?;
    /// assert_eq!(node.peek(&colour)?, [Value::text("blue").with_stamp(2)]);
    /// # Ok::<(), zomtagi::Error>(())
    /// ```
    pub fn resolve(&mut self, key: &Key, choose: impl FnOnce(&Read) -> Option<Value>) -> Result<Vec<Frame>, Error> {
        let read = self.read(key)?;
        if read.values.windows(2).all(|two| two[0] == two[1]) {
            return Ok(Vec::new());
        }
        match choose(&read) {
            Some(chosen) => self.write(key, &chosen, Some(&read.context)),
            None => Ok(Vec::new()),
        }
    }

    /// Stores what the node holds under a key, whoever wrote it.
    ///
    /// ```
    /// # use zomtagi::{FileStore, Key, Node, Value};
    /// # let folder = std::env::temp_dir().join(format!("zomtagi-doc-keep-{}", std::process::id()));
    /// # std::fs::create_dir(&folder)?;
    /// # let path = folder.join("node-1");
    /// # let (mut zero, mut one) = (Node::new(0, 1)?, FileStore::create(&path, 1)?);
    /// # zero.take(one.join(0)?[0].bytes())?;
    /// # let colour = Key::new("app", "flags", "colour");
    /// let gossip = zero.write_over(&colour, &Value::text("red"))?.remove(0);
    /// one.take(gossip.bytes())?; // node 1 shows it, but its file doesn't have it
    /// one.keep(&colour)?;
    /// drop(one);
    /// assert_eq!(FileStore::open(&path, 1)?.peek(&colour)?, [Value::text("red")]);
    /// # std::fs::remove_dir_all(folder)?;
    /// # Ok::<(), zomtagi::Error>(())
    /// ```
    pub fn keep(&mut self, key: &Key) -> Result<(), Error> {
        self.stepped(|node| node.ask_keep(key)).map(drop)
    }

    /// Makes several steps and stores what they store at once: two syncs for all of them, and a crash leaves all in the file or
    /// none. Returns what the closure does, and the frames to send, of all steps.
    ///
    /// What is shown of the node has each step at once. A step that is refused is left out, and says so to the closure; none is
    /// taken back, so what was made before is stored, whatever the closure returns. Each write is acknowledged once this has
    /// returned `Ok`; if its store fails the node is stopped, as in a step, and likewise if the closure panics. A step whose record
    /// finds no room in the file, behind those of the batch, is refused with 33 `FileFull`.
    ///
    /// ```
    /// # use zomtagi::{Error, FileStore, Key, Value};
    /// # let folder = std::env::temp_dir().join(format!("zomtagi-doc-batch-{}", std::process::id()));
    /// # std::fs::create_dir(&folder)?;
    /// # let path = folder.join("node-0");
    /// let mut node = FileStore::create(&path, 0)?;
    /// let (from, to) = (Key::new("app", "stock", "here"), Key::new("app", "stock", "there"));
    /// let (moved, frames) = node.batch(|batch| {
    ///     batch.write_over(&from, &Value::text("0"))?;
    ///     batch.write_over(&to, &Value::text("1")) // stored with the other, or not at all
    /// })?;
    /// moved?;
    /// # assert_eq!(frames, []);
    /// # drop(node);
    /// # assert_eq!(FileStore::open(&path, 0)?.peek(&to)?, [Value::text("1")]);
    /// # std::fs::remove_dir_all(folder)?;
    /// # Ok::<(), Error>(())
    /// ```
    pub fn batch<T>(&mut self, steps: impl FnOnce(&mut Batch<'_>) -> T) -> Result<(T, Vec<Frame>), Error> {
        let mut batch = Batch::begin(self)?;
        let made = steps(&mut batch);
        batch.end()?;
        self.store_record()?;
        Ok((made, self.frames()?))
    }

    pub(crate) fn begin_batch(&mut self) -> Result<(), Error> {
        self.going()?;
        self.forget_dropped();
        answered(unsafe { zomtagi_begin_batch(self.slot.get_mut()) })
    }

    pub(crate) fn end_batch(&mut self) -> Result<(), Error> {
        answered(unsafe { zomtagi_end_batch(self.slot.get_mut()) })
    }

    /// Makes no step from now on.
    pub(crate) fn stop(&mut self) {
        self.is_stopped = true;
    }

    pub(crate) fn ask_write(&mut self, key: &Key, value: &Value, context: Option<&Context>) -> Result<(), Error> {
        let (context, slot) = (self.number_of(context)?, self.slot.get_mut());
        answered(match &value.body {
            Some(body) => of_key!(zomtagi_write, slot, key, body.as_ptr(), body.len(), value.stamp, context),
            None => of_key!(zomtagi_delete, slot, key, value.stamp, context),
        })
    }

    pub(crate) fn ask_write_over(&mut self, key: &Key, value: &Value) -> Result<(), Error> {
        let slot = self.slot.get_mut();
        answered(match &value.body {
            Some(body) => of_key!(zomtagi_write_over, slot, key, body.as_ptr(), body.len(), value.stamp),
            None => of_key!(zomtagi_delete_over, slot, key, value.stamp),
        })
    }

    pub(crate) fn ask_keep(&mut self, key: &Key) -> Result<(), Error> {
        answered(of_key!(zomtagi_keep, self.slot.get_mut(), key))
    }

    /// Takes a frame that came, sealed if keys are set. Returns what came of it, and the frames to send. If what it brought is to
    /// be stored ([`Node::set_keeping`]) and that is refused, the node has taken it all the same, and sends nothing:
    /// [`Node::keep`] of [`Frame::key`] stores it later.
    ///
    /// ```
    /// # use zomtagi::{Node, Refusal, Taken};
    /// # let (mut zero, mut one) = (Node::new(0, 1)?, Node::new(1, 1)?);
    /// let ask = one.exchange(0)?.remove(0);
    /// let (taken, answers) = zero.take(ask.bytes())?;
    /// assert_eq!((taken, answers), (Taken::Taken, vec![])); // both hold nothing: there is no answer
    /// let refused = one.take(ask.bytes()).unwrap_err();
    /// assert_eq!(refused.refusal(), Some(Refusal::NotAddressed)); // it is for node 0
    /// # Ok::<(), zomtagi::Error>(())
    /// ```
    pub fn take(&mut self, bytes: &[u8]) -> Result<(Taken, Vec<Frame>), Error> {
        let mut frames = Vec::new();
        let taken = self.take_by(bytes, &mut frames, |slot, frame, word| unsafe {
            zomtagi_take(slot, frame.as_ptr(), frame.len(), word)
        })?;
        Ok((taken, frames))
    }

    /// Takes a frame by this call of an export.
    pub(crate) fn take_by(
        &mut self,
        bytes: &[u8],
        frames: &mut Vec<Frame>,
        call: impl FnOnce(*mut Slot, &[u8], u64) -> u16,
    ) -> Result<Taken, Error> {
        let frame = match &self.keys {
            Some(keys) => keys.open(bytes)?,
            None => bytes,
        };
        let word = (self.words)();
        let reply = match self.drive(frames, |slot| call(slot, frame, word)) {
            Err(Error::Refused(Refusal::BadBody)) => return Err(bad_body(frame)),
            reply => reply?.unwrap_or_default(),
        };
        let taken = match reply.first() {
            Some(4) => Taken::Fresh,
            Some(5) => Taken::Stale,
            _ => Taken::Taken,
        };
        if let (true, Taken::Fresh, Some(key)) = (self.is_keeping, taken, key_of(frame)) {
            self.keep(&key)?;
        }
        Ok(taken)
    }

    /// Time passes. Returns the frames to send.
    ///
    /// ```
    /// # use zomtagi::Node;
    /// # let (mut zero, mut one) = (Node::new(0, 1)?, Node::new(1, 1)?);
    /// # zero.take(one.join(0)?[0].bytes())?;
    /// assert_eq!(zero.neighbours()?, [1]);
    /// for _ in 0..9 {
    ///     assert_eq!(zero.tick()?, []);
    /// }
    /// let shuffle = zero.tick()?.remove(0); // each tenth tick
    /// assert_eq!(shuffle.to(), 1);
    /// # Ok::<(), zomtagi::Error>(())
    /// ```
    pub fn tick(&mut self) -> Result<Vec<Frame>, Error> {
        let word = (self.words)();
        self.step(|slot| unsafe { zomtagi_tick(slot, word) })?;
        self.frames()
    }

    /// Joins the cluster through a contact. Returns the frames to send.
    ///
    /// ```
    /// # use zomtagi::Node;
    /// let (mut zero, mut one) = (Node::new(0, 1)?, Node::new(1, 1)?);
    /// for frame in one.join(0)? {
    ///     zero.take(frame.bytes())?;
    /// }
    /// assert_eq!((zero.neighbours()?, one.neighbours()?), (vec![1], vec![0]));
    /// # Ok::<(), zomtagi::Error>(())
    /// ```
    pub fn join(&mut self, contact: u16) -> Result<Vec<Frame>, Error> {
        let word = (self.words)();
        self.step(|slot| unsafe { zomtagi_join(slot, contact, word) })?;
        self.frames()
    }

    /// A peer doesn't answer. Returns the frames to send.
    ///
    /// ```
    /// # use zomtagi::Node;
    /// # let (mut zero, mut one) = (Node::new(0, 1)?, Node::new(1, 1)?);
    /// # zero.take(one.join(0)?[0].bytes())?;
    /// assert_eq!(zero.neighbours()?, [1]);
    /// zero.peer_down(1)?;
    /// assert_eq!(zero.neighbours()?, []); // nobody is in reserve
    /// # Ok::<(), zomtagi::Error>(())
    /// ```
    pub fn peer_down(&mut self, peer: u16) -> Result<Vec<Frame>, Error> {
        let word = (self.words)();
        self.step(|slot| unsafe { zomtagi_peer_down(slot, peer, word) })?;
        self.frames()
    }

    /// Begins an exchange with a peer, after which both hold what either held. Returns the frames to send.
    ///
    /// ```
    /// # use zomtagi::{Key, Node, Value};
    /// # let (mut zero, mut one) = (Node::new(0, 1)?, Node::new(1, 1)?);
    /// zero.write_over(&Key::new("app", "flags", "colour"), &Value::text("red"))?;
    /// one.write_over(&Key::new("app", "flags", "size"), &Value::text("large"))?;
    /// let mut frames = zero.exchange(1)?;
    /// while let Some(frame) = frames.pop() {
    ///     let node = if frame.to() == 0 { &mut zero } else { &mut one };
    ///     frames.extend(node.take(frame.bytes())?.1);
    /// }
    /// assert_eq!((zero.key_count(), zero.root()?), (2, one.root()?));
    /// # Ok::<(), zomtagi::Error>(())
    /// ```
    pub fn exchange(&mut self, peer: u16) -> Result<Vec<Frame>, Error> {
        self.step(|slot| unsafe { zomtagi_exchange(slot, peer) })?;
        self.frames()
    }

    /// Tells a peer which life the node is in. Say it before the join: a peer that hears of a new life has the node as a
    /// neighbour no longer. Returns the frames to send.
    ///
    /// ```
    /// # use zomtagi::Node;
    /// # let (mut zero, mut one) = (Node::new(0, 1)?, Node::new(1, 1)?);
    /// # zero.take(one.hello(0)?[0].bytes())?;
    /// # zero.take(one.join(0)?[0].bytes())?;
    /// assert_eq!(zero.neighbours()?, [1]);
    /// let mut one = Node::new(1, 2)?; // it began anew, and knows nobody
    /// zero.take(one.hello(0)?[0].bytes())?;
    /// assert_eq!(zero.neighbours()?, []);
    /// zero.take(one.join(0)?[0].bytes())?;
    /// assert_eq!(zero.neighbours()?, [1]);
    /// # Ok::<(), zomtagi::Error>(())
    /// ```
    pub fn hello(&mut self, peer: u16) -> Result<Vec<Frame>, Error> {
        self.step(|slot| unsafe { zomtagi_hello(slot, peer) })?;
        self.frames()
    }

    /// Leaves the cluster. Returns the frames to send.
    ///
    /// ```
    /// # use zomtagi::Node;
    /// # let (mut zero, mut one) = (Node::new(0, 1)?, Node::new(1, 1)?);
    /// # zero.take(one.join(0)?[0].bytes())?;
    /// assert_eq!(zero.neighbours()?, [1]);
    /// for frame in one.leave()? {
    ///     zero.take(frame.bytes())?;
    /// }
    /// assert_eq!(zero.neighbours()?, []);
    /// # Ok::<(), zomtagi::Error>(())
    /// ```
    pub fn leave(&mut self) -> Result<Vec<Frame>, Error> {
        self.step(|slot| unsafe { zomtagi_leave(slot) })?;
        self.frames()
    }

    /// Watches a full prefix, the last `capacity` changes of it, 1 to 1,024. Returns the number of the watch. A life has 16 watches at
    /// most; none ends before it.
    ///
    /// ```
    /// # use zomtagi::{Key, Node, Refusal, Value};
    /// # let (mut node, colour) = (Node::new(0, 1)?, Key::new("app", "flags", "colour"));
    /// let flags = node.watch(b"app", b"flags", 8)?;
    /// node.write_over(&colour, &Value::text("red"))?;
    /// assert_eq!(node.changes(flags)?.noted[0].key, colour);
    /// assert_eq!(node.watch(b"app", b"flags", 0).unwrap_err().refusal(), Some(Refusal::BadWatch));
    /// # Ok::<(), zomtagi::Error>(())
    /// ```
    pub fn watch(&mut self, prefix: &[u8], sub: &[u8], capacity: usize) -> Result<u64, Error> {
        let reply =
            self.step(|slot| unsafe { zomtagi_watch(slot, prefix.as_ptr(), prefix.len(), sub.as_ptr(), sub.len(), capacity) })?;
        Ok(Fields(&reply[1..]).number())
    }

    /// What a watch has noted since it was asked last.
    ///
    /// ```
    /// # use zomtagi::{Changes, Key, Node, Value};
    /// # let (mut node, colour) = (Node::new(0, 1)?, Key::new("app", "flags", "colour"));
    /// let flags = node.watch(b"app", b"flags", 2)?;
    /// for text in ["red", "green", "blue"] {
    ///     node.write_over(&colour, &Value::text(text))?;
    /// }
    /// let changes = node.changes(flags)?;
    /// assert_eq!((changes.missed, changes.noted.len()), (1, 2)); // the last two
    /// assert_eq!(node.changes(flags)?, Changes { missed: 0, noted: vec![] });
    /// # Ok::<(), zomtagi::Error>(())
    /// ```
    pub fn changes(&mut self, number: u64) -> Result<Changes, Error> {
        let reply = self.step(|slot| unsafe { zomtagi_changes(slot, number) })?;
        let mut fields = Fields(&reply[1..]);
        let missed = fields.number();
        let noted = (0..fields.number()).map(|_| fields.change()).collect();
        Ok(Changes { missed, noted })
    }

    /// The full prefixes that hold a key, in order.
    ///
    /// What a node holds may not be stored yet. This and the calls below that take `&self` are no steps: a node that is stopped
    /// tells it too.
    ///
    /// ```
    /// # use zomtagi::{Key, Node, Value};
    /// # let mut node = Node::new(0, 1)?;
    /// for (sub, name) in [("limits", "users"), ("flags", "colour"), ("flags", "size")] {
    ///     node.write_over(&Key::new("app", sub, name), &Value::text("1"))?;
    /// }
    /// let prefix = |sub: &str| (b"app".to_vec(), sub.as_bytes().to_vec());
    /// assert_eq!(node.prefixes()?, [prefix("flags"), prefix("limits")]);
    /// # Ok::<(), zomtagi::Error>(())
    /// ```
    pub fn prefixes(&self) -> Result<Vec<FullPrefix>, Error> {
        let bytes = self.told(|slot, buffer, size, len| unsafe { zomtagi_prefixes(slot, buffer, size, len) })?;
        let (mut fields, mut prefixes) = (Fields(&bytes), Vec::new());
        while !fields.0.is_empty() {
            prefixes.push((fields.name(), fields.name()));
        }
        Ok(prefixes)
    }

    /// The keys under a full prefix, in order, each with whether all that is shown under it was deleted.
    ///
    /// ```
    /// # use zomtagi::{Key, Node, Value};
    /// # let (mut node, colour) = (Node::new(0, 1)?, Key::new("app", "flags", "colour"));
    /// node.write_over(&colour, &Value::text("red"))?;
    /// node.write_over(&Key::new("app", "flags", "size"), &Value::tombstone())?;
    /// let there = node.list(b"app", b"flags")?.into_iter().filter(|it| !it.is_deleted).map(|it| it.key);
    /// assert_eq!(there.collect::<Vec<_>>(), [colour]);
    /// # Ok::<(), zomtagi::Error>(())
    /// ```
    pub fn list(&self, prefix: &[u8], sub: &[u8]) -> Result<Vec<Listed>, Error> {
        let bytes = self.told(|slot, buffer, size, len| unsafe {
            zomtagi_list(slot, prefix.as_ptr(), prefix.len(), sub.as_ptr(), sub.len(), buffer, size, len)
        })?;
        let (mut fields, mut keys) = (Fields(&bytes), Vec::new());
        while !fields.0.is_empty() {
            let is_deleted = fields.take(1)[0] == 1;
            keys.push(Listed { key: fields.key(), is_deleted });
        }
        Ok(keys)
    }

    /// What the node shows under a key, without a context for a later write.
    ///
    /// ```
    /// # use zomtagi::{Key, Node, Value};
    /// # let (mut node, colour) = (Node::new(0, 1)?, Key::new("app", "flags", "colour"));
    /// node.write_over(&colour, &Value::text("red"))?;
    /// let shared = &node; // (a read would want it for itself)
    /// assert_eq!(shared.peek(&colour)?, [Value::text("red")]);
    /// # Ok::<(), zomtagi::Error>(())
    /// ```
    pub fn peek(&self, key: &Key) -> Result<Vec<Value>, Error> {
        let bytes = self.told(|slot, buffer, size, len| of_key!(zomtagi_peek, slot, key, buffer, size, len))?;
        Ok(Fields(&bytes).values())
    }

    /// Its neighbours, at most 4, the one of longest standing first. A node without neighbours hears of no write: join. Nor does one
    /// whose neighbours were told that it is down: it isn't told of that, so join again now and then.
    ///
    /// ```
    /// # use zomtagi::Node;
    /// let mut node = Node::new(0, 1)?;
    /// for peer in [3, 1, 2] {
    ///     let join = Node::new(peer, 1)?.join(0)?.remove(0);
    ///     node.take(join.bytes())?;
    /// }
    /// assert_eq!(node.neighbours()?, [3, 1, 2]);
    /// # Ok::<(), zomtagi::Error>(())
    /// ```
    pub fn neighbours(&self) -> Result<Vec<u16>, Error> {
        let bytes = self.told(|slot, buffer, size, len| unsafe { zomtagi_neighbours(slot, buffer, size, len) })?;
        Ok(bytes.chunks_exact(2).map(|it| u16::from_be_bytes([it[0], it[1]])).collect())
    }

    /// The root of the tree over all that the node holds: nodes with equal roots hold the same.
    ///
    /// ```
    /// # use zomtagi::{Key, Node, Value};
    /// # let (mut zero, one) = (Node::new(0, 1)?, Node::new(1, 1)?);
    /// assert_eq!(zero.root()?, one.root()?); // both hold nothing
    /// zero.write_over(&Key::new("app", "flags", "colour"), &Value::text("red"))?;
    /// assert_ne!(zero.root()?, one.root()?);
    /// # Ok::<(), zomtagi::Error>(())
    /// ```
    pub fn root(&self) -> Result<[u8; 32], Error> {
        let bytes = self.told(|slot, buffer, size, len| unsafe { zomtagi_root(slot, buffer, size, len) })?;
        Ok(bytes.try_into().expect("a root has 32 bytes"))
    }

    /// Its number.
    ///
    /// ```
    /// # use zomtagi::Node;
    /// let node = Node::new(3, 1)?;
    /// assert_eq!(node.number(), 3);
    /// assert_eq!(format!("{node:?}"), "Node { number: 3, life: 1, .. }");
    /// # Ok::<(), zomtagi::Error>(())
    /// ```
    pub fn number(&self) -> u16 {
        self.info().number
    }

    /// The life that it is in.
    ///
    /// ```
    /// # use zomtagi::FileStore;
    /// # let folder = std::env::temp_dir().join(format!("zomtagi-doc-life-{}", std::process::id()));
    /// # std::fs::create_dir(&folder)?;
    /// # let path = folder.join("node-3");
    /// assert_eq!(FileStore::create(&path, 3)?.life(), 1);
    /// assert_eq!(FileStore::open(&path, 3)?.life(), 2);
    /// assert_eq!(FileStore::open(&path, 3)?.life(), 3);
    /// # std::fs::remove_dir_all(folder)?;
    /// # Ok::<(), zomtagi::Error>(())
    /// ```
    pub fn life(&self) -> u32 {
        self.info().life
    }

    /// Whether it is to be dropped, and served from its file again.
    ///
    /// ```
    /// # use std::{io, mem::take};
    /// # use zomtagi::{Error, Key, Node, Refusal, Store, Value};
    /// # struct Failing(bool);
    /// # impl Store for Failing {
    /// #     fn append(&mut self, _gate: u64, _record: &[u8]) -> Result<(), Error> {
    /// #         if take(&mut self.0) { Ok(()) } else { Err(io::Error::other("the disk is full").into()) }
    /// #     }
    /// # }
    /// # let (empty, store, colour) = (b"PMNODE02\0\x03\0", Failing(true), Key::new("app", "flags", "colour"));
    /// let mut node = Node::serve(3, empty, store)?; // of a store that fails from its second record on
    /// assert!(!node.is_stopped());
    /// assert!(node.write_over(&colour, &Value::text("red")).unwrap_err().ends_node());
    /// assert!(node.is_stopped());
    /// assert_eq!(node.tick().unwrap_err().refusal(), Some(Refusal::Stopped));
    /// # Ok::<(), zomtagi::Error>(())
    /// ```
    pub fn is_stopped(&self) -> bool {
        self.is_stopped || self.info().is_stopped != 0
    }

    /// How many keys it holds, deleted ones too, of at most 8,192.
    ///
    /// ```
    /// # use zomtagi::{Key, Node, Value};
    /// # let (mut node, colour) = (Node::new(0, 1)?, Key::new("app", "flags", "colour"));
    /// node.write_over(&colour, &Value::text("red"))?;
    /// node.write_over(&colour, &Value::tombstone())?;
    /// assert_eq!(node.key_count(), 1);
    /// # Ok::<(), zomtagi::Error>(())
    /// ```
    pub fn key_count(&self) -> usize {
        self.info().keys
    }

    /// How many bytes its file has; `None` if it has none.
    ///
    /// ```
    /// # use zomtagi::{FileStore, Node};
    /// # let folder = std::env::temp_dir().join(format!("zomtagi-doc-file-len-{}", std::process::id()));
    /// # std::fs::create_dir(&folder)?;
    /// # let path = folder.join("node-3");
    /// let node = FileStore::create(&path, 3)?;
    /// assert_eq!(node.file_len(), Some(std::fs::metadata(&path)?.len()));
    /// assert_eq!(Node::new(3, 1)?.file_len(), None);
    /// # std::fs::remove_dir_all(folder)?;
    /// # Ok::<(), zomtagi::Error>(())
    /// ```
    pub fn file_len(&self) -> Option<u64> {
        Some(self.info().gate as u64 + 1).filter(|_| self.store.is_some())
    }

    fn info(&self) -> NodeInfo {
        let mut info = NodeInfo::default();
        unsafe { zomtagi_about(self.slot.get(), &mut info) };
        info
    }

    /// The number of a context of this node, 0 for none.
    fn number_of(&self, context: Option<&Context>) -> Result<u64, Error> {
        match context {
            None => Ok(0),
            Some(context) if Arc::ptr_eq(&context.dropped, &self.dropped) => Ok(context.number),
            Some(_) => Err(Error::OtherContext),
        }
    }

    /// Asks an export for a step, has stored what it stores, and returns the bytes of its reply.
    fn step(&mut self, ask: impl FnOnce(*mut Slot) -> u16) -> Result<Vec<u8>, Error> {
        self.stepped(|node| answered(ask(node.slot.get_mut())))
    }

    /// Asks for a step, has stored what it stores, and returns the bytes of its reply.
    fn stepped(&mut self, ask: impl FnOnce(&mut Node) -> Result<(), Error>) -> Result<Vec<u8>, Error> {
        self.going()?;
        self.forget_dropped();
        ask(self)?;
        self.store_record()?;
        let reply = self.fetch(|slot, buffer, size, len| unsafe { zomtagi_reply(slot, buffer, size, len) });
        // (the caller never gets the frames of such a step, and while they are pending the library makes no other)
        self.is_stopped = !matches!(reply, Ok(Some(_)));
        reply?.ok_or(Error::Refused(Refusal::Nothing))
    }

    /// Makes a call of an export that may be a batch, and fetches what it gave, also if it was refused: the reply of the last step,
    /// if there was one, and the frames.
    pub(crate) fn drive(
        &mut self,
        frames: &mut Vec<Frame>,
        call: impl FnOnce(*mut Slot) -> u16,
    ) -> Result<Option<Vec<u8>>, Error> {
        self.going()?;
        self.forget_dropped();
        let called = answered(call(self.slot.get_mut()));
        if called.as_ref().is_err_and(Error::ends_node) {
            return called.map(|()| None);
        }
        self.store_record()?;
        let reply = self.fetch(|slot, buffer, size, len| unsafe { zomtagi_reply(slot, buffer, size, len) });
        // (the caller never gets the frames of such a step, and while they are pending the library makes no other)
        self.is_stopped = reply.is_err();
        let reply = reply?;
        frames.extend(self.frames()?);
        called.map(|()| reply)
    }

    /// A random word.
    pub(crate) fn word(&mut self) -> u64 {
        (self.words)()
    }

    pub(crate) fn slot(&mut self) -> *mut Slot {
        self.slot.get_mut()
    }

    /// The slot, for an export that only tells.
    pub(crate) fn shared_slot(&self) -> *mut Slot {
        self.slot.get()
    }

    /// Refused if it is stopped.
    fn going(&self) -> Result<(), Error> {
        match self.is_stopped {
            true => Err(Refusal::Stopped.into()),
            false => Ok(()),
        }
    }

    fn forget_dropped(&mut self) {
        let dropped = self.dropped.lock().map(|mut dropped| take(&mut *dropped)).unwrap_or_default();
        for number in dropped {
            unsafe { zomtagi_forget_context(self.slot.get_mut(), number) };
        }
    }

    /// Has the record stored that there is to store, if there is one.
    fn store_record(&mut self) -> Result<(), Error> {
        let mut gate = 0;
        let record = self.fetch(|slot, buffer, size, len| unsafe { zomtagi_record(slot, &mut gate, buffer, size, len) })?;
        let (Some(record), Some(store)) = (record, &mut self.store) else {
            return Ok(());
        };
        let pending = Pending(self.slot.get_mut());
        store.append(gate as u64, &record)?;
        forget(pending);
        answered(unsafe { zomtagi_stored(self.slot.get_mut(), 1) })
    }

    /// The frames that the last step sends.
    fn frames(&mut self) -> Result<Vec<Frame>, Error> {
        let mut frames = Vec::new();
        while let Some(frame) = self.fetch(|slot, buffer, size, len| unsafe { zomtagi_frame(slot, buffer, size, len) })? {
            frames.push(Frame(match &self.keys {
                Some(keys) => keys.seal(&frame)?,
                None => frame,
            }));
            answered(unsafe { zomtagi_sent(self.slot.get_mut()) })?;
        }
        Ok(frames)
    }

    /// The bytes that an export hands out, which always has some.
    fn told(&self, ask: impl FnMut(*mut Slot, *mut u8, usize, &mut usize) -> u16) -> Result<Vec<u8>, Error> {
        self.fetch(ask).map(Option::unwrap_or_default)
    }

    /// The bytes that an export hands out, if there are any.
    fn fetch(&self, mut ask: impl FnMut(*mut Slot, *mut u8, usize, &mut usize) -> u16) -> Result<Option<Vec<u8>>, Error> {
        let mut buffer = self.buffer.borrow_mut();
        loop {
            let mut len = 0;
            match answered(ask(self.slot.get(), buffer.as_mut_ptr(), buffer.len(), &mut len)) {
                Ok(()) => return Ok(Some(buffer[..len].to_vec())),
                Err(Error::Refused(Refusal::ShortBuffer)) => buffer.resize(len, 0),
                Err(Error::Refused(Refusal::Nothing)) => return Ok(None),
                Err(error) => return Err(error),
            }
        }
    }
}

impl fmt::Debug for Node {
    fn fmt(&self, out: &mut fmt::Formatter<'_>) -> fmt::Result {
        let NodeInfo { number, life, .. } = self.info();
        out.debug_struct("Node").field("number", &number).field("life", &life).finish_non_exhaustive()
    }
}

/// A record that isn't stored. Once this is dropped the node knows that it won't be, also if the store panics, and is stopped.
struct Pending<'a>(&'a mut Slot);

impl Drop for Pending<'_> {
    fn drop(&mut self) {
        unsafe { zomtagi_stored(self.0, 0) };
    }
}

impl Drop for Node {
    fn drop(&mut self) {
        unsafe { zomtagi_free(self.slot.get_mut()) };
    }
}

/// What is left of the bytes of a reply.
struct Fields<'a>(&'a [u8]);

impl Fields<'_> {
    fn take(&mut self, len: usize) -> &[u8] {
        let (front, rest) = self.0.split_at(len);
        self.0 = rest;
        front
    }

    fn number(&mut self) -> u64 {
        u64::from_be_bytes(self.take(8).try_into().expect("it has eight bytes"))
    }

    fn value(&mut self) -> Value {
        let stamp = self.number();
        let body = match self.take(1)[0] {
            0 => None,
            _ => {
                let len = self.number() as usize;
                Some(self.take(len).to_vec())
            }
        };
        Value { stamp, body }
    }

    /// How many values there are, and each.
    fn values(&mut self) -> Vec<Value> {
        (0..self.number()).map(|_| self.value()).collect()
    }

    /// A part of a key as a frame has it: with its length in two bytes.
    fn name(&mut self) -> Vec<u8> {
        let len = u16::from_be_bytes(self.take(2).try_into().expect("it has two bytes"));
        self.take(len as usize).to_vec()
    }

    fn key(&mut self) -> Key {
        Key { prefix: self.name(), sub: self.name(), name: self.name() }
    }

    fn change(&mut self) -> Change {
        let key = self.key();
        Change { key, vector: (0..self.number()).map(|_| self.counter()).collect() }
    }

    fn counter(&mut self) -> Counter {
        let node = u16::from_be_bytes(self.take(2).try_into().expect("it has two bytes"));
        let life = u32::from_be_bytes(self.take(4).try_into().expect("it has four bytes"));
        Counter { node, life, count: self.number() }
    }
}
