//! What the bindings add, beside their example: errors, contexts, stores that fail, files.

use std::io;
use std::panic::{catch_unwind, AssertUnwindSafe};
use std::sync::{Arc, Mutex};
use zomtagi::{Change, Changes, Counter, Error, FileStore, Frame, Key, Listed, Node, Refusal, Store, Taken, Value};

fn colour() -> Key {
    Key::new("app", "flags", "colour")
}

fn listed(key: Key) -> Listed {
    Listed { key, is_deleted: false }
}

#[test]
fn siblings_stand_until_a_write_has_read_them() {
    let mut node = Node::new(0, 1).unwrap();
    node.write(&colour(), &Value::text("red"), None).unwrap();
    node.write(&colour(), &Value::text("blue"), None).unwrap();
    let read = node.read(&colour()).unwrap();
    assert_eq!(read.values.len(), 2);
    node.write(&colour(), &Value::tombstone(), Some(&read.context)).unwrap();
    assert_eq!(node.read(&colour()).unwrap().values, [Value::tombstone()]);
}

#[test]
fn a_context_of_another_node_is_refused() {
    let (mut one, mut other) = (Node::new(0, 1).unwrap(), Node::new(1, 1).unwrap());
    let read = other.read(&colour()).unwrap();
    assert_eq!(
        one.write(&colour(), &Value::text("red"), Some(&read.context)).unwrap_err().to_string(),
        "the context is of another node"
    );
}

#[test]
fn refusals_have_numbers_and_names() {
    let mut node = Node::new(0, 1).unwrap();
    let refused = |result: Result<Vec<Frame>, Error>| result.unwrap_err().refusal();
    assert_eq!(refused(node.join(0)), Some(Refusal::BadNode));
    assert_eq!(refused(node.join(16)), Some(Refusal::BadNode));
    assert_eq!(refused(node.write_over(&Key::new("", "b", "c"), &Value::text(""))), Some(Refusal::BadName));
    assert_eq!(refused(node.write_over(&colour(), &Value::text([0; 1025]))), Some(Refusal::ValueTooLong));
    assert_eq!(node.take(b"no frame").unwrap_err().refusal(), Some(Refusal::Short));
    assert_eq!(node.changes(1).unwrap_err().refusal(), Some(Refusal::NoSuchWatch));
    assert_eq!(Node::new(16, 1).err().unwrap().refusal(), Some(Refusal::BadNode));
}

#[test]
fn a_frame_at_fault_is_told_with_the_offset_of_its_field() {
    let hello = Node::new(0, 5).unwrap().hello(1).unwrap().remove(0).bytes().to_vec();
    let mut node = Node::new(1, 1).unwrap();
    let mut refused = |place: usize, bytes: &[u8]| {
        let mut changed = hello.clone();
        changed.truncate(place);
        changed.extend(bytes);
        changed.extend(hello.iter().skip(changed.len()));
        node.take(&changed).unwrap_err()
    };
    // The sender is none; the addressee is the sender; a life 0; a byte behind the life, which the header counts.
    let told = [(4, &[0, 16][..]), (6, &[0, 0]), (20, &[0, 0, 0, 0]), (16, &[0, 0, 0, 5, 0, 0, 0, 5, 0])];
    for ((place, bytes), wanted) in told.into_iter().zip([4, 6, 20, 24]) {
        let error = refused(place, bytes);
        assert_eq!((error.refusal(), error.ends_node(), error.ends_stream()), (Some(Refusal::BadBody), false, true));
        assert!(error.to_string().ends_with(&format!(", at {wanted}")), "{error}");
        assert!(matches!(error, Error::BadBody { at } if at == wanted));
    }
    // Other refusals have none: another version, one byte more than the header counts.
    assert_eq!(refused(2, &[3]).refusal(), Some(Refusal::BadVersion));
    assert_eq!(refused(24, &[0]).refusal(), Some(Refusal::LeftOver));
    assert_eq!(node.take(&hello).unwrap().0, Taken::Taken);
}

#[test]
fn a_watch_hears_of_changes_and_a_list_has_the_keys() {
    let mut node = Node::new(0, 1).unwrap();
    let watch = node.watch(b"app", b"flags", 8).unwrap();
    node.write_over(&colour(), &Value::text("red")).unwrap();
    let vector = vec![Counter { node: 0, life: 1, count: 1 }];
    assert_eq!(node.changes(watch).unwrap(), Changes { missed: 0, noted: vec![Change { key: colour(), vector }] });
    assert_eq!(node.list(b"app", b"flags").unwrap(), [listed(colour())]);
    assert_eq!(node.list(b"app", b"none").unwrap(), []);
}

#[test]
fn an_exchange_makes_roots_equal() {
    let (mut one, mut other) = (Node::new(0, 1).unwrap(), Node::new(1, 1).unwrap());
    for number in 0..100 {
        one.write_over(&Key::new("app", "many", format!("key {number}")), &Value::text("x")).unwrap();
    }
    assert_ne!(one.root().unwrap(), other.root().unwrap());
    let mut frames = one.exchange(1).unwrap();
    while let Some(frame) = frames.pop() {
        let receiver = if frame.to() == 0 { &mut one } else { &mut other };
        frames.extend(receiver.take(frame.bytes()).unwrap().1);
    }
    assert_eq!(one.root().unwrap(), other.root().unwrap());
}

#[test]
fn what_was_stored_is_there_in_the_next_life() {
    let path = std::env::temp_dir().join(format!("zomtagi-{}", std::process::id()));
    let mut node = FileStore::open_or_create(&path, 3).unwrap();
    assert_eq!(node.life(), 1);
    node.write_over(&colour(), &Value::text("red")).unwrap();
    assert!(matches!(FileStore::open_or_create(&path, 3), Err(Error::InUse)));
    drop(node);
    let mut node = FileStore::open_or_create(&path, 3).unwrap();
    assert_eq!((node.life(), node.read(&colour()).unwrap().values), (2, vec![Value::text("red")]));
    drop(node);
    assert_eq!(FileStore::open_or_create(&path, 4).err().unwrap().refusal(), Some(Refusal::OtherNode));
    std::fs::write(&path, "").unwrap(); // (what was in it is lost, so it is no new file)
    assert!(matches!(FileStore::open_or_create(&path, 3), Err(Error::Damaged { at: 0 })));
    std::fs::remove_file(&path).unwrap();
}

/// The file of node 3, which had no life yet.
const EMPTY: &[u8] = b"PMNODE02\0\x03\0";

/// What is done with each record.
type Call = Arc<Mutex<fn() -> Result<(), Error>>>;

/// A store that keeps nothing, and calls this for each record.
struct Calling(Call);

impl Store for Calling {
    fn append(&mut self, _gate: u64, _record: &[u8]) -> Result<(), Error> {
        let call = *self.0.lock().unwrap();
        call()
    }
}

/// Node 3 in its first life, and what its store calls.
fn served() -> (Node, Call) {
    let call: Call = Arc::new(Mutex::new(|| Ok(())));
    (Node::serve(3, EMPTY, Calling(Arc::clone(&call))).unwrap(), call)
}

#[test]
fn a_store_that_fails_stops_the_node() {
    let (mut node, call) = served();
    *call.lock().unwrap() = || Err(io::Error::other("full").into());
    let failed = node.write_over(&colour(), &Value::text("red")).unwrap_err();
    assert_eq!((matches!(failed, Error::Io(_)), failed.ends_node()), (true, true));
    let stopped = node.tick().unwrap_err();
    assert_eq!((stopped.refusal(), stopped.ends_node()), (Some(Refusal::Stopped), true));
}

#[test]
fn a_value_that_is_refused_does_not_end_the_node() {
    let (mut node, _) = served();
    let refused = node.write_over(&colour(), &Value::text([0; 1025])).unwrap_err();
    assert_eq!((refused.refusal(), refused.ends_node()), (Some(Refusal::ValueTooLong), false));
    node.write_over(&colour(), &Value::text("red")).unwrap();
}

#[test]
fn a_store_that_panics_stops_the_node() {
    let (mut node, call) = served();
    *call.lock().unwrap() = || panic!("this is wanted");
    catch_unwind(AssertUnwindSafe(|| node.write_over(&colour(), &Value::text("red")))).unwrap_err();
    *call.lock().unwrap() = || Ok(());
    assert_eq!(node.tick().unwrap_err().refusal(), Some(Refusal::Stopped));
    assert_eq!(node.write_over(&colour(), &Value::text("red")).unwrap_err().refusal(), Some(Refusal::Stopped));
}

#[test]
fn a_stale_object_is_known() {
    let (mut one, mut other) = (Node::new(0, 1).unwrap(), Node::new(1, 1).unwrap());
    for frame in one.join(1).unwrap() {
        other.take(frame.bytes()).unwrap();
    }
    let gossip = other.write_over(&colour(), &Value::text("red")).unwrap().remove(0);
    assert_eq!(one.take(gossip.bytes()).unwrap().0, Taken::Fresh);
    assert_eq!(one.take(gossip.bytes()).unwrap().0, Taken::Stale);
}

/// The kinds of frames, by `docs/FORMATS.md`.
const GOSSIP: u8 = 1;
const SHUFFLE: u8 = 10;
const HELLO: u8 = 19;
const BYE: u8 = 20;

/// The kind and the addressee of each frame.
fn kinds(frames: &[Frame]) -> Vec<(u8, u16)> {
    frames.iter().map(|frame| (frame.bytes()[3], frame.to())).collect()
}

/// Carries frames, and those that answer them, among nodes by their numbers.
fn carry(nodes: &mut [Node], mut frames: Vec<Frame>) {
    while let Some(frame) = frames.pop() {
        frames.extend(nodes[frame.to() as usize].take(frame.bytes()).unwrap().1);
    }
}

/// Nodes 0 and 1, neighbours of one another.
fn neighbours() -> [Node; 2] {
    let mut nodes = [Node::new(0, 1).unwrap(), Node::new(1, 1).unwrap()];
    let frames = nodes[1].join(0).unwrap();
    carry(&mut nodes, frames);
    nodes
}

#[test]
fn a_hello_tells_the_life() {
    let frames = Node::new(0, 5).unwrap().hello(1).unwrap();
    assert_eq!(kinds(&frames), [(HELLO, 1)]);
    assert_eq!(frames[0].bytes()[20..], [0, 0, 0, 5]);
}

#[test]
fn the_tenth_tick_shuffles() {
    let [mut node, _other] = neighbours();
    for _ in 0..9 {
        assert_eq!(kinds(&node.tick().unwrap()), []);
    }
    assert_eq!(kinds(&node.tick().unwrap()), [(SHUFFLE, 1)]);
}

#[test]
fn a_peer_that_is_down_is_sent_no_write() {
    let [mut node, _other] = neighbours();
    assert_eq!(kinds(&node.write_over(&colour(), &Value::text("red")).unwrap()), [(GOSSIP, 1)]);
    assert_eq!(kinds(&node.peer_down(1).unwrap()), []);
    assert_eq!(kinds(&node.write_over(&colour(), &Value::text("blue")).unwrap()), []);
}

#[test]
fn who_leaves_says_so_and_is_sent_no_write() {
    let mut nodes = neighbours();
    let frames = nodes[0].leave().unwrap();
    assert_eq!(kinds(&frames), [(BYE, 1)]);
    carry(&mut nodes, frames);
    assert_eq!(kinds(&nodes[1].write_over(&colour(), &Value::text("red")).unwrap()), []);
}

#[test]
fn a_delete_over_all_replaces_all_siblings() {
    let mut node = Node::new(0, 1).unwrap();
    node.write(&colour(), &Value::text("red"), None).unwrap();
    node.write(&colour(), &Value::text("blue"), None).unwrap();
    let tombstone = Value { stamp: 9, body: None };
    node.write_over(&colour(), &tombstone).unwrap();
    assert_eq!(node.read(&colour()).unwrap().values, [tombstone]);
}

#[test]
fn a_watch_counts_what_it_missed() {
    let mut node = Node::new(0, 1).unwrap();
    let watch = node.watch(b"app", b"flags", 2).unwrap();
    let keys: Vec<Key> = (0..5).map(|number| Key::new("app", "flags", format!("key {number}"))).collect();
    for key in &keys {
        node.write_over(key, &Value::text("x")).unwrap();
    }
    let changes = node.changes(watch).unwrap();
    assert_eq!((changes.missed, changes.keys().cloned().collect::<Vec<_>>()), (3, keys[3..].to_vec()));
    assert_eq!(node.changes(watch).unwrap(), Changes { missed: 0, noted: vec![] });
}

#[test]
fn what_came_is_there_in_the_next_life_once_it_was_kept() {
    let path = std::env::temp_dir().join(format!("zomtagi-kept-{}", std::process::id()));
    let (mut writer, mut node) = (Node::new(0, 1).unwrap(), FileStore::open_or_create(&path, 3).unwrap());
    let (kept, other) = (Key::new("app", "flags", "kept"), Key::new("app", "flags", "not kept"));
    for key in [&kept, &other] {
        writer.write_over(key, &Value::text("red")).unwrap();
    }
    let mut frames = node.exchange(0).unwrap();
    while let Some(frame) = frames.pop() {
        let receiver = if frame.to() == 0 { &mut writer } else { &mut node };
        frames.extend(receiver.take(frame.bytes()).unwrap().1);
    }
    assert_eq!(node.list(b"app", b"flags").unwrap(), [listed(kept.clone()), listed(other)]);
    node.keep(&kept).unwrap();
    drop(node);
    let mut node = FileStore::open_or_create(&path, 3).unwrap();
    assert_eq!(node.list(b"app", b"flags").unwrap(), [listed(kept.clone())]);
    assert_eq!(node.read(&kept).unwrap().values, [Value::text("red")]);
    drop(node);
    std::fs::remove_file(&path).unwrap();
}

#[test]
fn what_comes_is_there_in_the_next_life_if_it_is_kept() {
    for is_keeping in [true, false] {
        let path = std::env::temp_dir().join(format!("zomtagi-keeping-{is_keeping}-{}", std::process::id()));
        let mut nodes = [Node::new(0, 1).unwrap(), FileStore::create(&path, 1).unwrap()];
        nodes[1].set_keeping(is_keeping);
        let frames = nodes[1].join(0).unwrap();
        carry(&mut nodes, frames);
        for body in ["red", "blue"] {
            let frames = nodes[0].write_over(&colour(), &Value::text(body)).unwrap();
            assert_eq!(frames[0].key(), Some(colour()));
            carry(&mut nodes, frames);
        }
        let missed = Key::new("app", "flags", "missed");
        nodes[0].write_over(&missed, &Value::tombstone()).unwrap(); // (its frame is lost)
        let frames = nodes[1].exchange(0).unwrap();
        carry(&mut nodes, frames);
        assert_eq!(nodes[1].key_count(), 2);
        drop(nodes);
        let node = FileStore::open(&path, 1).unwrap();
        let kept = (node.peek(&colour()).unwrap(), node.peek(&missed).unwrap());
        let wanted = if is_keeping { (vec![Value::text("blue")], vec![Value::tombstone()]) } else { (vec![], vec![]) };
        assert_eq!(kept, wanted);
        std::fs::remove_file(&path).unwrap();
    }
}

#[test]
fn a_list_marks_what_was_deleted() {
    let mut node = Node::new(0, 1).unwrap();
    let [red, gone, both] = ["1 red", "2 gone", "3 both"].map(|name| Key::new("app", "flags", name));
    node.write_over(&red, &Value::text("red")).unwrap();
    node.write_over(&gone, &Value::text("red")).unwrap();
    node.write_over(&gone, &Value::tombstone()).unwrap();
    node.write(&both, &Value::tombstone(), None).unwrap();
    node.write(&both, &Value::text("red"), None).unwrap(); // (a sibling of the deletion)
    let marks = [(red, false), (gone, true), (both, false)].map(|(key, is_deleted)| Listed { key, is_deleted });
    assert_eq!(node.list(b"app", b"flags").unwrap(), marks);
    node.write_over(&Key::new("b", "c", "d"), &Value::tombstone()).unwrap();
    let prefixes = [("app", "flags"), ("b", "c")].map(|(prefix, sub)| (prefix.into(), sub.into()));
    assert_eq!(node.prefixes().unwrap(), prefixes);
    assert_eq!(node.key_count(), 4);
    assert_eq!(node.list(b"", b"flags").unwrap_err().refusal(), Some(Refusal::BadName));
}

#[test]
fn a_peek_shows_what_a_read_shows() {
    let mut node = Node::new(0, 1).unwrap();
    assert_eq!(node.peek(&colour()).unwrap(), []);
    node.write(&colour(), &Value::text("red"), None).unwrap();
    node.write(&colour(), &Value { stamp: 7, body: None }, None).unwrap();
    assert_eq!(node.peek(&colour()).unwrap(), [Value { stamp: 7, body: None }, Value::text("red")]);
    assert_eq!(node.peek(&colour()).unwrap(), node.read(&colour()).unwrap().values);
    assert_eq!(node.peek(&Key::new("", "", "")).unwrap_err().refusal(), Some(Refusal::BadName));
}

#[test]
fn a_stopped_node_still_tells() {
    let (mut node, call) = served();
    node.write_over(&colour(), &Value::text("red")).unwrap();
    *call.lock().unwrap() = || Err(io::Error::other("full").into());
    assert!(!node.is_stopped());
    node.write_over(&colour(), &Value::text("blue")).unwrap_err();
    assert!(node.is_stopped());
    assert_eq!(node.peek(&colour()).unwrap(), [Value::text("blue")]);
    assert_eq!((node.number(), node.life(), node.key_count()), (3, 1, 1));
    assert_eq!(format!("{node:?}"), "Node { number: 3, life: 1, .. }");
}

#[test]
fn a_file_ends_with_its_gate() {
    let path = std::env::temp_dir().join(format!("zomtagi-len-{}", std::process::id()));
    let mut node = FileStore::create(&path, 3).unwrap();
    for body in ["", "red", "blue"] {
        node.write(&colour(), &Value::text(body), None).unwrap();
        assert_eq!(node.file_len(), Some(std::fs::metadata(&path).unwrap().len()));
    }
    assert_eq!(Node::new(0, 1).unwrap().file_len(), None);
    std::fs::remove_file(&path).unwrap();
}

#[test]
fn neighbours_are_those_of_the_active_view() {
    let [mut node, other] = neighbours();
    assert_eq!((node.neighbours().unwrap(), other.neighbours().unwrap()), (vec![1], vec![0]));
    node.peer_down(1).unwrap();
    assert_eq!(node.neighbours().unwrap(), []);
}

#[test]
fn siblings_are_resolved_alike_at_each_node() {
    let stamped = |stamp, body: &str| Value { stamp, body: Some(body.into()) };
    let (mut one, mut other) = (Node::new(0, 1).unwrap(), Node::new(1, 1).unwrap());
    for value in [stamped(1, "b"), stamped(2, "a"), Value { stamp: 3, body: None }] {
        one.write(&colour(), &value, None).unwrap();
        other.write(&colour(), &value, None).unwrap();
    }
    let nodes = &mut [one, other];
    let frames = nodes[0].exchange(1).unwrap();
    carry(nodes, frames);
    for node in nodes.iter_mut() {
        assert_eq!(node.peek(&colour()).unwrap().len(), 6);
        let read = node.read(&colour()).unwrap();
        assert_eq!(
            (read.lww().cloned(), read.greatest().cloned()),
            (Some(Value { stamp: 3, body: None }), Some(stamped(1, "b")))
        );
        assert_eq!(node.resolve(&colour(), |_| None).unwrap(), []);
        node.resolve(&colour(), |read| read.greatest().cloned()).unwrap();
        assert_eq!(node.peek(&colour()).unwrap(), [stamped(1, "b")]);
        assert_eq!(node.resolve(&colour(), |_| panic!("there is one value")).unwrap_or_default(), []);
    }
    // Both wrote, so there are two values, and nothing to choose.
    let frames = nodes[0].exchange(1).unwrap();
    carry(nodes, frames);
    for node in nodes.iter_mut() {
        assert_eq!(node.peek(&colour()).unwrap(), [stamped(1, "b"), stamped(1, "b")]);
        assert_eq!(node.resolve(&colour(), |_| panic!("they are equal")).unwrap(), []);
    }
}

#[test]
fn a_node_may_move_to_another_thread() {
    let mut node = FileStore::create(std::env::temp_dir().join(format!("zomtagi-moves-{}", std::process::id())), 3).unwrap();
    node.write_over(&colour(), &Value::text("red")).unwrap();
    let moved = std::thread::spawn(move || {
        node.write_over(&colour(), &Value::text("blue")).unwrap();
        node
    });
    let mut node = moved.join().unwrap();
    assert_eq!(node.read(&colour()).unwrap().values, [Value::text("blue")]);
    std::fs::remove_file(std::env::temp_dir().join(format!("zomtagi-moves-{}", std::process::id()))).unwrap();
}

#[test]
fn equal_words_bring_forth_equal_frames() {
    let run = |seed: u64| {
        let mut nodes: Vec<Node> = (0..6).map(|number| Node::new(number, 1).unwrap()).collect();
        let mut sent = Vec::new();
        for (number, node) in nodes.iter_mut().enumerate() {
            let mut word = seed + number as u64;
            node.set_words(move || {
                word = word.wrapping_mul(6364136223846793005).wrapping_add(1442695040888963407);
                word
            });
        }
        for number in 1..6 {
            let mut frames = nodes[number].join(0).unwrap();
            while let Some(frame) = frames.pop() {
                frames.extend(nodes[frame.to() as usize].take(frame.bytes()).unwrap().1);
                sent.push(frame);
            }
        }
        for _ in 0..20 {
            sent.extend(nodes[3].tick().unwrap());
        }
        sent
    };
    assert_eq!(run(1), run(1));
    assert_ne!(run(1), run(2));
}

#[test]
fn frames_are_read_from_a_stream_as_they_were_sent() {
    let mut node = Node::new(0, 1).unwrap();
    node.set_keys(Some(zomtagi::SealKeys::new([7; 32])));
    let sent: Vec<Frame> = (1..5).flat_map(|peer| node.hello(peer).unwrap()).collect();
    let bytes = sent.iter().flat_map(Frame::bytes).copied().collect::<Vec<u8>>();
    for end in 0..=bytes.len() {
        let (mut stream, mut read) = (&bytes[..end], Vec::new());
        let last = loop {
            match Frame::read(&mut stream, true) {
                Ok(Some(frame)) => read.push(frame),
                last => break last,
            }
        };
        assert_eq!(read, sent[..end / sent[0].bytes().len()]);
        assert_eq!(last.is_ok(), end % sent[0].bytes().len() == 0, "{end}");
    }
    let mut long = [0; 40];
    long[16] = 1;
    assert_eq!(Frame::read(&mut &long[..], false).unwrap_err().kind(), io::ErrorKind::InvalidData);
}

#[test]
fn a_batch_that_panics_stops_the_node() {
    let mut node = Node::new(0, 1).unwrap();
    let broken = catch_unwind(AssertUnwindSafe(|| {
        node.batch(|batch| {
            batch.write_over(&colour(), &Value::text("red")).unwrap();
            assert!(batch.peek(&colour()).unwrap().is_empty(), "this is wanted");
        })
        .map(drop)
    }));
    assert!(broken.is_err() && node.is_stopped());
    assert_eq!(node.tick().unwrap_err().refusal(), Some(Refusal::Stopped));
}
