//! Sealed frames: what opens, and what doesn't; keys that are replaced, and keys in files.

mod common;

use common::{held, key, write, Folder};
use std::fs::{self, Permissions};
use std::io::ErrorKind;
use std::os::unix::fs::{MetadataExt, PermissionsExt};
use std::thread;
use zomtagi::{Error, Node, Refusal, SealKeys, SEAL_KEY_LEN, SEAL_LEN};

/// A PRUNE from node 1 to node 0, and its seal under the key of the bytes 0 to 31, by Python's `hmac`.
const PRUNE: &[u8] = b"PT\x02\x04\0\x01\0\x00\0\0\0\0\0\0\0\x01\0\0\0\0";
const SEAL: &[u8] = b"\x6a\x2f\x40\x18\x47\x06\x9c\xca\xea\xb9\x7e\x25\xdc\xa5\xef\x0f";

fn rising() -> [u8; SEAL_KEY_LEN] {
    std::array::from_fn(|place| place as u8)
}

/// A word of a xorshift generator.
fn word(random: &mut u64) -> u64 {
    *random ^= *random << 13;
    *random ^= *random >> 7;
    *random ^= *random << 17;
    *random
}

/// A node with keys.
fn node(number: u16, keys: SealKeys) -> Node {
    let mut node = Node::new(number, 1).unwrap();
    node.set_keys(Some(keys));
    node
}

/// What opening the bytes is refused with.
fn refusal(keys: &SealKeys, bytes: &[u8]) -> Option<Refusal> {
    keys.open(bytes).unwrap_err().refusal()
}

/// Whether the other node holds what the one wrote, after an exchange.
fn do_talk(one: &mut Node, other: &mut Node) -> bool {
    write(one, 0..3);
    let mut frames = one.exchange(1).unwrap();
    while let Some(frame) = frames.pop() {
        let to = if frame.to() == 0 { &mut *one } else { &mut *other };
        match to.take(frame.bytes()) {
            Ok((_, more)) => frames.extend(more),
            Err(error) => assert_eq!(error.refusal(), Some(Refusal::BadSeal)),
        }
    }
    held(other) == [0, 1, 2]
}

#[test]
fn a_seal_is_the_published_one() {
    let keys = SealKeys::new(rising());
    assert_eq!(keys.seal(PRUNE).unwrap(), [PRUNE, SEAL].concat());
    assert_eq!(keys.open(&[PRUNE, SEAL].concat()).unwrap(), PRUNE);
    assert_eq!(format!("{keys:?}"), "SealKeys { .. }");
}

#[test]
fn nodes_talk_under_one_key() {
    let (mut zero, mut one) = (node(0, SealKeys::new(rising())), node(1, SealKeys::new(rising())));
    assert!(do_talk(&mut zero, &mut one));
    let (mut zero, mut one) = (node(0, SealKeys::new(rising())), node(1, SealKeys::new([7; SEAL_KEY_LEN])));
    assert!(!do_talk(&mut zero, &mut one));
    let (mut zero, mut one) = (Node::new(0, 1).unwrap(), node(1, SealKeys::new(rising())));
    assert!(!do_talk(&mut zero, &mut one));
}

#[test]
fn a_key_is_replaced_in_two_rounds() {
    let (old, new) = ([1; SEAL_KEY_LEN], [2; SEAL_KEY_LEN]);
    let rounds = [
        (SealKeys::new(old), SealKeys::with_previous(old, new)),
        (SealKeys::with_previous(old, new), SealKeys::with_previous(new, old)),
        (SealKeys::with_previous(new, old), SealKeys::new(new)),
    ];
    for (one, other) in rounds {
        assert!(do_talk(&mut node(0, one), &mut node(1, other)));
    }
    assert!(!do_talk(&mut node(0, SealKeys::new(new)), &mut node(1, SealKeys::with_previous(old, [3; SEAL_KEY_LEN]))));
}

#[test]
fn no_changed_frame_opens() {
    let keys = SealKeys::with_previous(rising(), [7; SEAL_KEY_LEN]);
    let mut zero = node(0, SealKeys::new(rising()));
    let mut random = 1;
    for number in 0..1_000 {
        let frames = zero.write_over(&key(number % 64), &zomtagi::Value::text(word(&mut random).to_string())).unwrap();
        assert!(frames.is_empty()); // (it has no peer: an exchange sends a frame all the same)
        let sealed = zero.exchange(1).unwrap().remove(0);
        assert!(keys.open(sealed.bytes()).is_ok());
        for len in 0..sealed.bytes().len() {
            assert_eq!(refusal(&keys, &sealed.bytes()[..len]), Some(Refusal::BadSeal));
        }
        let mut bytes = sealed.bytes().to_vec();
        for bit in 0..8 * bytes.len() {
            bytes[bit / 8] ^= 1 << (bit % 8);
            assert_eq!(refusal(&keys, &bytes), Some(Refusal::BadSeal));
            bytes[bit / 8] ^= 1 << (bit % 8);
        }
    }
    for _ in 0..100_000 {
        let bytes: Vec<u8> = (0..word(&mut random) % 200).map(|_| word(&mut random) as u8).collect();
        assert_eq!(refusal(&keys, &bytes), Some(Refusal::BadSeal));
    }
}

#[test]
fn what_does_not_open_changes_nothing() {
    let mut one = node(1, SealKeys::new(rising()));
    let root = one.root().unwrap();
    let frame = Node::new(0, 1).unwrap().exchange(1).unwrap().remove(0);
    assert_eq!(one.take(frame.bytes()).unwrap_err().refusal(), Some(Refusal::BadSeal));
    assert_eq!(one.root().unwrap(), root);
    one.set_keys(None);
    assert!(one.take(frame.bytes()).is_ok());
}

#[test]
fn keys_stand_in_files() {
    let folder = Folder::new("keys");
    let path = folder.at("key");
    assert!(matches!(SealKeys::read(&path), Err(Error::Io(error)) if error.kind() == ErrorKind::NotFound));

    // Of processes or threads that make it at once, all get one key.
    let threads: Vec<_> = (0..8)
        .map(|_| {
            let path = path.clone();
            thread::spawn(move || SealKeys::read_or_create(path).unwrap().seal(PRUNE).unwrap())
        })
        .collect();
    let sealed: Vec<_> = threads.into_iter().map(|thread| thread.join().unwrap()).collect();
    assert!(sealed.iter().all(|bytes| *bytes == sealed[0]));
    assert_eq!(folder.names(), ["key"]);
    assert_eq!(fs::metadata(&path).unwrap().mode() & 0o777, 0o600);
    assert_eq!(fs::read(&path).unwrap().len(), SEAL_KEY_LEN);

    fs::set_permissions(&path, Permissions::from_mode(0o640)).unwrap();
    assert!(matches!(SealKeys::read(&path), Err(Error::Io(error)) if error.kind() == ErrorKind::PermissionDenied));
    fs::set_permissions(&path, Permissions::from_mode(0o600)).unwrap();
    for (len, is_read) in [(0, false), (31, false), (32, true), (33, false), (63, false), (64, true), (65, false)] {
        fs::write(&path, vec![9; len]).unwrap();
        let refused = SealKeys::read(&path).err().and_then(|error| error.refusal());
        assert_eq!(refused, if is_read { None } else { Some(Refusal::BadKey) }, "{len}");
    }
    fs::write(&path, [rising(), [7; SEAL_KEY_LEN]].concat()).unwrap();
    let keys = SealKeys::read(&path).unwrap();
    assert_eq!(keys.open(&SealKeys::new([7; SEAL_KEY_LEN]).seal(PRUNE).unwrap()).unwrap(), PRUNE);
    assert_eq!(keys.seal(PRUNE).unwrap().len(), PRUNE.len() + SEAL_LEN);
    assert_eq!(keys.seal(PRUNE).unwrap(), [PRUNE, SEAL].concat());
}
