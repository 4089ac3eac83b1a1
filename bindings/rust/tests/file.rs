//! Which files are opened and made, and what comes of those that are refused.

mod common;

use common::{held, is_in_use, key, kind, write, Folder};
use std::fs::{self, File, OpenOptions, Permissions};
use std::io::ErrorKind::{AlreadyExists, InvalidInput, NotFound};
use std::os::unix::fs::{chown, symlink, FileExt, MetadataExt, PermissionsExt};
use std::path::{Path, PathBuf};
use std::sync::Barrier;
use std::thread;
use zomtagi::{Error, FileStore, Node, Refusal, Store, Value};

extern "C" {
    fn mkfifo(path: *const std::ffi::c_char, mode: u32) -> i32;
    fn umask(mode: u32) -> u32;
}

/// A store that keeps nothing.
struct Nowhere;

impl Store for Nowhere {
    fn append(&mut self, _gate: u64, _record: &[u8]) -> Result<(), Error> {
        Ok(())
    }
}

/// A file with three lives, of one write each.
fn three_lives(path: &Path) {
    for number in 0..3 {
        let mut node = FileStore::open_or_create(path, 3).unwrap();
        assert_eq!(node.life(), 1 + number as u32);
        write(&mut node, number..number + 1);
    }
}

#[test]
fn a_file_that_isnt_there_is_not_opened() {
    let folder = Folder::new("none");
    assert_eq!(kind(FileStore::open(folder.at("node"), 3)), Some(NotFound));
    assert_eq!(folder.names(), [""; 0]);
}

#[test]
fn a_file_that_is_there_is_not_made_again() {
    let folder = Folder::new("there");
    let path = folder.at("node");
    let mut node = FileStore::create(&path, 3).unwrap();
    assert_eq!(node.life(), 1);
    write(&mut node, 0..2);
    drop(node);
    let bytes = fs::read(&path).unwrap();
    assert_eq!(kind(FileStore::create(&path, 3)), Some(AlreadyExists));
    assert_eq!((fs::read(&path).unwrap(), folder.names()), (bytes, vec!["node".into()]));
    for life in [2, 3] {
        let mut node = if life == 2 { FileStore::open(&path, 3) } else { FileStore::open_or_create(&path, 3) }.unwrap();
        assert_eq!((node.life(), held(&mut node)), (life, vec![0, 1]));
    }
    // (also if it is empty: what was in it is lost)
    fs::write(&path, "").unwrap();
    assert_eq!(kind(FileStore::create(&path, 3)), Some(AlreadyExists));
    assert!(matches!(FileStore::open_or_create(&path, 3), Err(Error::Damaged { at: 0 })));
    assert_eq!(fs::read(&path).unwrap(), b"");
}

#[test]
fn what_is_refused_leaves_no_file() {
    let folder = Folder::new("refused");
    let path = folder.at("node");
    for refused in [FileStore::create(&path, 16), FileStore::open_or_create(&path, 16)] {
        assert_eq!(refused.err().unwrap().refusal(), Some(Refusal::BadNode));
        assert_eq!(folder.names(), [""; 0]);
    }
    assert_eq!(FileStore::create(&path, 3).unwrap().life(), 1);
    let bytes = fs::read(&path).unwrap();
    assert_eq!(FileStore::open(&path, 4).err().unwrap().refusal(), Some(Refusal::OtherNode));
    assert_eq!(FileStore::open(&path, 16).err().unwrap().refusal(), Some(Refusal::BadNode));
    assert_eq!((fs::read(&path).unwrap(), folder.names()), (bytes, vec!["node".into()]));
}

#[test]
fn a_file_that_is_served_is_not_opened() {
    let folder = Folder::new("served");
    let path = folder.at("node");
    let made = FileStore::create(&path, 3).unwrap();
    assert!(is_in_use(FileStore::open(&path, 3)));
    drop(made);
    let opened = FileStore::open(&path, 3).unwrap();
    assert!(is_in_use(FileStore::open(&path, 3)));
    assert!(is_in_use(FileStore::open_or_create(&path, 3)));
    drop(opened);
    assert_eq!(FileStore::open(&path, 3).unwrap().life(), 3);
    assert_eq!(folder.names(), ["node"]);
}

#[test]
fn of_many_that_start_at_once_one_gets_the_file() {
    let folder = Folder::new("race");
    for round in 0..100 {
        let path = folder.at(&format!("node {}", round / 5));
        let barrier = Barrier::new(3);
        let lives: Vec<Option<u32>> = thread::scope(|scope| {
            let start = || {
                barrier.wait();
                let node = FileStore::open_or_create(&path, 3);
                barrier.wait();
                match node {
                    Ok(node) => Some(node.life()),
                    refused => {
                        assert!(is_in_use(refused));
                        None
                    }
                }
            };
            let threads: Vec<_> = (0..3).map(|_| scope.spawn(start)).collect();
            threads.into_iter().map(|thread| thread.join().unwrap()).collect()
        });
        assert_eq!(lives.into_iter().flatten().collect::<Vec<_>>(), [1 + round % 5]);
    }
    assert_eq!(folder.names().len(), 20);
}

#[test]
fn a_link_stays_a_link() {
    let (folder, other) = (Folder::new("link"), Folder::new("linked"));
    let (path, link) = (other.at("node"), folder.at("link"));
    symlink(&path, &link).unwrap();
    // (it leads nowhere yet, and is there)
    assert_eq!(kind(FileStore::open(&link, 3)), Some(NotFound));
    assert_eq!(kind(FileStore::create(&link, 3)), Some(AlreadyExists));
    assert_eq!((folder.names(), other.names()), (vec!["link".into()], vec![]));
    drop(FileStore::create(&path, 3).unwrap());
    assert_eq!(FileStore::open(&link, 3).unwrap().life(), 2);
    assert_eq!(FileStore::open(&path, 3).unwrap().life(), 3);
    assert_eq!(fs::read_link(&link).unwrap(), path);
    assert_eq!((folder.names(), other.names()), (vec!["link".into()], vec!["node".into()]));
}

#[test]
fn a_file_with_a_second_name_is_not_opened() {
    let folder = Folder::new("second");
    drop(FileStore::create(folder.at("node"), 3).unwrap());
    fs::hard_link(folder.at("node"), folder.at("other")).unwrap();
    assert_eq!(kind(FileStore::open(folder.at("node"), 3)), Some(InvalidInput));
    assert_eq!(kind(FileStore::open(folder.at("other"), 3)), Some(InvalidInput));
    fs::remove_file(folder.at("other")).unwrap();
    assert_eq!(FileStore::open(folder.at("node"), 3).unwrap().life(), 2);
}

#[test]
fn what_is_no_regular_file_is_refused_at_once() {
    let folder = Folder::new("pipe");
    let pipe = folder.at("pipe");
    assert_eq!(unsafe { mkfifo(std::ffi::CString::new(pipe.to_str().unwrap()).unwrap().as_ptr(), 0o600) }, 0);
    for path in [&pipe, Path::new("/dev/null")] {
        let Err(Error::Io(error)) = FileStore::open(path, 3) else {
            panic!("it was opened");
        };
        assert_eq!(error.to_string(), "it is no regular file");
    }
    assert!(FileStore::open(folder.at(""), 3).is_err());
    assert_eq!(folder.names(), ["pipe"]);
}

#[test]
fn a_new_file_is_its_owners_alone_and_a_copy_keeps_owner_and_mode() {
    let folder = Folder::new("mode");
    let path = folder.at("node");
    let before = unsafe { umask(0) };
    drop(FileStore::create(&path, 3).unwrap());
    unsafe { umask(before) };
    let mode = || fs::metadata(&path).unwrap().mode() & 0o7777;
    assert_eq!(mode(), 0o600);
    drop(FileStore::open(&path, 3).unwrap());
    assert_eq!(mode(), 0o600);
    fs::set_permissions(&path, Permissions::from_mode(0o640)).unwrap();
    let is_given = chown(&path, Some(65534), Some(65534)).is_ok(); // (which takes the rights of root)
    drop(FileStore::open(&path, 3).unwrap());
    assert_eq!(mode(), 0o640);
    assert!(!is_given || fs::metadata(&path).unwrap().uid() == 65534 && fs::metadata(&path).unwrap().gid() == 65534);
}

/// The offsets of the gates of a file.
fn gates(bytes: &[u8]) -> Vec<usize> {
    let mut gates = vec![10];
    while bytes[*gates.last().unwrap()] == 1 {
        let at = gates.last().unwrap();
        let len = u32::from_be_bytes(bytes[at + 1..at + 5].try_into().unwrap());
        gates.push(at + 37 + len as usize);
    }
    gates
}

/// A store whose first write of each record fails three times, and leaves other bytes in its range. It makes that write again.
struct Again {
    file: File,
    path: PathBuf,
}

impl Store for Again {
    fn append(&mut self, gate: u64, record: &[u8]) -> Result<(), Error> {
        let (first, rest) = record.split_at(1);
        let before = served(&self.path);
        for len in [rest.len(), rest.len() / 2, 1] {
            let other: Vec<u8> = rest[..len].iter().map(|byte| !byte).collect();
            self.file.write_all_at(&other, gate + 1)?;
            assert_eq!(served(&self.path), before);
        }
        self.file.write_all_at(rest, gate + 1)?;
        assert_eq!(served(&self.path), before);
        Ok(self.file.write_all_at(first, gate)?)
    }
}

/// The life and the keys of a node that is served from the file as it is now.
fn served(path: &Path) -> (u32, Vec<usize>) {
    let mut node = Node::serve(3, &fs::read(path).unwrap(), Nowhere).unwrap();
    (node.life(), held(&mut node))
}

#[test]
fn a_first_write_that_failed_may_be_made_again() {
    let folder = Folder::new("again");
    let path = folder.at("node");
    drop(FileStore::create(&path, 3).unwrap());
    let file = OpenOptions::new().write(true).open(&path).unwrap();
    let store = Again { file, path: path.clone() };
    let mut node = Node::serve(3, &fs::read(&path).unwrap(), store).unwrap();
    assert_eq!(served(&path), (3, vec![]));
    for number in 0..3 {
        write(&mut node, number..number + 1);
        assert_eq!(served(&path), (3, (0..=number).collect()));
    }
}

#[test]
fn a_changed_byte_is_told_by_the_gate_before_its_record() {
    let folder = Folder::new("offsets");
    let path = folder.at("node");
    three_lives(&path);
    let bytes = fs::read(&path).unwrap();
    let refused = |bytes: &[u8]| {
        fs::write(&path, bytes).unwrap();
        let error = FileStore::open(&path, 3).err().unwrap();
        assert_eq!((error.refusal(), fs::read(&path).unwrap()), (Some(Refusal::Damaged), bytes.to_vec()));
        match error {
            Error::Damaged { at } => at as usize,
            other => panic!("{other}"),
        }
    };
    for pair in gates(&bytes).windows(2) {
        let (gate, next) = (pair[0], pair[1]);
        for at in gate + 1..next {
            let mut changed = bytes.clone();
            changed[at] ^= 1;
            assert_eq!((at, refused(&changed)), (at, gate));
            assert_eq!((at, refused(&bytes[..at])), (at, gate));
        }
    }
    // The magic; a node above 15; fewer bytes than a front and a gate.
    assert_eq!(refused(&[b"pmnode02", &bytes[8..]].concat()), 0);
    assert_eq!(refused(&[&bytes[..8], &[0, 16], &bytes[10..]].concat()), 8);
    for len in 0..11 {
        assert_eq!(refused(&bytes[..len]), len);
    }
}

#[test]
fn a_changed_gate_is_found() {
    let folder = Folder::new("gates");
    let path = folder.at("node");
    three_lives(&path);
    let bytes = fs::read(&path).unwrap();
    let gates = gates(&bytes);
    let (last, before) = (gates.len() - 1, gates.len() - 2);
    assert_eq!((gates.len(), gates[last]), (7, bytes.len() - 1));
    for (number, at) in gates.iter().enumerate() {
        for bit in 0..8 {
            let mut changed = bytes.clone();
            changed[*at] ^= 1 << bit;
            fs::write(&path, &changed).unwrap();
            let result = FileStore::open(&path, 3);
            if number == last && bit > 0 {
                // Nothing stands behind it.
                assert_eq!(held(&mut result.unwrap()), [0, 1, 2]);
            } else if number == last {
                assert!(matches!(result, Err(Error::Damaged { at: told }) if told == *at as u64));
            } else if number == before && bit == 0 {
                // Just this a crash leaves before the gate is opened.
                assert_eq!(held(&mut result.unwrap()), [0, 1]);
            } else {
                assert!(
                    matches!(result, Err(Error::GateChanged { at: found }) if found == *at as u64),
                    "gate {number}, bit {bit}"
                );
                assert_eq!((fs::read(&path).unwrap(), folder.names()), (changed, vec!["node".into()]));
            }
        }
    }
}

#[test]
fn two_changed_gates_one_behind_the_other_are_found() {
    let folder = Folder::new("two-gates");
    let path = folder.at("node");
    three_lives(&path);
    let bytes = fs::read(&path).unwrap();
    for at in gates(&bytes)[..6].windows(2) {
        let mut changed = bytes.clone();
        (changed[at[0]], changed[at[1]]) = (0, 0);
        fs::write(&path, &changed).unwrap();
        assert!(matches!(FileStore::open(&path, 3), Err(Error::GateChanged { at: found }) if found == at[0] as u64));
        // (so is one whose next gate is open, though the file is cut behind that)
        changed.truncate(at[1]);
        changed.push(1);
        fs::write(&path, &changed).unwrap();
        assert!(matches!(FileStore::open(&path, 3), Err(Error::GateChanged { at: found }) if found == at[0] as u64));
    }
}

#[test]
fn what_a_crash_leaves_behind_the_closed_gate_is_no_changed_gate() {
    let folder = Folder::new("crash");
    let path = folder.at("node");
    three_lives(&path);
    let mut bytes = fs::read(&path).unwrap();
    let gates = gates(&bytes);
    let gate = gates[gates.len() - 2];
    bytes[gate] = 0;
    // The last record, as far as it came, or with zeros or other bytes for what of it didn't come.
    for came in gate + 1..=bytes.len() {
        for filled in [None, Some(0), Some(1), Some(255)] {
            let mut left = bytes[..came].to_vec();
            if let Some(byte) = filled {
                left.resize(bytes.len(), byte);
            }
            if filled == Some(1) && came == bytes.len() - 1 {
                continue; // (a whole record with an open gate behind it, which no one writes)
            }
            fs::write(&path, &left).unwrap();
            let mut node = FileStore::open(&path, 3).unwrap();
            assert_eq!((node.life(), held(&mut node)), (4, vec![0, 1]));
            // (what counted for nothing isn't in the copy)
            assert_eq!(fs::metadata(&path).unwrap().len(), gate as u64 + 43);
        }
    }
    // A record of a life may stand over the front of one that came whole, as a program in C or Rattle leaves it.
    let whole = fs::read(&path).unwrap()[..gate].to_vec();
    let mut left = bytes.clone();
    let life = &fs::read(&path).unwrap()[gate..];
    left[gate..gate + life.len()].copy_from_slice(life);
    fs::write(&path, &left).unwrap();
    assert_eq!(FileStore::open(&path, 3).unwrap().life(), 5);
    assert!(fs::read(&path).unwrap().starts_with(&whole));
}

/// What is told of a node that was served, or not.
fn told(result: Result<Node, Error>) -> String {
    match result {
        Ok(node) => format!("{:?} {:?}", node.life(), node.root().unwrap()),
        Err(error) => error.to_string(),
    }
}

#[test]
fn a_file_is_read_as_the_format_says() {
    let folder = Folder::new("format");
    let path = folder.at("node");
    three_lives(&path);
    let bytes = fs::read(&path).unwrap();
    let look = |bytes: &[u8], wanted: String| {
        fs::write(&path, bytes).unwrap();
        let found = told(FileStore::open(&path, 3));
        assert!(found == wanted || found.starts_with("the gate at "), "{wanted}, and {found}");
        found == wanted
    };
    // Each front, each byte changed in three ways, and more behind: as the library says of all the bytes.
    let mut fronts: Vec<Vec<u8>> = (0..=bytes.len()).map(|len| bytes[..len].to_vec()).collect();
    fronts.push([&bytes, &[0; 100][..]].concat());
    fronts.push([&bytes, &[1; 100][..]].concat());
    fronts.push([b"PMNODE01", &bytes[8..11], &[0; 50]].concat());
    fronts.push([b"PMNODE01", &bytes[8..]].concat());
    fronts.push([&bytes[..10], b"\x01\xff\xff\xff\xff", &[1; 50]].concat());
    for front in &fronts {
        assert!(look(front, told(Node::serve(3, front, Nowhere))));
    }
    let (mut same, mut changed_gates) = (0, 0);
    for at in 0..bytes.len() {
        for change in [1, 2, 255] {
            let mut changed = bytes.clone();
            changed[at] = changed[at].wrapping_add(change);
            match look(&changed, told(Node::serve(3, &changed, Nowhere))) {
                true => same += 1,
                false => changed_gates += 1,
            }
        }
    }
    // (of the seven gates the last may have any value, and the one before it may be closed)
    assert_eq!((same + changed_gates, changed_gates), (3 * bytes.len(), 5 * 3 + 2));
}

#[test]
fn each_opening_puts_a_copy_in_the_place_of_the_file() {
    let folder = Folder::new("inodes");
    let path = folder.at("node");
    let mut inodes = vec![];
    for life in 1..4 {
        let mut node = FileStore::open_or_create(&path, 3).unwrap();
        assert_eq!(node.life(), life);
        node.write(&key(0), &Value::text(format!("value {life}")), None).unwrap();
        inodes.push(fs::metadata(&path).unwrap().ino());
    }
    assert!(inodes[0] != inodes[1] && inodes[1] != inodes[2]);
    assert_eq!(FileStore::open(&path, 3).unwrap().read(&key(0)).unwrap().values.len(), 3);
}
