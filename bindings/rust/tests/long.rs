//! A file of many records: what it takes to open it, and what is found in it. The most memory that this process had tells, so this
//! is its one test.

mod common;

use common::{held, key, write, Folder};
use std::fs::{self, File};
use std::io::{BufWriter, Write};
use std::os::unix::fs::{FileExt, MetadataExt};
use zomtagi::{Error, FileStore, Value};

/// The most memory that this process had so far, in kB.
fn most() -> u64 {
    let status = fs::read_to_string("/proc/self/status").unwrap();
    let line = status.lines().find(|line| line.starts_with("VmHWM:")).unwrap();
    line.split_whitespace().nth(1).unwrap().parse().unwrap()
}

#[test]
fn a_long_file_becomes_a_short_one() {
    let folder = Folder::new("long");
    let path = folder.at("node");
    let mut node = FileStore::create(&path, 3).unwrap();
    write(&mut node, 0..63);
    let one = fs::metadata(&path).unwrap().len() as usize;
    node.write_over(&key(63), &Value::text("first")).unwrap();
    drop(node);
    // The records of 63 keys, thousands of times, and then the last key.
    let bytes = fs::read(&path).unwrap();
    let (begun, records, rest) = (&bytes[..one - 1], &bytes[11 - 1 + 42..one - 1], &bytes[one - 1..]);
    let times = 16_000_000 / records.len();
    let make = || {
        let mut file = BufWriter::new(File::create(&path).unwrap());
        file.write_all(begun).unwrap();
        (0..times).for_each(|_| file.write_all(records).unwrap());
        file.write_all(rest).unwrap();
        file.into_inner().unwrap()
    };

    let before = most();
    make();
    let mut node = FileStore::open(&path, 3).unwrap();
    assert!(most() - before < 8_000, "{} kB", most() - before);
    assert_eq!(node.life(), 2);
    assert_eq!(held(&mut node), (0..63).collect::<Vec<_>>());
    assert_eq!(node.read(&key(63)).unwrap().values, [Value::text("first")]);
    write(&mut node, 63..64);
    drop(node);
    assert!(fs::metadata(&path).unwrap().len() < 2 << 20);
    let mut node = FileStore::open(&path, 3).unwrap();
    assert_eq!((node.life(), held(&mut node)), (3, (0..64).collect()));
    drop(node);

    // Offsets are those of the long file, which stays as it was.
    for time in [1, times / 2, times] {
        let gate = begun.len() + time * records.len();
        let refused = |at: usize, byte: u8| {
            let file = make();
            file.write_all_at(&[byte], at as u64).unwrap();
            let refused = FileStore::open(&path, 3).err().unwrap();
            assert_eq!(file.metadata().unwrap().nlink(), 1);
            refused
        };
        assert!(matches!(refused(gate, 2), Error::GateChanged { at } if at == gate as u64));
        assert!(matches!(refused(gate + 5, 9), Error::Damaged { at } if at == gate as u64));
    }
}
