//! How much memory a file takes that has a hole: the most that this process had tells, so this is its one test.

mod common;

use common::Folder;
use std::fs::{self, OpenOptions};
use zomtagi::{Error, FileStore};

/// The most memory that this process had so far, in kB.
fn most() -> u64 {
    let status = fs::read_to_string("/proc/self/status").unwrap();
    let line = status.lines().find(|line| line.starts_with("VmHWM:")).unwrap();
    line.split_whitespace().nth(1).unwrap().parse().unwrap()
}

#[test]
fn a_hole_takes_no_memory() {
    let folder = Folder::new("hole");
    let path = folder.at("node");
    drop(FileStore::create(&path, 3).unwrap());
    let (bytes, before) = (fs::read(&path).unwrap(), most());
    let with_hole = |bytes: &[u8]| {
        fs::write(&path, bytes).unwrap();
        OpenOptions::new().write(true).open(&path).unwrap().set_len(100_000_000).unwrap();
        let opened = FileStore::open(&path, 3);
        assert!(most() - before < 5_000, "{} kB", most() - before);
        opened
    };
    // Behind the closed gate, also where a length stands that no record has.
    for behind in ["", "\x7f\x7f\x7f\x7f"] {
        assert_eq!(with_hole(&[&bytes, behind.as_bytes()].concat()).unwrap().life(), 2);
        assert_eq!(fs::metadata(&path).unwrap().len(), 11 + 2 * 42);
    }
    // Behind an open gate, where zeros are a record of no bytes.
    for behind in ["\x01", "\x01\x7f\x7f\x7f\x7f"] {
        let gate = bytes.len() - 1;
        let bytes = [&bytes[..gate], behind.as_bytes()].concat();
        let refused = with_hole(&bytes).err();
        assert!(matches!(refused, Some(Error::Damaged { at }) if at == gate as u64), "{refused:?}");
    }
}
