//! What the tests of files share.

#![allow(dead_code)]

use std::fs;
use std::path::PathBuf;
use zomtagi::{Key, Node, Value};

/// A folder of a test's own, which is removed in the end.
pub struct Folder(PathBuf);

impl Folder {
    pub fn new(name: &str) -> Folder {
        let folder = std::env::temp_dir().join(format!("zomtagi-{name}-{}", std::process::id()));
        let _ = fs::remove_dir_all(&folder); // (of a process of the same number that was killed)
        fs::create_dir(&folder).unwrap();
        Folder(folder)
    }

    /// The path of a file in it.
    pub fn at(&self, name: &str) -> PathBuf {
        self.0.join(name)
    }

    /// The names of the files in it.
    pub fn names(&self) -> Vec<String> {
        let mut names: Vec<String> =
            fs::read_dir(&self.0).unwrap().map(|entry| entry.unwrap().file_name().into_string().unwrap()).collect();
        names.sort();
        names
    }
}

impl Drop for Folder {
    fn drop(&mut self) {
        let _ = fs::remove_dir_all(&self.0);
    }
}

/// The key of a number.
pub fn key(number: usize) -> Key {
    Key::new("app", "flags", format!("key {number}"))
}

/// Writes under the keys of these numbers.
pub fn write(node: &mut Node, numbers: std::ops::Range<usize>) {
    for number in numbers {
        node.write_over(&key(number), &Value::text(format!("value {number}"))).unwrap();
    }
}

/// The numbers of the keys under which the node shows what `write` writes.
pub fn held(node: &mut Node) -> Vec<usize> {
    (0..64).filter(|number| node.read(&key(*number)).unwrap().values == [Value::text(format!("value {number}"))]).collect()
}

/// The kind of the error with which a call of files failed, if one did.
pub fn kind(result: Result<Node, zomtagi::Error>) -> Option<std::io::ErrorKind> {
    match result {
        Err(zomtagi::Error::Io(error)) => Some(error.kind()),
        _ => None,
    }
}

/// Whether a file wasn't opened because its lock is held.
pub fn is_in_use(result: Result<Node, zomtagi::Error>) -> bool {
    matches!(result, Err(zomtagi::Error::InUse))
}

/// The program of an example. `cargo test` builds it first; `cargo test --test NAME` doesn't.
pub fn example(name: &str) -> PathBuf {
    let program = std::env::current_exe().unwrap().parent().unwrap().join(format!("../examples/{name}"));
    let made = fs::metadata(&program).and_then(|found| found.modified()).ok();
    let source = fs::metadata(format!("{}/examples/{name}.rs", env!("CARGO_MANIFEST_DIR"))).unwrap().modified().unwrap();
    assert!(made > Some(source), "cargo build --example {name}, with --release if the tests are, makes {}", program.display());
    program
}
