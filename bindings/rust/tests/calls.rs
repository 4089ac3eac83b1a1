//! The calls of files that the bindings make: each fails in turn, or is the last before the process dies, or something happens
//! between two of them. The functions of the C library that are defined here take its own's place.

mod common;

use common::{held, is_in_use, key, write, Folder};
use std::cell::{Cell, RefCell};
use std::collections::{BTreeSet, HashMap};
use std::env;
use std::ffi::{c_char, c_int, c_void};
use std::fs::{self, File};
use std::mem::{transmute, ManuallyDrop};
use std::os::fd::FromRawFd;
use std::os::unix::fs::{symlink, FileExt, MetadataExt};
use std::path::{Path, PathBuf};
use std::process::Command;
use std::sync::mpsc::{channel, Sender};
use std::sync::{Mutex, MutexGuard, PoisonError};
use std::thread;
use zomtagi::{Error, FileStore, Node, Refusal, Value};

extern "C" {
    fn dlsym(handle: *mut c_void, name: *const c_char) -> *mut c_void;
    fn lseek(file: c_int, offset: i64, from: c_int) -> i64;
    fn __errno_location() -> *mut c_int;
    fn _exit(status: c_int) -> !;
}

const EIO: c_int = 5;
const ENOSPC: c_int = 28;
const DIED: c_int = 9;

/// What happens to a call.
#[derive(Clone, Copy)]
enum Fate {
    Fails(c_int),
    Dies,
}

/// What happens before a call of this name.
type Happening = (&'static str, Box<dyn FnOnce()>);

/// What the disk holds of a file, and which of its pages were written since they were last synced.
type Disk = (Vec<u8>, BTreeSet<u64>);

thread_local! {
    /// How many calls are left until one has this fate, 0 for none, and whether only syncs are counted.
    static LEFT: Cell<u32> = const { Cell::new(0) };
    static FATE: Cell<Fate> = const { Cell::new(Fate::Fails(EIO)) };
    static OF_SYNCS: Cell<bool> = const { Cell::new(false) };
    /// The name of the call that had it.
    static HAD_IT: Cell<&'static str> = const { Cell::new("") };
    /// What happens once.
    static BEFORE: RefCell<Option<Happening>> = const { RefCell::new(None) };
    /// What was synced, in its order.
    static SYNCED: RefCell<Vec<PathBuf>> = const { RefCell::new(Vec::new()) };
    /// The disk, by the inodes of files.
    static DISK: RefCell<HashMap<u64, Disk>> = RefCell::new(HashMap::new());
}

const PAGE: u64 = 4096;

/// Whether this call fails.
fn fails(name: &'static str) -> bool {
    let before = BEFORE.with_borrow_mut(|before| before.take_if(|(wanted, _)| *wanted == name));
    if let Some((_, happens)) = before {
        happens();
    }
    let left = LEFT.get();
    if left == 0 || (OF_SYNCS.get() && !name.ends_with("sync")) {
        return false;
    }
    LEFT.set(left - 1);
    if left > 1 {
        return false;
    }
    HAD_IT.set(name);
    match FATE.get() {
        Fate::Fails(error) => unsafe { *__errno_location() = error },
        Fate::Dies => unsafe { _exit(DIED) },
    }
    true
}

/// Lends the file of a descriptor.
fn with_file<X>(file: c_int, look: impl FnOnce(&File) -> X) -> X {
    look(&ManuallyDrop::new(unsafe { File::from_raw_fd(file) }))
}

/// Notes what a call that was made did to the disk.
fn note(name: &str, arguments: &[i64], result: i64) {
    match (name, arguments) {
        ("write", [file, ..]) if result > 0 && *file > 2 => {
            note_write(*file as c_int, unsafe { lseek(*file as c_int, 0, 1) } - result, result)
        }
        ("pwrite64", [file, _, _, at]) if result > 0 => note_write(*file as c_int, *at, result),
        ("fsync" | "fdatasync", [file]) => note_sync(*file as c_int, result == 0),
        _ => {}
    }
}

/// Notes that pages of a file were written, if it is one.
fn note_write(file: c_int, at: i64, len: i64) {
    with_file(file, |file| {
        let pages = at as u64 / PAGE..(at + len) as u64 / PAGE + 1;
        let found = file.metadata().unwrap();
        if found.is_file() {
            DISK.with_borrow_mut(|disk| disk.entry(found.ino()).or_default().1.extend(pages));
        }
    });
}

/// Notes that a file was synced: its pages that were written are on the disk then. If the sync failed they aren't, and the
/// next one doesn't write them: so do ext4 and xfs.
fn note_sync(file: c_int, is_done: bool) {
    SYNCED.with_borrow_mut(|synced| synced.push(fs::read_link(format!("/proc/self/fd/{file}")).unwrap()));
    with_file(file, |file| {
        let found = file.metadata().unwrap();
        if !found.is_file() {
            return;
        }
        DISK.with_borrow_mut(|disk| {
            let (disk, pages) = disk.entry(found.ino()).or_default();
            for page in std::mem::take(pages).into_iter().filter(|page| is_done && page * PAGE < found.len()) {
                let (from, to) = (page * PAGE, ((page + 1) * PAGE).min(found.len()));
                disk.resize(disk.len().max(to as usize), 0);
                file.read_exact_at(&mut disk[from as usize..to as usize], from).unwrap();
            }
        });
    });
}

mod in_place {
    use super::*;

    macro_rules! calls {
        ($($name:ident($($argument:ident: $type:ty),*) -> $result:ty;)*) => {$(
            #[no_mangle]
            unsafe extern "C" fn $name($($argument: $type),*) -> $result {
                let next: unsafe extern "C" fn($($type),*) -> $result =
                    transmute(dlsym(-1isize as *mut c_void, concat!(stringify!($name), "\0").as_ptr().cast()));
                let result = if fails(stringify!($name)) { -1 } else { next($($argument),*) };
                note(stringify!($name), &[$($argument as i64),*], result as i64);
                result
            }
        )*};
    }

    calls! {
        open64(path: *const c_char, flags: c_int, mode: u32) -> c_int;
        write(file: c_int, bytes: *const c_void, len: usize) -> isize;
        pwrite64(file: c_int, bytes: *const c_void, len: usize, at: i64) -> isize;
        fsync(file: c_int) -> c_int;
        fdatasync(file: c_int) -> c_int;
        flock(file: c_int, operation: c_int) -> c_int;
        linkat(from: c_int, path: *const c_char, of: c_int, to: *const c_char, flags: c_int) -> c_int;
        rename(path: *const c_char, to: *const c_char) -> c_int;
        unlink(path: *const c_char) -> c_int;
        fchmod(file: c_int, mode: u32) -> c_int;
    }
}

/// Does it while the call of this number, from 1, has this fate. Returns the name of that call too, "" for none.
fn while_one<X>(number: u32, fate: Fate, of_syncs: bool, act: impl FnOnce() -> X) -> (X, &'static str) {
    HAD_IT.set("");
    FATE.set(fate);
    OF_SYNCS.set(of_syncs);
    LEFT.set(number);
    let result = act();
    LEFT.set(0);
    (result, HAD_IT.get())
}

/// Ends the tests before this one: a process that is being made has the locks of the files that this one has open.
fn alone() -> MutexGuard<'static, ()> {
    static ALONE: Mutex<()> = Mutex::new(());
    ALONE.lock().unwrap_or_else(PoisonError::into_inner)
}

/// Whether the error is the one for this call.
fn is_told(error: &Error, call: &str) -> bool {
    if call.ends_with("sync") {
        matches!(error, Error::Sync(_))
    } else {
        matches!(error, Error::Io(_))
    }
}

#[test]
fn a_file_that_is_not_made_leaves_nothing() {
    let _alone = alone();
    for error in [EIO, ENOSPC] {
        for number in 1.. {
            let folder = Folder::new("making");
            let path = folder.at("node");
            let (made, call) = while_one(number, Fate::Fails(error), false, || FileStore::create(&path, 3));
            match made {
                Ok(node) => assert_eq!(node.life(), 1),
                Err(error) => {
                    assert!(is_told(&error, call), "{call}: {error}");
                    assert_eq!(folder.names(), [""; 0], "{call}");
                    assert_eq!(FileStore::create(&path, 3).unwrap().life(), 1);
                }
            }
            assert_eq!(FileStore::open(&path, 3).unwrap().life(), 2);
            assert_eq!(folder.names(), ["node"], "{call}");
            if call.is_empty() {
                assert!(number > 8);
                break;
            }
        }
    }
}

#[test]
fn a_file_that_is_not_opened_is_as_it_was() {
    let _alone = alone();
    for error in [EIO, ENOSPC] {
        for number in 1.. {
            let folder = Folder::new("opening");
            let path = folder.at("node");
            write(&mut FileStore::create(&path, 3).unwrap(), 0..3);
            let (opened, call) = while_one(number, Fate::Fails(error), false, || FileStore::open(&path, 3));
            let life = match opened {
                Ok(node) => node.life(),
                Err(error) => {
                    assert!(is_told(&error, call), "{call}: {error}");
                    assert_eq!(folder.names(), ["node"], "{call}");
                    1
                }
            };
            let mut node = FileStore::open(&path, 3).unwrap();
            assert!(node.life() > life, "{call}");
            assert_eq!(held(&mut node), [0, 1, 2]);
            assert_eq!(folder.names(), ["node"], "{call}");
            if call.is_empty() {
                assert!(number > 8);
                break;
            }
        }
    }
}

#[test]
fn a_write_that_fails_is_in_the_file_or_not() {
    let _alone = alone();
    for number in 1..=4 {
        let folder = Folder::new("writing");
        let path = folder.at("node");
        let mut node = FileStore::create(&path, 3).unwrap();
        write(&mut node, 0..3);
        let act = || node.write_over(&key(3), &Value::text("value 3")).map(drop);
        let (written, call) = while_one(number, Fate::Fails(ENOSPC), false, act);
        assert!(is_told(&written.unwrap_err(), call), "{call}");
        assert_eq!(node.tick().unwrap_err().refusal(), Some(Refusal::Stopped));
        drop(node);
        let mut node = FileStore::open(&path, 3).unwrap();
        assert!(held(&mut node).starts_with(&[0, 1, 2]));
        assert_eq!(node.life(), 2);
    }
}

/// Does in a process of its own what is told, while the call of this number is its last. Returns whether it died of it.
fn dies(what: &str, path: &Path, number: u32) -> bool {
    let mut child = Command::new(env::current_exe().unwrap());
    child.args(["--exact", "what_dies", "--nocapture"]).env("WHAT", what).env("AT", path).env("LAST", number.to_string());
    let ended = child.output().unwrap();
    assert!(ended.status.success() || ended.status.code() == Some(DIED), "{ended:?}");
    !ended.status.success()
}

/// No test by itself: what `dies` calls.
#[test]
fn what_dies() {
    let Ok(what) = env::var("WHAT") else {
        return;
    };
    let (path, last) = (env::var("AT").unwrap(), env::var("LAST").unwrap().parse().unwrap());
    let mut node = (what == "write").then(|| FileStore::open(&path, 3).unwrap());
    while_one(last, Fate::Dies, false, || match what.as_str() {
        "create" => drop(FileStore::create(&path, 3).unwrap()),
        "open" => drop(FileStore::open(&path, 3).unwrap()),
        _ => write(node.as_mut().unwrap(), 3..4),
    });
}

#[test]
fn a_process_that_dies_while_it_makes_a_file_leaves_none_or_a_file() {
    let _alone = alone();
    let folder = Folder::new("dying-making");
    let path = folder.at("node");
    for number in 1.. {
        let is_dead = dies("create", &path, number);
        let is_there = path.exists();
        // (what the processes before have left is in nobody's way)
        let made = if is_there { FileStore::open(&path, 3) } else { FileStore::create(&path, 3) };
        assert_eq!(made.unwrap().life(), 1 + u32::from(is_there), "call {number}");
        assert_eq!(FileStore::open(&path, 3).unwrap().life(), 2 + u32::from(is_there), "call {number}");
        fs::remove_file(&path).unwrap();
        if !is_dead {
            assert!(number > 8);
            break;
        }
    }
}

#[test]
fn a_process_that_dies_while_it_opens_a_file_leaves_it() {
    let _alone = alone();
    let folder = Folder::new("dying-opening");
    let path = folder.at("node");
    write(&mut FileStore::create(&path, 3).unwrap(), 0..3);
    let mut life = 1;
    for number in 1.. {
        let is_dead = dies("open", &path, number);
        life += u32::from(!is_dead);
        let mut node = FileStore::open(&path, 3).unwrap();
        assert!(node.life() > life, "call {number}");
        life = node.life();
        assert_eq!(held(&mut node), [0, 1, 2], "call {number}");
        assert_eq!(folder.names(), ["node"], "call {number}");
        if !is_dead {
            assert!(number > 8);
            break;
        }
    }
}

#[test]
fn a_process_that_dies_while_it_writes_leaves_what_was_written() {
    let _alone = alone();
    for number in 1..=5 {
        let folder = Folder::new("dying-writing");
        let path = folder.at("node");
        write(&mut FileStore::create(&path, 3).unwrap(), 0..3);
        assert_eq!(dies("write", &path, number), number < 5);
        let mut node = FileStore::open(&path, 3).unwrap();
        assert_eq!(node.life(), 3);
        assert_eq!(held(&mut node), if number < 4 { vec![0, 1, 2] } else { vec![0, 1, 2, 3] }, "call {number}");
    }
}

/// Has another thread serve a node once, before the next call of this name. If the node is held, it is until what is returned is
/// dropped.
fn before_next(call: &'static str, is_held: bool, serve: impl FnOnce() -> Node + Send + 'static) -> Sender<()> {
    let (end, ended) = channel();
    let happens = move || {
        let (served, is_served) = channel();
        let thread = thread::spawn(move || {
            let node = serve();
            served.send(()).unwrap();
            let _ = is_held.then(|| ended.recv());
            drop(node);
        });
        is_served.recv().unwrap();
        if !is_held {
            thread.join().unwrap();
        }
    };
    BEFORE.set(Some((call, Box::new(happens))));
    end
}

#[test]
fn who_locks_a_file_that_was_replaced_opens_the_new_one() {
    let _alone = alone();
    for is_held in [false, true] {
        let folder = Folder::new("replaced");
        let path = folder.at("node");
        drop(FileStore::create(&path, 3).unwrap());
        let at = path.clone();
        let _end = before_next("flock", is_held, move || {
            let mut node = FileStore::open(at, 3).unwrap();
            write(&mut node, 0..1);
            node
        });
        let opened = FileStore::open(&path, 3);
        if is_held {
            assert!(is_in_use(opened));
        } else {
            let mut node = opened.unwrap();
            assert_eq!((node.life(), held(&mut node)), (3, vec![0]));
        }
    }
}

#[test]
fn of_two_that_make_a_file_the_other_one_is_refused_or_opens_it() {
    let _alone = alone();
    for call in ["flock", "pwrite64", "linkat"] {
        for is_held in [false, true] {
            let folder = Folder::new("making-twice");
            let path = folder.at("node");
            let at = path.clone();
            let _end = before_next(call, is_held, move || {
                let node = FileStore::open_or_create(at, 3).unwrap();
                assert_eq!(node.life(), 1);
                node
            });
            let other = FileStore::open_or_create(&path, 3);
            if is_held {
                assert!(is_in_use(other), "{call}");
            } else {
                assert_eq!(other.unwrap().life(), 2, "{call}");
            }
            assert_eq!(folder.names(), ["node"]);
        }
    }
}

#[test]
fn the_folder_that_is_synced_is_the_one_that_a_link_leads_to() {
    let _alone = alone();
    let (folder, other) = (Folder::new("from"), Folder::new("to"));
    drop(FileStore::create(other.at("node"), 3).unwrap());
    symlink(other.at("node"), folder.at("link")).unwrap();
    SYNCED.take();
    drop(FileStore::open(folder.at("link"), 3).unwrap());
    assert_eq!(SYNCED.take().last().unwrap(), &fs::canonicalize(other.at("")).unwrap());
}

/// What the disk holds of this file, once the power was cut.
fn on_disk(path: &Path) -> Vec<u8> {
    let inode = fs::metadata(path).unwrap().ino();
    DISK.with_borrow(|disk| disk.get(&inode).map(|found| found.0.clone()).unwrap_or_default())
}

#[test]
fn a_node_that_is_served_after_a_failed_sync_rests_on_what_the_disk_holds() {
    let _alone = alone();
    for number in 1..=2 {
        let folder = Folder::new("syncing");
        let path = folder.at("node");
        let mut node = FileStore::create(&path, 3).unwrap();
        write(&mut node, 0..3);
        // Siblings, so that the next gate is in another page.
        let wide = Value { stamp: 0, body: Some(vec![b'x'; 1024]) };
        for _ in 0..8 {
            node.write(&key(9), &wide, None).unwrap();
        }
        let act = || node.write(&key(9), &wide, None).map(drop);
        let (written, call) = while_one(number, Fate::Fails(EIO), true, act);
        assert!(matches!(written, Err(Error::Sync(_))));
        assert_eq!(call, "fdatasync");
        drop(node);
        // Without a restart of the machine.
        let mut node = FileStore::open(&path, 3).unwrap();
        assert_eq!(node.life(), 2);
        write(&mut node, 3..6);
        let shown = node.read(&key(9)).unwrap().values.len();
        drop(node);
        let image = folder.at("image");
        fs::write(&image, on_disk(&path)).unwrap();
        let mut node = FileStore::open(&image, 3).unwrap();
        assert_eq!(node.life(), 3);
        assert_eq!((held(&mut node), node.read(&key(9)).unwrap().values.len()), (vec![0, 1, 2, 3, 4, 5], shown));
        assert_eq!(fs::read(&path).unwrap(), on_disk(&path));
    }
}

#[test]
fn each_opening_syncs_the_copy_before_it_takes_the_place_of_the_file() {
    let _alone = alone();
    let folder = Folder::new("order");
    let path = folder.at("node");
    let mut node = FileStore::create(&path, 3).unwrap();
    write(&mut node, 0..3);
    drop(node);
    let seen = path.clone();
    let before = fs::read(&path).unwrap();
    BEFORE.set(Some((
        "rename",
        Box::new(move || {
            // (the file is as it was, and locked, and the disk has another one beside it, whole)
            assert_eq!(fs::read(&seen).unwrap(), before);
            assert!(is_in_use(FileStore::open(&seen, 3)));
            let folder = seen.parent().unwrap();
            let names = fs::read_dir(folder).unwrap().map(|entry| entry.unwrap().path());
            let beside: Vec<PathBuf> = names.filter(|path| *path != seen).collect();
            assert_eq!(beside.len(), 1);
            assert!(fs::read(&beside[0]).unwrap() == on_disk(&beside[0]) && on_disk(&beside[0]).starts_with(&before[..52]));
        }),
    )));
    assert_eq!(FileStore::open(&path, 3).unwrap().life(), 2);
    assert!(BEFORE.take().is_none());
}
