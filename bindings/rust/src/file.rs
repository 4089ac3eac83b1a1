use crate::error::Error;
use crate::node::{answered, damage, Node, Store};
use crate::raw::{zomtagi_clean_copy, zomtagi_empty_file};
use crate::refusal::Refusal;
use std::ffi::OsString;
use std::fs::{self, File, OpenOptions, Permissions};
use std::io::{self, BufReader, ErrorKind, Read, Seek, SeekFrom};
use std::mem::replace;
use std::os::fd::AsRawFd;
use std::os::unix::fs::{fchown, FileExt, MetadataExt, OpenOptionsExt, PermissionsExt};
use std::path::{Path, PathBuf};
use std::process;

extern "C" {
    /// The lock of a whole file, of the C library that std links.
    fn flock(file: i32, operation: i32) -> i32;
}

const EXCLUSIVE_OR_FAIL: i32 = 2 | 4;

/// Makes the opening of a pipe return at once.
const NONBLOCKING: i32 = 0o4000;

/// How often a file may be replaced while it is being opened.
const MOST_TURNS: usize = 100;

/// The gate before a record, and the one that is written behind the last.
const OPEN: u8 = 1;
const CLOSED: u8 = 0;

/// From how many bytes of records on a clean copy takes their place.
const PIECE: usize = 1 << 20;

/// The bytes before the first gate, and the most of a record's payload.
const FRONT: usize = 10;
const MOST_PAYLOAD: u32 = 1 << 24;

/// The file of a node, under a lock: nobody else who asks for the lock has it meanwhile.
///
/// What is read of a file may be more than the disk holds, if a sync has failed. So each opening writes the file anew:
///
/// - It locks the inode at the path. If another one is there afterwards, somebody has replaced the file, and it opens the path
///   again. So of all who hold the lock of some inode only one holds that of the file.
/// - Into a copy beside it, `PATH.zomtagi-copy`, which it locks first, it writes what counts of the file and the record of the
///   next life. It syncs the copy, renames it over the path, and syncs the folder. Then the old inode's lock ends, and who waited
///   for it finds another inode at the path, which is locked.
/// - If the records take more than 1 MiB, one for each key stands in the copy instead of the first of them. So a file that is
///   opened now and then doesn't grow for ever, and opening it takes memory for the table, not for the file.
/// - A crash before the rename leaves the file as it was. Only who holds the file's lock touches the copy, so the next opening
///   removes what is left of it.
/// - A new file has a name of its own, `PATH.zomtagi-new-..`, until it is locked and synced, with the record of life 1. Then it is
///   linked to the path, which fails if anything is there, and loses that name. So the path never names half a file. If a crash
///   leaves both names, the next opening removes the other one. With any other second name (a hard link) the file isn't opened:
///   that name would stay the old file, from which a life could begin again.
///
/// ```
/// use zomtagi::{FileStore, Key, Value};
///
/// # let folder = std::env::temp_dir().join(format!("zomtagi-doc-store-{}", std::process::id()));
/// # std::fs::create_dir(&folder)?;
/// let (path, colour) = (folder.join("node-3"), Key::new("app", "flags", "colour"));
/// let mut node = FileStore::create(&path, 3)?; // once
/// node.write_over(&colour, &Value::text("red"))?; // returns once it is in the file
/// drop(node);
/// let node = FileStore::open(&path, 3)?; // from then on
/// assert_eq!((node.life(), node.peek(&colour)?), (2, vec![Value::text("red")]));
/// # std::fs::remove_dir_all(folder)?;
/// # Ok::<(), zomtagi::Error>(())
/// ```
pub struct FileStore {
    file: File,
}

impl FileStore {
    /// Serves the node from the file at the path, in its next life. The file is replaced by a copy of itself, which takes as much
    /// room on the disk until it is done.
    ///
    /// Refused with [`Error::InUse`] while its lock is held; [`Error::Io`] of the kind `NotFound` if there is no file, and
    /// `InvalidInput` if it isn't a regular file or has a second name (a hard link); [`Error::GateChanged`]; as `zomtagi_serve`
    /// is; and with [`Error::Io`] or [`Error::Sync`] if the copy can't be made. It is then as it was.
    ///
    /// ```
    /// # use zomtagi::{Error, FileStore, Refusal};
    /// # let folder = std::env::temp_dir().join(format!("zomtagi-doc-open-{}", std::process::id()));
    /// # std::fs::create_dir(&folder)?;
    /// # let path = folder.join("node-3");
    /// let node = FileStore::create(&path, 3)?;
    /// assert!(matches!(FileStore::open(&path, 3), Err(Error::InUse)));
    /// drop(node);
    /// assert_eq!(FileStore::open(&path, 3)?.life(), 2);
    /// assert_eq!(FileStore::open(&path, 4).unwrap_err().refusal(), Some(Refusal::OtherNode));
    /// # std::fs::remove_dir_all(folder)?;
    /// # Ok::<(), zomtagi::Error>(())
    /// ```
    pub fn open(path: impl AsRef<Path>, node: u16) -> Result<Node, Error> {
        let (old, path) = locked_at(path.as_ref())?;
        let records = Records::read(&old, node)?;
        let served = records.serve(node)?;
        if records.end_at_a_changed_gate(&old, node)? {
            return Err(Error::GateChanged { at: records.gate() });
        }
        let copy = with_end(&path, ".zomtagi-copy");
        match fs::remove_file(&copy) {
            Err(error) if error.kind() != ErrorKind::NotFound => return Err(error.into()),
            _ => {}
        }
        let (beside, file) = Beside::make(copy)?;
        keep_rights(&old, &file)?;
        let node = FileStore::fill(file, &records.bytes, served)?;
        // (it has no name beside then that could be removed)
        fs::rename(&beside.0, &path)?;
        sync_folder(&path)?;
        Ok(node)
    }

    /// Makes a file for a node that never had one, and serves the node from it, in life 1. See to it that the node had no life
    /// yet: no life's number may be used twice. The file's owner alone may read and write it (mode 0600).
    ///
    /// Refused with 3 `BadNode`; [`Error::Io`] of the kind `AlreadyExists` if anything is at the path, also a link that leads
    /// nowhere; and with [`Error::Io`] or [`Error::Sync`] if the file can't be made. No file is made then.
    ///
    /// ```
    /// # use std::io::ErrorKind;
    /// # use zomtagi::{Error, FileStore};
    /// # let folder = std::env::temp_dir().join(format!("zomtagi-doc-create-{}", std::process::id()));
    /// # std::fs::create_dir(&folder)?;
    /// # let path = folder.join("node-3");
    /// assert_eq!(FileStore::create(&path, 3)?.life(), 1);
    /// let again = FileStore::create(&path, 3);
    /// assert!(matches!(again, Err(Error::Io(error)) if error.kind() == ErrorKind::AlreadyExists));
    /// # std::fs::remove_dir_all(folder)?;
    /// # Ok::<(), zomtagi::Error>(())
    /// ```
    pub fn create(path: impl AsRef<Path>, node: u16) -> Result<Node, Error> {
        let bytes = empty_file(node)?;
        let path = in_folder(path.as_ref())?;
        let (beside, file) = Beside::make_new(&path)?;
        let node = FileStore::fill(file, &bytes, Node::of_bytes(node, &bytes)?)?;
        fs::hard_link(&beside.0, &path)?;
        drop(beside);
        if let Err(error) = sync_folder(&path) {
            let _ = fs::remove_file(&path);
            return Err(error);
        }
        Ok(node)
    }

    /// [`open`](FileStore::open), and if there is no file, [`create`](FileStore::create): so a file that was lost, or a path that
    /// is mistyped or not mounted, begins with life 1 again. Call it only if that can't be.
    ///
    /// ```
    /// # use zomtagi::FileStore;
    /// # let folder = std::env::temp_dir().join(format!("zomtagi-doc-open-or-create-{}", std::process::id()));
    /// # std::fs::create_dir(&folder)?;
    /// # let path = folder.join("node-3");
    /// assert_eq!(FileStore::open_or_create(&path, 3)?.life(), 1);
    /// assert_eq!(FileStore::open_or_create(&path, 3)?.life(), 2);
    /// std::fs::remove_file(&path)?;
    /// assert_eq!(FileStore::open_or_create(&path, 3)?.life(), 1); // what must not be: a second life 1
    /// # std::fs::remove_dir_all(folder)?;
    /// # Ok::<(), zomtagi::Error>(())
    /// ```
    pub fn open_or_create(path: impl AsRef<Path>, node: u16) -> Result<Node, Error> {
        let is = |result: &Result<Node, Error>, kind| matches!(result, Err(Error::Io(error)) if error.kind() == kind);
        let opened = FileStore::open(&path, node);
        if !is(&opened, ErrorKind::NotFound) {
            return opened;
        }
        let made = FileStore::create(&path, node);
        if !is(&made, ErrorKind::AlreadyExists) {
            return made;
        }
        // Somebody else has made it in between.
        FileStore::open(&path, node)
    }

    /// Writes the bytes into a new file, and the record of the life in which the node is served from them.
    fn fill(file: File, bytes: &[u8], served: Node) -> Result<Node, Error> {
        file.write_all_at(bytes, 0)?;
        file.sync_all().map_err(Error::Sync)?;
        served.stored_in(FileStore { file })
    }
}

impl Store for FileStore {
    fn append(&mut self, gate: u64, record: &[u8]) -> Result<(), Error> {
        let (first, rest) = record.split_at(1);
        self.file.write_all_at(rest, gate + 1)?;
        self.file.sync_data().map_err(Error::Sync)?;
        self.file.write_all_at(first, gate)?;
        self.file.sync_data().map_err(Error::Sync)
    }
}

/// A name beside the file's own, under which a file is being made. It is removed when this is dropped.
struct Beside(PathBuf);

impl Beside {
    /// Makes a file of this name, for its owner alone, and takes its lock.
    fn make(path: PathBuf) -> Result<(Beside, File), Error> {
        let file = OpenOptions::new().read(true).write(true).create_new(true).mode(0o600).open(&path)?;
        let beside = Beside(path);
        lock(&file)?;
        Ok((beside, file))
    }

    /// The same, of a name that nobody else has.
    fn make_new(path: &Path) -> Result<(Beside, File), Error> {
        let mut number = 0;
        loop {
            match Beside::make(with_end(path, &format!("{NEW}{}-{number}", process::id()))) {
                Err(Error::Io(error)) if error.kind() == ErrorKind::AlreadyExists => number += 1,
                made => return made,
            }
        }
    }
}

impl Drop for Beside {
    fn drop(&mut self) {
        let _ = fs::remove_file(&self.0);
    }
}

/// What a new file's name has behind the path's, before the numbers.
const NEW: &str = ".zomtagi-new-";

/// The path with more at its end.
fn with_end(path: &Path, end: &str) -> PathBuf {
    let mut name = OsString::from(path);
    name.push(end);
    name.into()
}

fn invalid(why: &str) -> io::Error {
    io::Error::new(ErrorKind::InvalidInput, why)
}

/// Takes the lock of an open file.
fn lock(file: &File) -> Result<(), Error> {
    if unsafe { flock(file.as_raw_fd(), EXCLUSIVE_OR_FAIL) } == 0 {
        return Ok(());
    }
    match io::Error::last_os_error() {
        error if error.kind() == ErrorKind::WouldBlock => Err(Error::InUse),
        error => Err(error.into()),
    }
}

/// The file at the path, under its lock, and the path without links.
fn locked_at(path: &Path) -> Result<(File, PathBuf), Error> {
    for _ in 0..MOST_TURNS {
        let path = path.canonicalize()?;
        let file = OpenOptions::new().read(true).write(true).custom_flags(NONBLOCKING).open(&path)?;
        if !file.metadata()?.is_file() {
            return Err(invalid("it is no regular file").into());
        }
        lock(&file)?;
        if is_at(&file, &path)? {
            remove_second_name(&file, &path)?;
            return Ok((file, path));
        }
    }
    Err(Error::InUse) // (it is being replaced again and again)
}

/// Whether the open file is the one of this name.
fn is_at(file: &File, path: &Path) -> io::Result<bool> {
    let (file, named) = (file.metadata()?, path.symlink_metadata());
    match named {
        Ok(named) => Ok((file.dev(), file.ino()) == (named.dev(), named.ino())),
        Err(error) if error.kind() == ErrorKind::NotFound => Ok(false),
        Err(error) => Err(error),
    }
}

/// Removes the name under which the file was made, if a crash has left it. Any other second name is refused.
fn remove_second_name(file: &File, path: &Path) -> io::Result<()> {
    if file.metadata()?.nlink() == 1 {
        return Ok(());
    }
    let start = with_end(path, NEW);
    for entry in fs::read_dir(folder_of(path))? {
        let other = entry?.path();
        if other.as_os_str().as_encoded_bytes().starts_with(start.as_os_str().as_encoded_bytes()) && is_at(file, &other)? {
            fs::remove_file(other)?;
        }
    }
    match file.metadata()?.nlink() {
        1 => Ok(()),
        _ => Err(invalid("it has a second name (a hard link), under which an old file would stay")),
    }
}

/// The path, its folder without links.
fn in_folder(path: &Path) -> io::Result<PathBuf> {
    let name = path.file_name().ok_or_else(|| invalid("it is the name of no file"))?;
    Ok(folder_of(path).canonicalize()?.join(name))
}

fn folder_of(path: &Path) -> &Path {
    match path.parent() {
        Some(folder) if !folder.as_os_str().is_empty() => folder,
        _ => Path::new("."),
    }
}

/// Makes it durable which file has this name.
fn sync_folder(path: &Path) -> Result<(), Error> {
    File::open(folder_of(path))?.sync_all().map_err(Error::Sync)
}

/// Gives the copy the owner, the group and the mode of the file.
fn keep_rights(old: &File, copy: &File) -> io::Result<()> {
    let (old, new) = (old.metadata()?, copy.metadata()?);
    if (old.uid(), old.gid()) != (new.uid(), new.gid()) {
        let why = |error: io::Error| io::Error::new(error.kind(), format!("the owner of the file can't be kept: {error}"));
        fchown(copy, Some(old.uid()), Some(old.gid())).map_err(why)?;
    }
    copy.set_permissions(Permissions::from_mode(old.mode() & 0o777))
}

/// The bytes of a file of a node that had no life yet.
fn empty_file(node: u16) -> Result<[u8; FRONT + 1], Error> {
    let (mut bytes, mut len) = ([0; FRONT + 1], 0);
    answered(unsafe { zomtagi_empty_file(node, bytes.as_mut_ptr(), bytes.len(), &mut len) })?;
    Ok(bytes)
}

/// The front of a file and its records, with the gate behind them. What stands behind that counts for nothing, and may be a hole.
struct Records {
    /// If there were many, the first ones are those of a clean copy.
    bytes: Vec<u8>,
    /// How many bytes fewer that copy has.
    saved: u64,
}

impl Records {
    /// Reads a file, and takes memory for what it stands for. If it is damaged, they end where that is seen.
    fn read(file: &File, node: u16) -> Result<Records, Error> {
        let mut reader = BufReader::new(file);
        let (mut records, mut limit) = (Records { bytes: Vec::new(), saved: 0 }, PIECE);
        reader.by_ref().take(FRONT as u64 + 1).read_to_end(&mut records.bytes)?;
        let mut is_whole = records.bytes.starts_with(b"PMNODE0") && records.bytes.len() > FRONT;
        while is_whole && records.bytes.ends_with(&[OPEN]) {
            is_whole = read_record(&mut reader, &mut records.bytes)?;
            if is_whole && records.bytes.len() > limit && records.bytes.starts_with(b"PMNODE02") {
                records.shorten(node)?;
                limit = PIECE + 2 * records.bytes.len();
            }
        }
        Ok(records)
    }

    /// Puts a clean copy in the place of what was read, with the same gate behind it.
    fn shorten(&mut self, node: u16) -> Result<(), Error> {
        let last = self.bytes.len() - 1;
        let gate = replace(&mut self.bytes[last], CLOSED);
        let mut copy = clean_copy(node, &self.bytes).map_err(|error| self.placed(error))?;
        if let Some(last) = copy.last_mut() {
            *last = gate;
        }
        self.saved += (self.bytes.len() - copy.len()) as u64;
        self.bytes = copy;
        Ok(())
    }

    /// The node that is served from them.
    fn serve(&self, node: u16) -> Result<Node, Error> {
        Node::of_bytes(node, &self.bytes).map_err(|error| self.placed(error))
    }

    /// The error with the offset in the file.
    fn placed(&self, error: Error) -> Error {
        match error {
            Error::Damaged { at } => Error::Damaged { at: at + self.saved },
            error => error,
        }
    }

    /// Where in the file the gate stands that ends them.
    fn gate(&self) -> u64 {
        self.bytes.len() as u64 - 1 + self.saved
    }

    /// Whether that gate was open, by what the file has behind it. A crash leaves at most one whole record there, with a closed
    /// gate behind that, and the gate itself as it was written.
    fn end_at_a_changed_gate(&self, file: &File, node: u16) -> Result<bool, Error> {
        let mut reader = BufReader::new(file);
        reader.seek(SeekFrom::Start(self.gate() + 1))?;
        let front = &self.bytes[..FRONT];
        let Some(behind) = whole_record(&mut reader, front, node)? else {
            return Ok(false);
        };
        Ok(behind == OPEN || !self.bytes.ends_with(&[CLOSED]) || whole_record(&mut reader, front, node)?.is_some())
    }
}

/// The bytes of a clean copy of a file: of the same last life and table, with one record for each key.
fn clean_copy(node: u16, bytes: &[u8]) -> Result<Vec<u8>, Error> {
    let (mut copy, mut len) = (Vec::new(), bytes.len());
    loop {
        copy.resize(len, 0);
        let (from, to) = (bytes.as_ptr(), copy.as_mut_ptr());
        match answered(unsafe { zomtagi_clean_copy(from, bytes.len(), node, to, copy.len(), &mut len) }) {
            Err(Error::Refused(Refusal::ShortBuffer)) => {}
            Err(Error::Refused(Refusal::Damaged)) => return Err(damage(node, bytes)),
            answer => {
                answer?;
                copy.truncate(len);
                return Ok(copy);
            }
        }
    }
}

/// Reads the length, the payload and the digest of a record, and the gate behind them. Returns whether they were there.
fn read_record(reader: &mut impl Read, bytes: &mut Vec<u8>) -> io::Result<bool> {
    let at = bytes.len();
    reader.by_ref().take(4).read_to_end(bytes)?;
    let Ok(len) = bytes[at..].try_into().map(u32::from_be_bytes) else {
        return Ok(false);
    };
    let rest = u64::from(len) + 32 + 1;
    Ok(len <= MOST_PAYLOAD && reader.by_ref().take(rest).read_to_end(bytes)? as u64 == rest)
}

/// The gate behind the next record, if this is whole: if a file that has it alone is none that is damaged.
fn whole_record(reader: &mut impl Read, front: &[u8], node: u16) -> Result<Option<u8>, Error> {
    let mut alone = [front, &[OPEN]].concat();
    if !read_record(reader, &mut alone)? {
        return Ok(None);
    }
    let gate = alone.last_mut().map(|gate| replace(gate, CLOSED));
    match Node::of_bytes(node, &alone) {
        Err(Error::Damaged { .. }) => Ok(None),
        Err(error @ Error::Refused(Refusal::Memory)) => Err(error),
        _ => Ok(gate),
    }
}
