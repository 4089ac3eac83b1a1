use crate::error::Error;
use crate::node::answered;
use crate::raw::{zomtagi_open, zomtagi_seal};
use std::fmt;
use std::fs::{self, File, OpenOptions};
use std::io::{self, ErrorKind, Read, Write};
use std::os::unix::fs::{MetadataExt, OpenOptionsExt};
use std::path::Path;
use std::process;
use std::sync::atomic::{compiler_fence, AtomicU32, Ordering};

/// The length of a key.
///
/// ```
/// use zomtagi::{SealKeys, SEAL_KEY_LEN};
///
/// let keys = SealKeys::new([7; SEAL_KEY_LEN]); // (yours are random)
/// # assert!(keys.seal(b"frame").is_ok());
/// ```
pub const SEAL_KEY_LEN: usize = 32;

/// How many bytes a sealed frame has more than the frame.
///
/// ```
/// use zomtagi::{SealKeys, SEAL_LEN};
///
/// assert_eq!(SealKeys::new([7; 32]).seal(b"frame")?.len(), 5 + SEAL_LEN);
/// # Ok::<(), zomtagi::Error>(())
/// ```
pub const SEAL_LEN: usize = 16;

/// The keys of a cluster: whoever has none of them gets no frame in, and a frame that changed on its way is a lost one.
///
/// The current key seals, and opens; a previous one, or one that will be current, only opens. So one replaces another while
/// nodes talk: give each node the new key as the previous one; once all have it, make it the current one, and the old one the
/// previous; then leave the old one out.
///
/// They are never printed, and are wiped when they are dropped.
///
/// ```
/// use zomtagi::SealKeys;
///
/// let (old, new) = ([1; 32], [2; 32]); // (yours are random)
/// let rounds =
///     [SealKeys::new(old), SealKeys::with_previous(old, new), SealKeys::with_previous(new, old), SealKeys::new(new)];
/// for (before, after) in rounds.iter().zip(&rounds[1..]) {
///     assert_eq!(before.open(&after.seal(b"frame")?)?, b"frame"); // nodes of either round hear each other
///     assert_eq!(after.open(&before.seal(b"frame")?)?, b"frame");
/// }
/// # Ok::<(), zomtagi::Error>(())
/// ```
pub struct SealKeys {
    /// The current key, and behind it the previous one, if there is one.
    bytes: Vec<u8>,
}

impl SealKeys {
    /// One key: 32 bytes of a source of random numbers.
    ///
    /// ```
    /// # use zomtagi::{SealKeys, SEAL_KEY_LEN};
    /// let keys = SealKeys::new([7; SEAL_KEY_LEN]); // (yours is random)
    /// assert_eq!(keys.open(&keys.seal(b"frame")?)?, b"frame");
    /// assert_eq!(format!("{keys:?}"), "SealKeys { .. }");
    /// # Ok::<(), zomtagi::Error>(())
    /// ```
    pub fn new(current: [u8; SEAL_KEY_LEN]) -> SealKeys {
        SealKeys { bytes: current.to_vec() }
    }

    /// Two keys, of which the first seals.
    ///
    /// ```
    /// # use zomtagi::SealKeys;
    /// let (current, previous) = ([2; 32], [1; 32]); // (yours are random)
    /// let keys = SealKeys::with_previous(current, previous);
    /// assert_eq!(keys.seal(b"frame")?, SealKeys::new(current).seal(b"frame")?);
    /// assert_eq!(keys.open(&SealKeys::new(previous).seal(b"frame")?)?, b"frame");
    /// # Ok::<(), zomtagi::Error>(())
    /// ```
    pub fn with_previous(current: [u8; SEAL_KEY_LEN], previous: [u8; SEAL_KEY_LEN]) -> SealKeys {
        SealKeys { bytes: [current, previous].concat() }
    }

    /// Reads a file of 32 bytes, the current key, or 64, behind it the previous one. Anything else in it is 18 `BadKey`, and a
    /// file that others than its owner may read or change is an [`Error::Io`].
    ///
    /// ```
    /// # use std::fs::{self, Permissions};
    /// # use std::os::unix::fs::PermissionsExt;
    /// # use zomtagi::{Error, SealKeys};
    /// # let folder = std::env::temp_dir().join(format!("zomtagi-doc-read-{}", std::process::id()));
    /// # fs::create_dir(&folder)?;
    /// # let path = folder.join("cluster.key");
    /// # SealKeys::read_or_create(&path)?;
    /// let keys = SealKeys::read(&path)?;
    /// assert_eq!(keys.open(&keys.seal(b"frame")?)?, b"frame");
    /// fs::set_permissions(&path, Permissions::from_mode(0o644))?; // others may read it
    /// assert!(matches!(SealKeys::read(&path), Err(Error::Io(_))));
    /// # fs::remove_dir_all(folder)?;
    /// # Ok::<(), zomtagi::Error>(())
    /// ```
    pub fn read(path: impl AsRef<Path>) -> Result<SealKeys, Error> {
        let file = File::open(path)?;
        if file.metadata()?.mode() & 0o077 != 0 {
            return Err(io::Error::new(ErrorKind::PermissionDenied, "a file of keys must have mode 0600").into());
        }
        // (with its room from the start, so that no bytes stay behind where it grew; one byte more is too many)
        let mut keys = SealKeys { bytes: Vec::with_capacity(2 * SEAL_KEY_LEN + 1) };
        file.take(2 * SEAL_KEY_LEN as u64 + 1).read_to_end(&mut keys.bytes)?;
        keys.seal_of(&[])?;
        Ok(keys)
    }

    /// Reads the file; if there is none, makes it first, of mode 0600, with a key out of `/dev/urandom`. Of several processes
    /// that do so at once, all get the same key.
    ///
    /// ```
    /// # use zomtagi::SealKeys;
    /// # let folder = std::env::temp_dir().join(format!("zomtagi-doc-read-or-create-{}", std::process::id()));
    /// # std::fs::create_dir(&folder)?;
    /// # let path = folder.join("cluster.key");
    /// let (made, read) = (SealKeys::read_or_create(&path)?, SealKeys::read_or_create(&path)?);
    /// assert_eq!(read.open(&made.seal(b"frame")?)?, b"frame"); // they are the same
    /// # std::fs::remove_dir_all(folder)?;
    /// # Ok::<(), zomtagi::Error>(())
    /// ```
    pub fn read_or_create(path: impl AsRef<Path>) -> Result<SealKeys, Error> {
        let path = path.as_ref();
        match SealKeys::read(path) {
            Err(Error::Io(error)) if error.kind() == ErrorKind::NotFound => {
                SealKeys::create(path).and_then(|()| SealKeys::read(path))
            }
            read => read,
        }
    }

    /// Makes a file with a new key under a name of its own, and gives it the path, unless another process was faster.
    fn create(path: &Path) -> Result<(), Error> {
        let mut key = SealKeys::new([0; SEAL_KEY_LEN]);
        File::open("/dev/urandom")?.read_exact(&mut key.bytes)?;
        static NEXT: AtomicU32 = AtomicU32::new(0);
        let mut new = path.as_os_str().to_owned();
        new.push(format!(".{}-{}", process::id(), NEXT.fetch_add(1, Ordering::Relaxed)));
        let mut file = OpenOptions::new().write(true).create_new(true).mode(0o600).open(&new)?;
        let linked = file.write_all(&key.bytes).and_then(|()| file.sync_all()).and_then(|()| fs::hard_link(&new, path));
        fs::remove_file(&new)?;
        match linked {
            Err(error) if error.kind() != ErrorKind::AlreadyExists => Err(error.into()),
            _ => Ok(()),
        }
    }

    /// The bytes that are sent for a frame: the frame, and its seal of 16 bytes behind it.
    ///
    /// ```
    /// # use zomtagi::{Node, SealKeys, SEAL_LEN};
    /// # let keys = SealKeys::new([7; 32]);
    /// let frame = Node::new(0, 1)?.hello(1)?.remove(0);
    /// let sealed = keys.seal(frame.bytes())?;
    /// assert!(sealed.starts_with(frame.bytes())); // anyone can read it
    /// assert_eq!(sealed.len(), frame.bytes().len() + SEAL_LEN);
    /// # Ok::<(), zomtagi::Error>(())
    /// ```
    pub fn seal(&self, frame: &[u8]) -> Result<Vec<u8>, Error> {
        Ok([frame, &self.seal_of(frame)?].concat())
    }

    /// The frame in bytes that were sealed under one of the keys. Refused with 17 `BadSeal`.
    ///
    /// ```
    /// # use zomtagi::{Refusal, SealKeys};
    /// # let keys = SealKeys::new([7; 32]);
    /// let mut sealed = keys.seal(b"frame")?;
    /// assert_eq!(keys.open(&sealed)?, b"frame");
    /// sealed[0] ^= 1; // a bit changes on the way
    /// assert_eq!(keys.open(&sealed).unwrap_err().refusal(), Some(Refusal::BadSeal));
    /// # Ok::<(), zomtagi::Error>(())
    /// ```
    pub fn open<'a>(&self, bytes: &'a [u8]) -> Result<&'a [u8], Error> {
        let mut len = 0;
        answered(unsafe { zomtagi_open(self.bytes.as_ptr(), self.bytes.len(), bytes.as_ptr(), bytes.len(), &mut len) })?;
        Ok(&bytes[..len])
    }

    fn seal_of(&self, frame: &[u8]) -> Result<[u8; SEAL_LEN], Error> {
        let (mut seal, mut len) = ([0; SEAL_LEN], 0);
        answered(unsafe {
            let (keys, keys_len) = (self.bytes.as_ptr(), self.bytes.len());
            zomtagi_seal(keys, keys_len, frame.as_ptr(), frame.len(), seal.as_mut_ptr(), seal.len(), &mut len)
        })?;
        Ok(seal)
    }
}

impl Drop for SealKeys {
    fn drop(&mut self) {
        for byte in &mut self.bytes {
            // (a plain write to what is freed next might be left out)
            unsafe { std::ptr::write_volatile(byte, 0) };
        }
        compiler_fence(Ordering::SeqCst);
    }
}

impl fmt::Debug for SealKeys {
    fn fmt(&self, out: &mut fmt::Formatter<'_>) -> fmt::Result {
        out.write_str("SealKeys { .. }")
    }
}
