use crate::refusal::Refusal;
use std::fmt;
use std::io;

/// Why a call failed. What is printed of [`Error::Io`] and [`Error::Sync`] doesn't say the cause: `source()` has it, and `{:?}`
/// prints it.
///
/// ```
/// use zomtagi::{Key, Node, Value};
///
/// let mut node = Node::new(0, 1)?;
/// match node.write_over(&Key::new("app", "flags", "colour"), &Value::text([0; 1025])) {
///     Err(error) if error.ends_node() => panic!("it is to be served from its file again: {error}"),
///     Err(error) => assert_eq!(error.to_string(), "2 ValueTooLong: a body has more than 1,024 bytes"),
///     Ok(frames) => drop(frames),
/// }
/// # Ok::<(), zomtagi::Error>(())
/// ```
#[derive(Debug)]
#[non_exhaustive]
pub enum Error {
    /// A refusal of the library, except for 31 and 15, which say where.
    Refused(Refusal),
    /// 31: from this offset on the bytes aren't what a file has there. All records before it are whole.
    #[allow(missing_docs)]
    Damaged { at: u64 },
    /// 15: the field of the frame that begins at this offset is cut or breaks its rule, or is one too many.
    #[allow(missing_docs)]
    BadBody { at: u64 },
    /// The file is in use: another process, or another node of this one, holds its lock.
    InUse,
    /// A call of the file failed that was no sync; or the store failed, which stops the node.
    Io(io::Error),
    /// A sync failed, so that what the disk holds isn't known. In a call of a node it stops the node.
    Sync(io::Error),
    /// The gate at this offset of the file was open, and isn't, or an append of many objects was cut off there: so says what
    /// stands behind it. All before it is whole.
    #[allow(missing_docs)]
    GateChanged { at: u64 },
    /// The context is of another node.
    OtherContext,
}

impl Error {
    /// The refusal of the library, if it is one.
    ///
    /// ```
    /// # use zomtagi::{Error, Node, Refusal};
    /// let refused = Node::new(1, 1)?.join(1).unwrap_err(); // through itself
    /// assert_eq!(refused.refusal(), Some(Refusal::BadNode));
    /// assert_eq!(Error::Damaged { at: 11 }.refusal(), Some(Refusal::Damaged));
    /// assert_eq!(Error::InUse.refusal(), None); // the lock of the file, not the library
    /// # Ok::<(), zomtagi::Error>(())
    /// ```
    pub fn refusal(&self) -> Option<Refusal> {
        match self {
            Error::Refused(refusal) => Some(*refusal),
            Error::Damaged { .. } => Some(Refusal::Damaged),
            Error::BadBody { .. } => Some(Refusal::BadBody),
            _ => None,
        }
    }

    /// Whether the node is at its end, and is to be dropped: after 34, and what its store returned. After any other error it
    /// is as it was, except as [`Node::take`](crate::Node::take) says.
    ///
    /// ```
    /// # use std::io;
    /// # use zomtagi::{Error, Refusal};
    /// assert!(Error::Io(io::Error::other("the disk is full")).ends_node()); // what its store returned
    /// assert!(Error::Refused(Refusal::Stopped).ends_node()); // what each later step returns
    /// assert!(!Error::Refused(Refusal::ValueTooLong).ends_node());
    /// ```
    pub fn ends_node(&self) -> bool {
        match self {
            Error::Io(_) | Error::Sync(_) => true,
            error => error.refusal().is_some_and(Refusal::ends_node),
        }
    }

    /// Whether the stream that the bytes came from is to be closed: they are no frame, or no key of the cluster sealed them, so
    /// that where the next frame begins isn't known.
    ///
    /// ```
    /// # use zomtagi::Node;
    /// let mut node = Node::new(0, 1)?;
    /// assert!(node.take(b"GET / HTTP/1.1\r\n\r\n").unwrap_err().ends_stream());
    /// let astray = Node::new(1, 1)?.hello(2)?.remove(0);
    /// assert!(!node.take(astray.bytes()).unwrap_err().ends_stream()); // a frame, for another node
    /// # Ok::<(), zomtagi::Error>(())
    /// ```
    pub fn ends_stream(&self) -> bool {
        self.refusal().is_some_and(Refusal::ends_stream)
    }
}

impl fmt::Display for Error {
    fn fmt(&self, out: &mut fmt::Formatter<'_>) -> fmt::Result {
        match self {
            Error::Refused(refusal) => refusal.fmt(out),
            Error::Damaged { at } => write!(out, "{}, at {at}", Refusal::Damaged),
            Error::BadBody { at } => write!(out, "{}, at {at}", Refusal::BadBody),
            Error::InUse => write!(out, "the file is in use"),
            Error::Io(_) => write!(out, "a call of the file failed, or the store did"),
            Error::Sync(_) => write!(out, "a sync of the file failed"),
            Error::GateChanged { at } => write!(out, "the gate at {at} was changed, or many writes at once were cut off"),
            Error::OtherContext => write!(out, "the context is of another node"),
        }
    }
}

impl std::error::Error for Error {
    fn source(&self) -> Option<&(dyn std::error::Error + 'static)> {
        match self {
            Error::Io(error) | Error::Sync(error) => Some(error),
            _ => None,
        }
    }
}

impl From<Refusal> for Error {
    fn from(refusal: Refusal) -> Error {
        Error::Refused(refusal)
    }
}

impl From<io::Error> for Error {
    fn from(error: io::Error) -> Error {
        Error::Io(error)
    }
}
