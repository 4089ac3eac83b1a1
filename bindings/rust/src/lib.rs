//! A node of a cluster in your program: you bring a transport, a clock and a disk.
//!
//! The node is the proved one of the static library `node_export`. What this crate adds isn't proved, and is small: it
//! copies buffers, executes on a file what the node asks to be stored, and turns numbers into errors. It starts no thread.
//!
//! ```
//! use zomtagi::{Key, Node, Value};
//!
//! let (mut zero, mut one) = (Node::new(0, 1)?, Node::new(1, 1)?); // nodes 0 and 1, in their first lives
//! let colour = Key::new("app", "flags", "colour");
//! zero.write_over(&colour, &Value::text("red"))?;
//! one.write_over(&colour, &Value::text("blue"))?; // neither has heard of the other's write
//! let mut frames = zero.exchange(1)?;
//! while let Some(frame) = frames.pop() {
//!     let node = if frame.to() == 0 { &mut zero } else { &mut one };
//!     frames.extend(node.take(frame.bytes())?.1);
//! }
//! let read = one.read(&colour)?;
//! assert_eq!(read.values, [Value::text("red"), Value::text("blue")]); // siblings
//! one.write(&colour, &Value::text("green"), Some(&read.context))?; // has read both, and replaces them
//! assert_eq!(one.read(&colour)?.values, [Value::text("green")]);
//! # Ok::<(), zomtagi::Error>(())
//! ```
//!
//! # What a program does
//!
//! - [`FileStore::create`] makes the file of a node once, and [`FileStore::open`] begins each further life. A node of
//!   [`Node::new`] has no file.
//! - One thread owns the [`Node`], and a [`Driver`] has it do what is due: it calls [`Driver::on_time`] when the time has come,
//!   [`Driver::on_frame`] when bytes come, and [`Driver::on_failure`] when a link fails. Whoever does without makes the calls of
//!   the node himself: [`Node::tick`], [`Node::exchange`], [`Node::hello`], [`Node::join`], [`Node::peer_down`].
//! - After each call it sends the [`Frame::bytes`] of each frame to the node [`Frame::to`]. Frames may be lost, repeated and
//!   reordered; exchanges repair it.
//! - [`Node::set_keys`] seals frames: whoever can forge one can undo writes.
//! - After an [`Error`] it asks [`Error::ends_node`] and [`Error::ends_stream`] what is at its end.
//!
//! `examples/cluster.rs` does all this over TCP, and `docs/EMBEDDING.md` says why, and what is promised.

#![warn(missing_docs)]
#![doc(test(attr(deny(warnings))))]

mod batch;
mod driver;
mod error;
mod file;
mod keys;
mod node;
mod raw;
mod refusal;
mod types;

pub use batch::Batch;
pub use driver::{Driver, Pace};
pub use error::Error;
pub use file::FileStore;
pub use keys::{SealKeys, SEAL_KEY_LEN, SEAL_LEN};
pub use node::{Node, Store};
pub use refusal::Refusal;
pub use types::{Change, Changes, Context, Counter, Frame, FullPrefix, Key, Listed, Read, Taken, Value};
