//! What comes of memory that is refused. `malloc` here takes the place of the C library's, for the node too.

use std::cell::Cell;
use std::ffi::c_void;
use std::ptr::null_mut;
use zomtagi::{Error, Key, Node, Refusal, Store, Value};

extern "C" {
    fn __libc_malloc(size: usize) -> *mut c_void;
}

thread_local! {
    /// Whether this thread's next allocation is refused.
    static IS_REFUSED: Cell<bool> = const { Cell::new(false) };
}

#[no_mangle]
unsafe extern "C" fn malloc(size: usize) -> *mut c_void {
    if IS_REFUSED.replace(false) {
        return null_mut();
    }
    __libc_malloc(size)
}

/// A store that keeps nothing. After it the next allocation is refused.
struct Refusing;

impl Store for Refusing {
    fn append(&mut self, _gate: u64, _record: &[u8]) -> Result<(), Error> {
        IS_REFUSED.set(true);
        Ok(())
    }
}

#[test]
fn a_reply_that_is_refused_memory_stops_the_node() {
    let colour = Key::new("app", "flags", "colour");
    let mut node = Node::serve(3, b"PMNODE02\0\x03\0", Refusing).unwrap();
    IS_REFUSED.set(false);
    node.join(0).unwrap();
    assert_eq!(node.write_over(&colour, &Value::text("red")).unwrap_err().refusal(), Some(Refusal::Memory));
    assert_eq!(node.write_over(&colour, &Value::text("red")).unwrap_err().refusal(), Some(Refusal::Stopped));
    assert_eq!(node.tick().unwrap_err().refusal(), Some(Refusal::Stopped));
}
