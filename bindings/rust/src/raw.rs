//! The exports of the static library, as `bindings/c/zomtagi.h` has them.

/// A place for a node. It begins as zeros, and only the exports change it.
#[repr(C)]
pub struct Slot {
    full: bool,
    node: *mut u8,
}

impl Slot {
    pub const EMPTY: Slot = Slot { full: false, node: std::ptr::null_mut() };
}

/// A node may move to another thread: the library keeps nothing beside it, neither for a thread nor for all of them, and takes
/// and frees its memory by `malloc` and `free`, from any thread.
unsafe impl Send for Slot {}

/// A place for a plan, likewise.
#[repr(C)]
pub struct PlanSlot {
    full: bool,
    plan: *mut u8,
}

impl PlanSlot {
    pub const EMPTY: PlanSlot = PlanSlot { full: false, plan: std::ptr::null_mut() };
}

/// (as a node may)
unsafe impl Send for PlanSlot {}

/// What is told of a node.
#[repr(C)]
#[derive(Default)]
pub struct NodeInfo {
    pub number: u16,
    pub is_stopped: u8,
    pub life: u32,
    pub keys: usize,
    pub gate: usize,
}

macro_rules! exports {
    ($($name:ident($($argument:ident: $type:ty),*);)*) => {
        extern "C" {
            $(pub fn $name(slot: *mut Slot, $($argument: $type),*) -> u16;)*
            pub fn zomtagi_free(slot: *mut Slot);
            pub fn zomtagi_plan_begin(plan: *mut PlanSlot, now: u64, tick: u64, quiet: u64) -> u16;
            pub fn zomtagi_plan_end(plan: *mut PlanSlot);
            pub fn zomtagi_plan_remove(plan: *mut PlanSlot, member: u16) -> u16;
            pub fn zomtagi_empty_file(node: u16, buffer: *mut u8, size: usize, len: &mut usize) -> u16;
            pub fn zomtagi_clean_copy(bytes: *const u8, len: usize, node: u16, buffer: *mut u8, size: usize,
                copy_len: &mut usize) -> u16;
            pub fn zomtagi_check_file(bytes: *const u8, len: usize, node: u16, at: &mut usize) -> u16;
            pub fn zomtagi_check_frame(frame: *const u8, len: usize, at: &mut usize) -> u16;
            pub fn zomtagi_seal(keys: *const u8, keys_len: usize, frame: *const u8, frame_len: usize, buffer: *mut u8,
                size: usize, len: &mut usize) -> u16;
            pub fn zomtagi_open(keys: *const u8, keys_len: usize, bytes: *const u8, bytes_len: usize, len: &mut usize) -> u16;
        }
    };
}

exports! {
    zomtagi_new(node: u16, life: u32);
    zomtagi_serve(bytes: *const u8, len: usize, node: u16);
    zomtagi_read(prefix: *const u8, prefix_len: usize, sub: *const u8, sub_len: usize, key: *const u8, key_len: usize);
    zomtagi_keep(prefix: *const u8, prefix_len: usize, sub: *const u8, sub_len: usize, key: *const u8, key_len: usize);
    zomtagi_write(prefix: *const u8, prefix_len: usize, sub: *const u8, sub_len: usize, key: *const u8, key_len: usize,
        body: *const u8, body_len: usize, stamp: u64, context: u64);
    zomtagi_delete(prefix: *const u8, prefix_len: usize, sub: *const u8, sub_len: usize, key: *const u8, key_len: usize,
        stamp: u64, context: u64);
    zomtagi_write_over(prefix: *const u8, prefix_len: usize, sub: *const u8, sub_len: usize, key: *const u8, key_len: usize,
        body: *const u8, body_len: usize, stamp: u64);
    zomtagi_delete_over(prefix: *const u8, prefix_len: usize, sub: *const u8, sub_len: usize, key: *const u8, key_len: usize,
        stamp: u64);
    zomtagi_take(frame: *const u8, len: usize, word: u64);
    zomtagi_tick(word: u64);
    zomtagi_join(contact: u16, word: u64);
    zomtagi_peer_down(peer: u16, word: u64);
    zomtagi_exchange(peer: u16);
    zomtagi_hello(peer: u16);
    zomtagi_leave();
    zomtagi_watch(prefix: *const u8, prefix_len: usize, sub: *const u8, sub_len: usize, capacity: usize);
    zomtagi_changes(number: u64);
    zomtagi_record(gate: &mut usize, buffer: *mut u8, size: usize, len: &mut usize);
    zomtagi_stored(is_stored: u8);
    zomtagi_reply(buffer: *mut u8, size: usize, len: &mut usize);
    zomtagi_frame(buffer: *mut u8, size: usize, len: &mut usize);
    zomtagi_sent();
    zomtagi_begin_batch();
    zomtagi_end_batch();
    zomtagi_plan_add(plan: *mut PlanSlot, now: u64, member: u16);
    zomtagi_plan_wake(plan: *mut PlanSlot, at: &mut u64);
    zomtagi_drive_time(plan: *mut PlanSlot, now: u64, word: u64);
    zomtagi_drive_frame(plan: *mut PlanSlot, now: u64, frame: *const u8, len: usize, word: u64);
    zomtagi_drive_failure(plan: *mut PlanSlot, now: u64, peer: u16, word: u64);
    zomtagi_keep_context(number: &mut u64);
    zomtagi_forget_context(number: u64);
    zomtagi_prefixes(buffer: *mut u8, size: usize, len: &mut usize);
    zomtagi_list(prefix: *const u8, prefix_len: usize, sub: *const u8, sub_len: usize, buffer: *mut u8, size: usize,
        len: &mut usize);
    zomtagi_root(buffer: *mut u8, size: usize, len: &mut usize);
    zomtagi_peek(prefix: *const u8, prefix_len: usize, sub: *const u8, sub_len: usize, key: *const u8, key_len: usize,
        buffer: *mut u8, size: usize, len: &mut usize);
    zomtagi_neighbours(buffer: *mut u8, size: usize, len: &mut usize);
    zomtagi_about(info: &mut NodeInfo);
}
