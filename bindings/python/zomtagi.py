"""A node of the cluster metadata store zomtagi, over the shared library that README.md beside this file says how to make.

bindings/c/zomtagi.h has each export in words, with its refusals, and docs/EMBEDDING.md what a program owes a node. A key is a
tuple of its prefix, its sub-prefix and its name, all of them bytes.
"""
import ctypes
import fcntl
import os
import secrets
from collections import namedtuple

NAMES = {
    # made by scripts/refusals: the names
    1: "BadName",
    2: "ValueTooLong",
    3: "BadNode",
    10: "Short",
    11: "BadMagic",
    12: "BadVersion",
    13: "BadKind",
    14: "TooLong",
    15: "BadBody",
    16: "LeftOver",
    17: "BadSeal",
    18: "BadKey",
    20: "CounterSpent",
    21: "BadEntries",
    25: "StoreFull",
    26: "WrongKey",
    27: "ObjectTooLarge",
    28: "BadWatch",
    29: "NoSuchWatch",
    31: "Damaged",
    32: "OtherNode",
    33: "FileFull",
    34: "Stopped",
    35: "IncarnationSpent",
    36: "OldVersion",
    37: "Pending",
    38: "Nothing",
    40: "NotAddressed",
    43: "NoSuchRead",
    80: "NoNode",
    81: "ShortBuffer",
    82: "BadLife",
    99: "Memory",
    # the end of the names
}
NOTHING, SHORT_BUFFER = 38, 81

Value = namedtuple("Value", "body stamp", defaults=[0])  # (the body of a tombstone is None)
Read = namedtuple("Read", "values context")  # (the context takes memory until Node.forget forgets it)
Listed = namedtuple("Listed", "key is_deleted")
Change = namedtuple("Change", "key vector")  # (of each writer known its node, its life, and how many of its writes)
Changes = namedtuple("Changes", "missed noted")


class Refused(Exception):
    """A call was refused, with the number of the refusal."""

    def __init__(self, number):
        super().__init__(f"{number} {NAMES.get(number, 'Unknown')}")
        self.number = number


class Slot(ctypes.Structure):
    """A place for a node or a plan, as zomtagi_slot_new and zomtagi_plan_new of zomtagi.h make it: two words of zeros, which only
    the exports change."""

    _fields_ = [("words", ctypes.c_void_p * 2)]


class Info(ctypes.Structure):
    """What is told of a node: zomtagi_node_info."""

    _fields_ = [
        ("number", ctypes.c_uint16),
        ("is_stopped", ctypes.c_uint8),
        ("life", ctypes.c_uint32),
        ("keys", ctypes.c_size_t),
        ("gate", ctypes.c_size_t),
    ]


# The arguments of each export: s a slot, b bytes and their length, 1 2 4 8 a number of so many bytes, z a size, p a pointer
# through which it tells something, o the buffer for what it hands out, its size, and a pointer to the length.
EXPORTS = {
    "new": "s24", "serve": "sb2", "free": "s", "empty_file": "2o", "clean_copy": "b2o", "read": "sbbb", "keep": "sbbb",
    "write": "sbbbb88", "delete": "sbbb88", "write_over": "sbbbb8", "delete_over": "sbbb8", "take": "sb8", "tick": "s8",
    "join": "s28", "peer_down": "s28", "exchange": "s2", "hello": "s2", "leave": "s", "watch": "sbbz", "changes": "s8",
    "record": "spo", "stored": "s1", "reply": "so", "frame": "so", "sent": "s", "keep_context": "sp", "forget_context": "s8",
    "prefixes": "so", "list": "sbbo", "peek": "sbbbo", "neighbours": "so", "root": "so", "about": "sp",
    "plan_begin": "s888", "plan_end": "s", "plan_add": "ss82", "plan_remove": "s2", "plan_wake": "ssp",
    "drive_time": "ss88", "drive_frame": "ss8b8", "drive_failure": "ss828",
    "check_file": "b2p", "check_frame": "bp", "seal": "bbo", "open": "bbp",
}  # fmt: skip
SIZE, POINTER = ctypes.c_size_t, ctypes.c_void_p
TYPES = {
    "s": [ctypes.POINTER(Slot)], "b": [ctypes.c_char_p, SIZE], "z": [SIZE], "p": [POINTER], "o": [POINTER, SIZE, POINTER],
    "1": [ctypes.c_uint8], "2": [ctypes.c_uint16], "4": [ctypes.c_uint32], "8": [ctypes.c_uint64],
}  # fmt: skip
HERE = os.path.dirname(os.path.abspath(__file__))
LIBRARY = ctypes.CDLL(os.environ.get("ZOMTAGI_SO", f"{HERE}/libzomtagi.so"))
for _name, _kinds in EXPORTS.items():
    _export = LIBRARY[f"zomtagi_{_name}"]
    _export.argtypes = [it for kind in _kinds for it in TYPES[kind]]
    _export.restype = None if _name in ("free", "plan_end") else ctypes.c_uint16
    setattr(LIBRARY, _name, _export)


def call(name, *words):
    """Calls an export; bytes are given with their length."""
    number = getattr(LIBRARY, name)(*[it for word in words for it in ([word, len(word)] if isinstance(word, bytes) else [word])])
    if number:
        raise Refused(number)


def told(name, *words):
    """The bytes that an export hands out, or None if there is nothing."""
    size, length = 4096, SIZE()
    while True:
        buffer = ctypes.create_string_buffer(size)
        try:
            call(name, *words, buffer, size, ctypes.byref(length))
            return buffer.raw[: length.value]
        except Refused as refused:
            if refused.number == NOTHING:
                return None
            if refused.number != SHORT_BUFFER:
                raise
            size = length.value


class Fields:
    """What is left of bytes that were handed out."""

    def __init__(self, data):
        self.data = data

    def take(self, count):
        front, self.data = self.data[:count], self.data[count:]
        return front

    def number(self, count=8):
        return int.from_bytes(self.take(count), "big")

    def names(self, count):
        return tuple(self.take(self.number(2)) for _ in range(count))

    def value(self):
        stamp, has_body = self.number(), self.number(1)
        return Value(self.take(self.number()) if has_body else None, stamp)

    def values(self):
        return [self.value() for _ in range(self.number())]

    def change(self):
        key = self.names(3)
        return Change(key, [(self.number(2), self.number(4), self.number()) for _ in range(self.number())])


def to(frame):
    """The node that a frame names, to which it is to be sent."""
    return int.from_bytes(frame[6:8], "big")


def seal(keys, frame):
    """The bytes to send for a frame: with its seal. The keys are 32 bytes, or 64: behind the current one the previous one."""
    return frame + told("seal", keys, frame)


def unseal(keys, data):
    """The frame in bytes that were sealed: what Node.take gets."""
    length = SIZE()
    call("open", keys, data, ctypes.byref(length))
    return data[: length.value]


def sync_folder(path):
    folder = os.open(os.path.dirname(os.path.abspath(path)), os.O_RDONLY)
    os.fsync(folder)
    os.close(folder)


class Node:
    """A node. One thread at a time makes calls. Those that make a step return the frames to send, unless they say otherwise."""

    def __init__(self, file=None):
        self.slot, self.file = Slot(), file

    @classmethod
    def new(cls, number, life):
        """A node without a file, in a life that it never had."""
        node = cls()
        call("new", node.slot, number, life)
        return node

    @classmethod
    def create(cls, path, number):
        """Makes the file of a node that never had one, and serves the node from it, in life 1."""
        empty = told("empty_file", number)  # (first, so that a number that is refused leaves no file)
        with open(os.open(path, os.O_CREAT | os.O_EXCL | os.O_WRONLY, 0o600), "wb") as file:
            file.write(empty)
        return cls.open(path, number)

    @classmethod
    def open(cls, path, number):
        """Serves the node from its file, in its next life. BlockingIOError: the file is in use."""
        node = cls(os.open(path, os.O_RDWR))
        fcntl.flock(node.file, fcntl.LOCK_EX | fcntl.LOCK_NB)
        os.fsync(node.file)
        sync_folder(path)
        call("serve", node.slot, os.pread(node.file, os.fstat(node.file).st_size, 0), number)
        node.store()
        return node

    def close(self):
        """Frees the node, and closes its file."""
        LIBRARY.free(self.slot)
        if self.file is not None:
            os.close(self.file)
        self.file = None

    __del__ = close

    def store(self):
        """Stores what the last step stores: first what follows the gate, then the gate. An error stops the node: open it again."""
        gate = SIZE()
        record = told("record", self.slot, ctypes.byref(gate))
        if record is None:
            return
        is_stored = False
        try:
            for offset, data in ((gate.value + 1, record[1:]), (gate.value, record[:1])):
                while data:
                    count = os.pwrite(self.file, data, offset)
                    offset, data = offset + count, data[count:]
                os.fdatasync(self.file)
            is_stored = True
        finally:
            call("stored", self.slot, is_stored)

    def step(self, name, *words):
        """Makes a step, and returns its reply and the frames to send."""
        call(name, self.slot, *words)
        return self.given()

    def given(self):
        """Stores what is to be stored, and returns the reply of the last step, if there was one, and the frames to send."""
        self.store()
        reply, frames = told("reply", self.slot), []
        while (frame := told("frame", self.slot)) is not None:
            frames.append(frame)
            call("sent", self.slot)
        return Fields(reply), frames

    def read(self, key):
        """What the node shows under a key, and the context for a write that replaces just that. Returns no frames."""
        reply, _ = self.step("read", *key)
        context = ctypes.c_uint64()
        call("keep_context", self.slot, ctypes.byref(context))
        reply.take(1)
        return Read(reply.values(), context.value)

    def forget(self, context):
        call("forget_context", self.slot, context)

    def write(self, key, body, context=0, stamp=0):
        """Writes over what the context's read has shown; a body of None deletes it."""
        words = ("delete", *key) if body is None else ("write", *key, body)
        return self.step(*words, stamp, context)[1]

    def write_over(self, key, body, stamp=0):
        """Writes over all that the node shows; a body of None deletes it."""
        words = ("delete_over", *key) if body is None else ("write_over", *key, body)
        return self.step(*words, stamp)[1]

    def keep(self, key):
        return self.step("keep", *key)[1]

    def take(self, frame):
        return self.step("take", frame, secrets.randbits(64))[1]

    def tick(self):
        return self.step("tick", secrets.randbits(64))[1]

    def join(self, contact):
        return self.step("join", contact, secrets.randbits(64))[1]

    def peer_down(self, peer):
        return self.step("peer_down", peer, secrets.randbits(64))[1]

    def exchange(self, peer):
        return self.step("exchange", peer)[1]

    def hello(self, peer):
        return self.step("hello", peer)[1]

    def leave(self):
        return self.step("leave")[1]

    def watch(self, prefix, sub, capacity):
        """Returns the number of the watch."""
        reply, _ = self.step("watch", prefix, sub, capacity)
        reply.take(1)
        return reply.number()

    def changes(self, number):
        """Returns what the watch has noted."""
        reply, _ = self.step("changes", number)
        reply.take(1)
        return Changes(reply.number(), [reply.change() for _ in range(reply.number())])

    # What the node holds, without a step.

    def peek(self, key):
        return Fields(told("peek", self.slot, *key)).values()

    def list(self, prefix, sub):
        fields, keys = Fields(told("list", self.slot, prefix, sub)), []
        while fields.data:
            is_deleted = fields.number(1) == 1
            keys.append(Listed(fields.names(3), is_deleted))
        return keys

    def prefixes(self):
        fields, prefixes = Fields(told("prefixes", self.slot)), []
        while fields.data:
            prefixes.append(fields.names(2))
        return prefixes

    def neighbours(self):
        fields = Fields(told("neighbours", self.slot))
        return [fields.number(2) for _ in range(len(fields.data) // 2)]

    def root(self):
        return told("root", self.slot)

    def about(self):
        info = Info()
        call("about", self.slot, ctypes.byref(info))
        return info


class Driver:
    """A node that is driven by a plan, for one life: it ticks, joins, begins exchanges and gives silent members up.

    Times are milliseconds from any moment on, and never fall. Call on_time once the time has come that wake tells, on_frame when
    bytes come, and on_failure when a link fails; and after each call, also if it was refused, send what frames returns.
    """

    def __init__(self, node, now, tick=1_000, quiet=60_000):
        """The first tick is due now. A member that sends nothing for `quiet` counts as down: let it be longer than a tick for each."""
        self.node, self.plan, self.waiting = node, Slot(), []
        call("plan_begin", self.plan, now, tick, quiet)

    def __del__(self):
        LIBRARY.plan_end(self.plan)

    def add(self, now, member):
        call("plan_add", self.node.slot, self.plan, now, member)

    def remove(self, now, member):
        self.on_failure(now, member)
        call("plan_remove", self.plan, member)

    def wake(self):
        """From when on there is something to do, if nothing happens before."""
        at = ctypes.c_uint64()
        call("plan_wake", self.node.slot, self.plan, ctypes.byref(at))
        return at.value

    def on_time(self, now):
        self.drive("drive_time", now)

    def on_frame(self, now, frame):
        self.drive("drive_frame", now, frame)

    def on_failure(self, now, peer):
        self.drive("drive_failure", now, peer)

    def drive(self, name, *words):
        """Makes a call that is a batch, and fetches what it gave, also if it was refused."""
        try:
            call(name, self.node.slot, self.plan, *words, secrets.randbits(64))
        finally:
            self.waiting += self.node.given()[1]

    def frames(self):
        """The frames to send, of all calls since this was called last; those of calls of the node aren't among them."""
        frames, self.waiting = self.waiting, []
        return frames
