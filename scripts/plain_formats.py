"""Frames and node files in plain Python, for scripts/fuzz to compare with: written from docs/FORMATS.md, not from the
crates."""
import hashlib

KINDS = (
    "GOSSIP IHAVE GRAFT PRUNE JOIN FORWARDJOIN DISCONNECT NEIGHBOR NEIGHBORREPLY SHUFFLE SHUFFLEREPLY XROOT XPREFIXES XINNER "
    "XLEAVES XBUCKET XOBJECT XWANT HELLO BYE"
).split()
PLAIN = set(b"ABCDEFGHIJKLMNOPQRSTUVWXYZabcdefghijklmnopqrstuvwxyz0123456789._-")
MOST = 16_777_216


class Fault(Exception):
    """The field that begins at `at` is at fault."""

    def __init__(self, at):
        super().__init__(at)
        self.at = at


def text(name):
    """Bytes of a name, a key or a value, as they are printed."""
    return name.decode() if name and set(name) <= PLAIN else "hex:" + name.hex()


def listed(items):
    return ",".join(items) or "-"


class Body:
    """Fields, read from the front. The writers of version 1 of a node file are nodes alone."""

    def __init__(self, data, at, has_lives=True):
        self.data, self.at, self.has_lives = data, at, has_lives

    def take(self, count):
        if self.at + count > len(self.data):
            raise Fault(self.at)
        self.at += count
        return self.data[self.at - count : self.at]

    def number(self, count, least=0, most=2**64):
        start, value = self.at, int.from_bytes(self.take(count), "big")
        if not least <= value <= most:
            raise Fault(start)
        return value

    def name(self, most):
        return self.take(self.number(2, 1, most))

    def prefix(self):
        return self.name(64), self.name(64)

    def key(self):
        return (*self.prefix(), self.name(256))

    def writer(self, last):
        """A writer behind the last one, and its counter."""
        node = self.number(2, last[0] if last else 0, 15)
        if self.has_lives:
            life = self.number(4, last[1] + 1 if last and last[0] == node else 0, 2**32 - 1)
        elif last and last[0] == node:
            raise Fault(self.at - 2)
        else:
            life = 0
        return (node, life), self.number(8, 1)

    def vector(self):
        pairs, last = [], None
        for _ in range(self.number(2, 1)):
            last, count = self.writer(last)
            pairs.append(f"{last[0]}.{last[1]}:{count}")
        return listed(pairs)

    def value(self):
        tag, stamp = self.number(1, 0, 1), self.number(8)
        said = text(self.take(self.number(2, 0, 1024))) if tag else "~"
        return said + (f"@{stamp}" if stamp else "")

    def object(self):
        start, pairs, values, last = self.at, [], [], None
        for _ in range(self.number(2, 1)):
            last, count = self.writer(last)
            pairs.append(f"{last[0]}.{last[1]}:{count}")
            values += [self.value() for _ in range(self.number(2, 0, count))]
        if not values:
            raise Fault(start)
        return f"ctx {listed(pairs)} values {listed(values)}"

    def nodes(self):
        return listed([str(self.number(2, 0, 15)) for _ in range(self.number(2, 0, 16))])

    def digests(self, count):
        return listed([self.take(32).hex() for _ in range(count)])

    def prefixes(self):
        rows, last = [], None
        for _ in range(self.number(2, 0, 8192)):
            first = self.name(64)
            if last and first < last[0]:
                raise Fault(self.at - len(first))
            second = self.name(64)
            if last and (first, second) <= last:
                raise Fault(self.at - len(second))
            last = first, second
            rows.append(f"{text(first)}/{text(second)}={self.take(32).hex()}")
        return listed(rows)

    def keys(self):
        rows, last = [], b""
        for _ in range(self.number(2, 0, 8192)):
            own = self.name(256)
            if own <= last:
                raise Fault(self.at - len(own))
            last = own
            rows.append(f"{text(own)}={self.take(32).hex()}")
        return listed(rows)


def path(names):
    return "/".join(map(text, names))


def fields(kind, body):
    """The fields of a frame of this kind, printed."""
    if kind == "GOSSIP":
        return f" round {body.number(2)} key {path(body.key())} {body.object()}"
    if kind in ("IHAVE", "GRAFT"):
        return f" round {body.number(2)} key {path(body.key())} ctx {body.vector()}"
    if kind == "FORWARDJOIN":
        return f" node {body.number(2, 0, 15)} ttl {body.number(1)}"
    if kind == "NEIGHBOR":
        return f" priority {('low', 'high')[body.number(1, 0, 1)]}"
    if kind == "NEIGHBORREPLY":
        return f" answer {('no', 'yes')[body.number(1, 0, 1)]}"
    if kind == "SHUFFLE":
        return f" origin {body.number(2, 0, 15)} ttl {body.number(1)} nodes {body.nodes()}"
    if kind == "SHUFFLEREPLY":
        return f" nodes {body.nodes()}"
    if kind == "HELLO":
        return f" life {body.number(4, 1)}"
    return exchange_fields(kind, body)


def exchange_fields(kind, body):
    """The fields of a frame of an exchange; other kinds have none."""
    if kind == "XROOT":
        return f" root {body.digests(1)}"
    if kind == "XPREFIXES":
        return f" prefixes {body.prefixes()}"
    if kind == "XINNER":
        return f" prefix {path(body.prefix())} digests {body.digests(16)}"
    if kind == "XLEAVES":
        return f" prefix {path(body.prefix())} inner {body.number(1, 0, 15)} digests {body.digests(16)}"
    if kind == "XBUCKET":
        return f" prefix {path(body.prefix())} leaf {body.number(1)} keys {body.keys()}"
    if kind == "XOBJECT":
        return f" key {path(body.key())} {body.object()}"
    return f" key {path(body.key())}" if kind == "XWANT" else ""


def header_fault(frame):
    """Why these bytes are no frame by their header, if they are none."""
    if len(frame) < 20:
        return "10 Short"
    if frame[:2] != b"PT":
        return "11 BadMagic"
    if frame[2] != 2:
        return "12 BadVersion"
    if not 1 <= frame[3] <= len(KINDS):
        return "13 BadKind"
    size = 20 + int.from_bytes(frame[16:20], "big")
    if size > MOST:
        return "14 TooLong"
    return "" if len(frame) == size else "10 Short" if len(frame) < size else "16 LeftOver"


def frame_line(line):
    """What `plumctl frame` answers to a line."""
    digits = line.replace(b" ", b"")
    if len(digits) % 2 or not set(digits) <= set(b"0123456789abcdefABCDEF"):
        return "error 9 BadHex"
    frame = bytes.fromhex(digits.decode())
    fault = header_fault(frame)
    if fault:
        return f"error {fault}"
    body = Body(frame, 4)
    try:
        sender, start = body.number(2, 0, 15), body.at
        if (to := body.number(2, 0, 15)) == sender:
            raise Fault(start)
        number, _ = body.number(8), body.number(4)
        said = f"{KINDS[frame[3] - 1]} from {sender} to {to} number {number}" + fields(KINDS[frame[3] - 1], body)
        if body.at < len(frame):
            raise Fault(body.at)
        return said
    except Fault as fault:
        return f"error 15 BadBody at {fault.at}"


def record(payload, version, life, table):
    """Puts a payload into the table, and returns the last life; a fault if it says nothing, or its life doesn't rise."""
    body = Body(payload, 0, version == 2)
    if version == 2 and body.number(1, 0, 1) == 0:
        life = body.number(4, life + 1)
    else:
        key = body.key()
        table[key] = body.object()
    if body.at < len(payload):
        raise Fault(body.at)
    return life


def file_lines(data):
    """What `plumctl file` prints of these bytes, except the line of the root."""
    if len(data) < 11:
        return [f"error 31 Damaged at {len(data)}"]
    version = {b"PMNODE01": 1, b"PMNODE02": 2}.get(data[:8])
    if not version:
        return ["error 31 Damaged at 0"]
    node, gate, life, table = int.from_bytes(data[8:10], "big"), 10, 0, {}
    if node > 15:
        return ["error 31 Damaged at 8"]
    while data[gate : gate + 1] == b"\x01":
        size = int.from_bytes(data[gate + 1 : gate + 5], "big")
        payload, digest = data[gate + 5 : gate + 5 + size], data[gate + 5 + size : gate + 37 + size]
        if len(digest) < 32 or size > MOST or hashlib.sha256(payload).digest() != digest:
            return [f"error 31 Damaged at {gate}"]
        try:
            life = record(payload, version, life, table)
        except Fault:
            return [f"error 31 Damaged at {gate}"]
        gate += 37 + size
    if gate >= len(data):
        return [f"error 31 Damaged at {gate}"]
    if len(table) > 8192:
        return ["error 25 StoreFull"]
    rows = [f"key {path(key)} {shown}" for key, shown in sorted(table.items())]
    return [f"node {node} life {life} keys {len(table)}", *rows]


def whole_record(data, at, version):
    """The number of bytes of the record that begins here, from its length to its digest; 0 if none stands here whole."""
    size = int.from_bytes(data[at : at + 4], "big")
    payload, digest = data[at + 4 : at + 4 + size], data[at + 4 + size : at + 36 + size]
    if len(digest) < 32 or size > MOST or hashlib.sha256(payload).digest() != digest:
        return 0
    try:
        record(payload, version, 0, {})
    except Fault:
        return 0
    return 36 + size


def changed_gate(data):
    """The offset of the gate that ends a file which `file_lines` shows, if what stands behind it says that it was changed: any
    whole record if the gate isn't 0; otherwise a whole record before an open gate, or two of them."""
    version, gate = 1 if data[:8] == b"PMNODE01" else 2, 10
    while data[gate] == 1:
        gate += 37 + int.from_bytes(data[gate + 1 : gate + 5], "big")
    first = whole_record(data, gate + 1, version)
    behind = gate + 1 + first
    goes_on = data[behind : behind + 1] == b"\x01" or behind < len(data) and whole_record(data, behind + 1, version)
    return gate if first and (data[gate] != 0 or goes_on) else None
