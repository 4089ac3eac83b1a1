//! `examples/cluster.rs` as a process, beside peers and clients that misbehave.

mod common;

use common::{example, Folder};
use std::fs;
use std::io::{BufRead, BufReader, ErrorKind, Read, Write};
use std::net::{TcpListener, TcpStream};
use std::path::PathBuf;
use std::process::{Child, ChildStdin, Command, Stdio};
use std::sync::atomic::{AtomicU16, Ordering};
use std::sync::mpsc::{channel, Receiver};
use std::sync::{Mutex, PoisonError};
use std::thread;
use std::time::{Duration, Instant};
use zomtagi::{SealKeys, SEAL_LEN};

const SOON: Duration = Duration::from_secs(20);

/// Node 0 of two in a process; the test plays node 1.
struct Process {
    child: Child,
    prompt: ChildStdin,
    lines: Receiver<String>,
    port: u16,
    /// Where node 1 listens, and the keys that the process made.
    peer: TcpListener,
    keys: SealKeys,
    _folder: Folder,
}

impl Process {
    fn start(name: &str) -> Process {
        Process::start_of(name, 2)
    }

    fn start_of(name: &str, nodes: u16) -> Process {
        // (what another thread forks has a port of this one open until it has become another program)
        static ONE_AT_A_TIME: Mutex<()> = Mutex::new(());
        let _starting = ONE_AT_A_TIME.lock().unwrap_or_else(PoisonError::into_inner);
        let program = example("cluster");
        let (port, peer) = ports();
        let folder = Folder::new(name);
        let words = ["0".into(), nodes.to_string(), port.to_string(), folder.at("").display().to_string()];
        let mut child = Command::new(program).args(words).stdin(Stdio::piped()).stdout(Stdio::piped()).spawn().unwrap();
        let (told, lines) = channel();
        let printed = BufReader::new(child.stdout.take().unwrap());
        thread::spawn(move || printed.lines().map_while(Result::ok).try_for_each(|line| told.send(line)));
        let prompt = child.stdin.take().unwrap();
        assert_eq!(lines.recv_timeout(SOON).unwrap(), "node 0 life 1");
        let keys = SealKeys::read(folder.at("key")).unwrap();
        Process { child, prompt, lines, port, peer, keys, _folder: folder }
    }

    /// What it answers to a line.
    fn ask(&mut self, line: &str) -> String {
        writeln!(self.prompt, "{line}").unwrap();
        self.lines.recv_timeout(SOON).unwrap_or_else(|_| panic!("no answer to {line}"))
    }

    fn connect(&self) -> TcpStream {
        let stream = TcpStream::connect(("127.0.0.1", self.port)).unwrap();
        stream.set_read_timeout(Some(SOON)).unwrap();
        stream
    }

    /// What node 1 sends for a frame.
    fn sealed(&self, frame: &[u8]) -> Vec<u8> {
        self.keys.seal(frame).unwrap()
    }

    /// The memory that it has, in kB.
    fn memory(&self) -> u64 {
        let status = fs::read_to_string(PathBuf::from(format!("/proc/{}/status", self.child.id()))).unwrap();
        let line = status.lines().find(|line| line.starts_with("VmRSS:")).unwrap();
        line.split_whitespace().nth(1).unwrap().parse().unwrap()
    }
}

impl Drop for Process {
    fn drop(&mut self) {
        let _ = self.child.kill();
        let _ = self.child.wait();
    }
}

/// A port that is free, and the next one, at which node 1 listens.
fn ports() -> (u16, TcpListener) {
    static NEXT: AtomicU16 = AtomicU16::new(0);
    for _ in 0..1_000 {
        let port = 22_000 + (std::process::id() as u16 % 500 * 20 + NEXT.fetch_add(2, Ordering::Relaxed)) % 10_000;
        if let (Ok(_), Ok(peer)) = (TcpListener::bind(("127.0.0.1", port)), TcpListener::bind(("127.0.0.1", port + 1))) {
            return (port, peer);
        }
    }
    panic!("no port of the loopback is free");
}

/// A frame of this kind from node 1 to node 0, by `docs/FORMATS.md`.
fn frame(kind: u8, body: &[u8]) -> Vec<u8> {
    let mut frame = vec![0x50, 0x54, 2, kind, 0, 1, 0, 0, 0, 0, 0, 0, 0, 0, 0, 1];
    frame.extend((body.len() as u32).to_be_bytes());
    frame.extend(body);
    frame
}

/// The frame XWANT of a name under the prefix that the example has.
fn want(name: &str) -> Vec<u8> {
    let part = |text: &str| [&(text.len() as u16).to_be_bytes(), text.as_bytes()].concat();
    frame(18, &[part("app"), part("shared"), part(name)].concat())
}

/// Whether the other end closes the stream without having sent anything.
fn is_closed(mut stream: &TcpStream) -> bool {
    match stream.read(&mut [0]) {
        Ok(len) => len == 0,
        Err(error) => error.kind() == ErrorKind::ConnectionReset,
    }
}

#[test]
fn a_value_that_is_refused_ends_nothing() {
    let mut process = Process::start("refused-values");
    assert_eq!(
        process.ask(&format!("put long {}", "x".repeat(1025))),
        "error 2 ValueTooLong: a body has more than 1,024 bytes"
    );
    assert_eq!(process.ask("put  nameless"), "error 1 BadName: a part of a key is empty or too long");
    assert_eq!(process.ask(&format!("put {} x", "x".repeat(257))), "error 1 BadName: a part of a key is empty or too long");
    assert_eq!(process.ask("put short x"), "ok");
    assert_eq!(process.ask("get short"), "x");
}

#[test]
fn a_stream_with_bytes_that_are_no_frame_is_closed() {
    let process = Process::start("no-frames");
    let mut bytes = frame(4, b"");
    for (at, byte) in [(0, 0), (2, 9), (3, 99), (16, 1)] {
        let before = std::mem::replace(&mut bytes[at], byte);
        let mut stream = process.connect();
        stream.write_all(&process.sealed(&bytes)).unwrap();
        assert!(is_closed(&stream), "byte {at}");
        bytes[at] = before;
    }
    // So is one with a frame that no key of the cluster sealed.
    for bytes in [[&bytes[..], &[0; SEAL_LEN]].concat(), SealKeys::new([7; 32]).seal(&bytes).unwrap()] {
        let mut stream = process.connect();
        stream.write_all(&bytes).unwrap();
        assert!(is_closed(&stream));
    }
    // (a frame that is refused for what it says is no reason)
    let stream = process.connect();
    stream.set_read_timeout(Some(Duration::from_secs(1))).unwrap();
    bytes[7] = 2;
    (&stream).write_all(&process.sealed(&bytes)).unwrap();
    assert!(!is_closed(&stream));
}

#[test]
fn a_frame_takes_memory_as_it_comes() {
    let mut process = Process::start("long-frames");
    let mut header = frame(4, b"");
    header[16..20].copy_from_slice(&((1_u32 << 24) - 20).to_be_bytes());
    process.ask("root");
    let before = process.memory();
    let streams: Vec<TcpStream> = (0..8).map(|_| process.connect()).collect();
    for mut stream in &streams {
        stream.write_all(&header).unwrap();
    }
    thread::sleep(Duration::from_secs(1));
    process.ask("root");
    assert!(process.memory() - before < 16_000, "{} kB", process.memory() - before);
}

#[test]
fn not_more_connections_are_taken_than_are_of_use() {
    let mut process = Process::start("connections");
    let connect = || {
        let stream = process.connect();
        stream.set_read_timeout(Some(Duration::from_millis(20))).unwrap();
        stream
    };
    let streams: Vec<TcpStream> = (0..200).map(|_| connect()).collect();
    let open = || streams.iter().filter(|stream| !is_closed(stream)).count();
    soon(|| open() <= 100);
    assert!(open() >= 15);
    drop(streams);
    soon(|| !is_closed(&connect()));
    assert_eq!(process.ask("put a x"), "ok");
}

/// Waits until it is so.
fn soon(is_so: impl Fn() -> bool) {
    let began = Instant::now();
    while !is_so() {
        assert!(began.elapsed() < SOON);
    }
}

#[test]
fn a_flood_of_frames_does_not_keep_it_from_ticking() {
    let mut process = Process::start("flood");
    assert_eq!(process.ask(&format!("put wide {}", "x".repeat(1024))), "ok");
    let (before, began) = (process.memory(), Instant::now());
    // Node 1 wants the value all the time, on forty connections, and reads what it is sent.
    let flood = process.sealed(&want("wide")).repeat(1_000);
    for mut stream in (0..40).map(|_| process.connect()) {
        let flood = flood.clone();
        thread::spawn(move || while stream.write_all(&flood).is_ok() {});
    }
    // Each second node 0 begins an exchange, by a frame of kind 12.
    let (came, _) = process.peer.accept().unwrap();
    came.set_read_timeout(Some(SOON)).unwrap();
    let (mut came, mut exchanges) = (BufReader::with_capacity(1 << 20, came), 0);
    while exchanges < 3 {
        exchanges += u32::from(next_kind(&mut came) == 12);
        assert!(began.elapsed() < SOON, "{exchanges} exchanges");
    }
    // (nor are more frames read than it takes)
    assert!(process.memory() - before < 30_000, "{} kB", process.memory() - before);
}

/// The kind of the next frame.
fn next_kind(came: &mut impl Read) -> u8 {
    let mut header = [0; 20];
    came.read_exact(&mut header).unwrap();
    let mut body = vec![0; u32::from_be_bytes(header[16..].try_into().unwrap()) as usize + SEAL_LEN];
    came.read_exact(&mut body).unwrap();
    header[3]
}

#[test]
fn exchanges_go_round_while_it_joins_again_and_again() {
    // Node 2 isn't there, so node 0 has one neighbour at most, and joins again each second. Exchanges are of kind 12.
    let process = Process::start_of("turns", 3);
    let (mut came, _) = process.peer.accept().unwrap();
    came.set_read_timeout(Some(SOON)).unwrap();
    let began = Instant::now();
    while next_kind(&mut came) != 12 {
        assert!(began.elapsed() < SOON);
    }
}

#[test]
fn a_peer_that_reads_nothing_does_not_stop_it() {
    let mut process = Process::start("deaf");
    assert_eq!(process.ask(&format!("put wide {}", "x".repeat(1024))), "ok");
    // Node 1 wants the value twenty thousand times, and never reads.
    let (mut stream, frame) = (process.connect(), process.sealed(&want("wide")));
    let flood = thread::spawn(move || (0..20_000).try_for_each(|_| stream.write_all(&frame)));
    thread::sleep(Duration::from_secs(1));
    assert_eq!(process.ask("put a x"), "ok");
    assert_eq!(process.ask("get a"), "x");
    drop(process);
    let _ = flood.join();
}
