//! One process is one node of a cluster over TCP on the loopback, with a file of its own.
//!
//!     cargo run --release --offline --example cluster -- NODE NODES PORT FOLDER
//!
//! NODE is its number, from 0, of NODES; node N listens at PORT + N, and has the file FOLDER/node-N. At standard input it takes
//! the commands that `README.md` beside this file has, and prints a line for each. Frames are sealed under the key in FOLDER/key.
//!
//! The main thread owns the node, and takes one event after the other; threads that read sockets and the prompt send it events.

use std::error::Error;
use std::io::{self, Write};
use std::net::{Ipv4Addr, Shutdown, SocketAddr, TcpListener, TcpStream};
use std::sync::mpsc::{sync_channel, Receiver, RecvTimeoutError, SyncSender};
use std::sync::Arc;
use std::time::{Duration, Instant};
use std::{env, thread};
use zomtagi::{Driver, FileStore, Frame, Pace, SealKeys};

mod prompt;

const PACE: Pace = Pace { tick: 1_000, quiet: 60_000 };
/// How long a peer may take no byte, and a connection bring none.
const DEAF: Duration = Duration::from_secs(1);
const DUMB: Duration = Duration::from_secs(300);
/// How many connections are taken at once, how many events wait, and how many frames for a peer: what comes on top is lost.
const MOST_CONNECTIONS: usize = 64;
const MOST_WAITING: usize = 1024;

/// A frame, and where it came from; a peer that doesn't answer; or a line that was typed.
enum Event {
    Frame(Frame, Arc<TcpStream>),
    Down(u16),
    Line(String),
}

fn main() -> Result<(), Box<dyn Error>> {
    let words: Vec<String> = env::args().skip(1).collect();
    let [node, nodes, port, folder] = words.as_slice() else {
        return Err("usage: cluster NODE NODES PORT FOLDER".into());
    };
    let (number, nodes, port): (u16, u16, u16) = (node.parse()?, nodes.parse()?, port.parse()?);
    // (a service makes the file of a node once, by `create`, and then only opens it: docs/EMBEDDING.md)
    let mut node = FileStore::open_or_create(format!("{folder}/node-{number}"), number)?;
    node.set_keys(Some(SealKeys::read_or_create(format!("{folder}/key"))?));
    let (events, coming) = sync_channel(MOST_WAITING);
    listen(TcpListener::bind(("127.0.0.1", port + number))?, events.clone());
    let prompt = events.clone();
    thread::spawn(move || prompt::read(|line| prompt.send(Event::Line(line)).is_ok()));
    let links: Vec<_> = (0..16).map(|to| link(to, port, events.clone())).collect();
    prompt::reply(&format!("node {number} life {}", node.life()));
    let mut driver = Driver::new(node, 0, PACE)?;
    (0..nodes).try_for_each(|member| driver.add(0, member))?;
    Pump { driver, links, began: Instant::now(), watch: None }.run(&coming)
}

/// Takes connections; each has a thread that reads its frames.
fn listen(listener: TcpListener, events: SyncSender<Event>) {
    let open = Arc::new(());
    thread::spawn(move || {
        for stream in listener.incoming().flatten().map(Arc::new) {
            if Arc::strong_count(&open) > MOST_CONNECTIONS || stream.set_read_timeout(Some(DUMB)).is_err() {
                continue;
            }
            let (events, open) = (events.clone(), Arc::clone(&open));
            thread::spawn(move || {
                let _open = open;
                while let Ok(Some(frame)) = Frame::read(&mut &*stream, true) {
                    let _ = events.send(Event::Frame(frame, Arc::clone(&stream)));
                }
            });
        }
    });
}

/// Starts the thread that sends a peer its frames, so that a peer that takes none keeps nobody else waiting.
fn link(to: u16, port: u16, events: SyncSender<Event>) -> SyncSender<Frame> {
    let (frames, waiting) = sync_channel::<Frame>(MOST_WAITING);
    thread::spawn(move || {
        let mut stream: Option<TcpStream> = None;
        while let Ok(frame) = waiting.recv() {
            // (a connection may be one to an earlier life of the peer: then another is made)
            let mut write = |mut to: TcpStream| to.write_all(frame.bytes()).map(|()| to);
            stream = stream.map(&mut write).and_then(Result::ok).or_else(|| connect(port + to).and_then(&mut write).ok());
            if stream.is_none() {
                waiting.try_iter().for_each(drop);
                let _ = events.send(Event::Down(to));
            }
        }
    });
    frames
}

fn connect(port: u16) -> io::Result<TcpStream> {
    let stream = TcpStream::connect_timeout(&SocketAddr::from((Ipv4Addr::LOCALHOST, port)), DEAF)?;
    stream.set_nodelay(true)?;
    stream.set_write_timeout(Some(DEAF))?;
    Ok(stream)
}

struct Pump {
    driver: Driver,
    links: Vec<SyncSender<Frame>>,
    began: Instant,
    watch: Option<u64>,
}

impl Pump {
    /// Hands the driver one event after the other, and sends what it gives.
    fn run(mut self, coming: &Receiver<Event>) -> Result<(), Box<dyn Error>> {
        loop {
            if self.driver.wake() <= self.now() {
                self.driver.on_time(self.now())?;
                prompt::tell_changes(self.driver.node_mut(), self.watch)?;
            }
            let came = coming.recv_timeout(Duration::from_millis(self.driver.wake().saturating_sub(self.now())));
            let now = self.now();
            match came {
                Ok(Event::Frame(frame, from)) => match self.driver.on_frame(now, frame.bytes()) {
                    Err(error) if error.ends_node() => return Err(error.into()),
                    Err(error) if error.ends_stream() => drop(from.shutdown(Shutdown::Both)),
                    _ => {} // (a frame is refused without harm, whatever it says)
                },
                Ok(Event::Down(peer)) => self.driver.on_failure(now, peer)?,
                Ok(Event::Line(line)) if line.trim() == "quit" => return Ok(()),
                Ok(Event::Line(line)) => {
                    let frames = prompt::obey(&mut self.driver, now, &mut self.watch, &line)?;
                    self.send(frames)?;
                }
                Err(RecvTimeoutError::Timeout) => {}
                Err(RecvTimeoutError::Disconnected) => return Ok(()),
            }
            let frames = self.driver.frames();
            self.send(frames)?;
        }
    }

    fn now(&self) -> u64 {
        self.began.elapsed().as_millis() as u64
    }

    fn send(&mut self, frames: Vec<Frame>) -> Result<(), zomtagi::Error> {
        frames.into_iter().try_for_each(|frame| match (frame.to(), self.links[frame.to() as usize].try_send(frame)) {
            (to, Err(_)) => self.driver.on_failure(self.now(), to),
            _ => Ok(()),
        })
    }
}
