//! `examples/cluster.rs` as three processes and a fourth: what users do with shared settings.

mod common;

use common::{example, Folder};
use std::io::{BufRead, BufReader, Write};
use std::net::TcpListener;
use std::process::{Child, ChildStdin, Command, Stdio};
use std::sync::mpsc::{channel, Receiver};
use std::thread;
use std::time::{Duration, Instant};

const SOON: Duration = Duration::from_secs(60);

/// A node in a process, which begins with so many nodes as members.
struct Member {
    child: Child,
    prompt: ChildStdin,
    lines: Receiver<String>,
}

impl Member {
    fn start(folder: &Folder, port: u16, number: u16, nodes: u16, life: u32) -> Member {
        let program = example("cluster");
        let words = [number.to_string(), nodes.to_string(), port.to_string(), folder.at("").display().to_string()];
        let mut child = Command::new(program).args(words).stdin(Stdio::piped()).stdout(Stdio::piped()).spawn().unwrap();
        let (told, lines) = channel();
        let printed = BufReader::new(child.stdout.take().unwrap());
        thread::spawn(move || printed.lines().map_while(Result::ok).try_for_each(|line| told.send(line)));
        let prompt = child.stdin.take().unwrap();
        assert_eq!(lines.recv_timeout(SOON).unwrap(), format!("node {number} life {life}"));
        Member { child, prompt, lines }
    }

    /// What it answers to a line.
    fn ask(&mut self, line: &str) -> String {
        writeln!(self.prompt, "{line}").unwrap();
        self.next_line()
    }

    fn next_line(&self) -> String {
        self.lines.recv_timeout(SOON).unwrap()
    }

    /// Asks until this is the answer.
    fn comes_to(&mut self, line: &str, wanted: &str) {
        let began = Instant::now();
        loop {
            let answer = self.ask(line);
            if answer == wanted {
                return;
            }
            assert!(began.elapsed() < SOON, "{line}: {answer} and not {wanted}");
            thread::sleep(Duration::from_millis(50));
        }
    }

    /// Kills it as the system would.
    fn kill(mut self) {
        self.child.kill().unwrap();
        self.child.wait().unwrap();
    }
}

impl Drop for Member {
    fn drop(&mut self) {
        let _ = self.child.kill();
        let _ = self.child.wait();
    }
}

/// The first of four ports that are free.
fn free_ports(from: u16) -> u16 {
    let is_free = |port: u16| (port..port + 4).all(|port| TcpListener::bind(("127.0.0.1", port)).is_ok());
    (0..500).map(|turn| from + (std::process::id() as u16 % 500 + turn) % 500 * 4).find(|port| is_free(*port)).unwrap()
}

/// Waits until both hold the same.
fn agree(one: &mut Member, other: &mut Member) {
    let began = Instant::now();
    while one.ask("root") != other.ask("root") {
        assert!(began.elapsed() < SOON);
        thread::sleep(Duration::from_millis(50));
    }
}

#[test]
fn settings_are_shared_deleted_and_kept_through_a_kill() {
    let (folder, port) = (Folder::new("settings"), free_ports(34_000));
    let [mut zero, mut one, mut two] = [0, 1, 2].map(|number| Member::start(&folder, port, number, 3, 1));
    assert_eq!(zero.ask("put dark on"), "ok");
    assert_eq!(zero.ask("put beta off"), "ok");
    one.comes_to("get dark", "on");
    two.comes_to("list", "beta dark");
    assert_eq!(two.ask("del beta"), "ok");
    zero.comes_to("list", "dark");
    assert_eq!(zero.ask("get beta"), "(deleted)");

    // What was acknowledged is there after a kill, and what was written meanwhile comes.
    assert_eq!(one.ask("put limit 10"), "ok");
    one.kill();
    assert_eq!(zero.ask("put dark off"), "ok");
    let mut one = Member::start(&folder, port, 1, 3, 2);
    assert_eq!(one.ask("get limit"), "10");
    one.comes_to("get dark", "off");
    agree(&mut zero, &mut one);

    // A fourth node comes, and one goes.
    let mut three = Member::start(&folder, port, 3, 4, 1);
    for member in [&mut zero, &mut one, &mut two] {
        assert_eq!(member.ask("add 3"), "ok");
    }
    three.comes_to("list", "dark limit");
    assert_eq!(two.ask("leave"), "ok");
    two.kill();
    for member in [&mut zero, &mut one, &mut three] {
        assert_eq!(member.ask("remove 2"), "ok");
    }
    assert_eq!(three.ask("put limit 20"), "ok");
    zero.comes_to("get limit", "20");
    one.comes_to("get limit", "20");
    assert_eq!(zero.ask("add 16"), "error 3 BadNode: no number from 0 to 15, or the node's own");
}

#[test]
fn siblings_are_seen_and_resolved_and_changes_are_watched() {
    let (folder, port) = (Folder::new("siblings"), free_ports(36_500));
    // Neither knows of the other.
    let [mut zero, mut two] = [0, 2].map(|number| Member::start(&folder, port, number, 0, 1));
    assert_eq!(zero.ask("put colour red"), "ok");
    thread::sleep(Duration::from_millis(5)); // (the second one's stamp is greater)
    assert_eq!(two.ask("put colour blue"), "ok");
    assert_eq!((zero.ask("add 2"), two.ask("add 0")), ("ok".into(), "ok".into()));
    zero.comes_to("get colour", "red | blue");
    two.comes_to("get colour", "red | blue");
    assert_eq!(two.ask("watch"), "ok");
    assert_eq!(zero.ask("resolve colour"), "ok");
    assert_eq!(zero.ask("get colour"), "blue");
    assert_eq!(two.next_line(), "changed colour");
    assert_eq!(two.ask("get colour"), "blue");
}
