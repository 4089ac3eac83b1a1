//! What the lines that are typed ask for.

use std::io::{self, BufRead, Write};
use std::time::{SystemTime, UNIX_EPOCH};
use zomtagi::{Driver, Error, Frame, Key, Node, Value};

const WORDS: &str = "put NAME VALUE, get NAME, del NAME, resolve NAME, list, watch, root, add NODE, remove NODE, leave or quit";

/// Hands on each line that is typed, and at the end one that ends the process.
pub fn read(tell: impl Fn(String) -> bool) {
    let lines = io::stdin().lock().lines().map_while(Result::ok).chain(["quit".into()]);
    lines.take_while(|line| tell(line.clone())).for_each(drop);
}

/// Does what a line asks for, and prints the answer. Returns the frames to send, or what ended the node: the next life begins
/// when the process is started again.
pub fn obey(driver: &mut Driver, now: u64, watch: &mut Option<u64>, line: &str) -> Result<Vec<Frame>, Error> {
    let (answer, frames) = match asked(driver, now, watch, line) {
        Err(error) if error.ends_node() => return Err(error),
        Err(error) => (format!("error {error}"), Vec::new()),
        Ok(Ok(frames)) => ("ok".into(), frames),
        Ok(Err(shown)) => (shown, Vec::new()),
    };
    reply(&answer);
    Ok(frames)
}

/// The frames of a command that is done, or what one shows.
fn asked(driver: &mut Driver, now: u64, watch: &mut Option<u64>, line: &str) -> Result<Result<Vec<Frame>, String>, Error> {
    let mut words = line.splitn(3, ' ');
    let (verb, name, rest) = (words.next().unwrap_or(""), words.next().unwrap_or(""), words.next().unwrap_or(""));
    let (key, member) = (Key::new("app", "shared", name), name.parse().unwrap_or(u16::MAX));
    let node = driver.node_mut();
    Ok(Ok(match verb {
        "put" => node.write_over(&key, &stamped(Value::text(rest)))?,
        "del" => node.write_over(&key, &stamped(Value::tombstone()))?,
        "resolve" => node.resolve(&key, |read| read.lww().cloned())?,
        "leave" => node.leave()?,
        "watch" => {
            *watch = Some(node.watch(b"app", b"shared", 1024)?);
            Vec::new()
        }
        "add" => driver.add(now, member).map(|()| Vec::new())?,
        "remove" => driver.remove(now, member).map(|()| Vec::new())?,
        "get" => return Ok(Err(shown(&node.peek(&key)?))),
        "list" => return Ok(Err(names(node)?)),
        "root" => return Ok(Err(node.root()?.iter().map(|byte| format!("{byte:02x}")).collect())),
        _ => return Ok(Err(WORDS.into())),
    }))
}

/// Prints what a watch has noted.
pub fn tell_changes(node: &mut Node, watch: Option<u64>) -> Result<(), Error> {
    let Some(watch) = watch else { return Ok(()) };
    for key in node.changes(watch)?.keys() {
        reply(&format!("changed {}", String::from_utf8_lossy(&key.name)));
    }
    Ok(())
}

/// Prints a line at once.
pub fn reply(line: &str) {
    println!("{line}");
    let _ = io::stdout().flush();
}

/// A value with the milliseconds of the clock as its stamp: `resolve` goes by it.
fn stamped(value: Value) -> Value {
    value.with_stamp(SystemTime::now().duration_since(UNIX_EPOCH).unwrap_or_default().as_millis() as u64)
}

/// The names that show a value.
fn names(node: &Node) -> Result<String, Error> {
    let keys = node.list(b"app", b"shared")?.into_iter().filter(|it| !it.is_deleted);
    Ok(keys.map(|it| String::from_utf8_lossy(&it.key.name).into_owned()).collect::<Vec<_>>().join(" "))
}

/// The siblings, as a line.
fn shown(values: &[Value]) -> String {
    let text = |value: &Value| match &value.body {
        Some(body) => String::from_utf8_lossy(body).into_owned(),
        None => "(deleted)".into(),
    };
    if values.is_empty() {
        return "(nothing)".into();
    }
    values.iter().map(text).collect::<Vec<_>>().join(" | ")
}
