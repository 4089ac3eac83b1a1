//! A process that serves node 3 from a file, and writes until it is killed: `scripts/two-starts` starts two of them at once.
//!
//!     cargo run --release --offline --example starts -- PATH
//!
//! It prints `life N` of the life that it has begun; `held L C` for each life L of which the file has writes, and their number C;
//! `begun`; and `wrote C` once its write of that number, from 1, was acknowledged. If the file is in use, it exits with 3.

use std::error::Error;
use std::io::{self, Write};
use std::process::exit;
use zomtagi::{FileStore, Key, Listed, Value};

fn main() -> Result<(), Box<dyn Error>> {
    let path = std::env::args().nth(1).ok_or("usage: starts PATH")?;
    let mut node = match FileStore::open_or_create(path, 3) {
        Err(zomtagi::Error::InUse) => exit(3),
        served => served?,
    };
    let life = node.life();
    tell(&format!("life {life}"))?;
    for Listed { key, .. } in node.list(b"starts", b"lives")? {
        let values = node.peek(&key)?;
        let [Value { body: Some(count), .. }] = values.as_slice() else {
            return Err(format!("{key:?} has {values:?}").into());
        };
        tell(&format!("held {} {}", String::from_utf8_lossy(&key.name), String::from_utf8_lossy(count)))?;
    }
    tell("begun")?;
    let key = Key::new("starts", "lives", life.to_string());
    for count in 1_u64.. {
        node.write_over(&key, &Value::text(count.to_string()))?;
        tell(&format!("wrote {count}"))?;
    }
    Ok(())
}

/// Prints a line at once.
fn tell(line: &str) -> io::Result<()> {
    let mut out = io::stdout();
    out.write_all(format!("{line}\n").as_bytes())?;
    out.flush()
}
