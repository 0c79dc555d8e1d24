//! The oracle over standard input and output: one command a line, one answer a line. See README.md.
use std::io::{BufRead, Write};
use std::sync::Mutex;
use std::sync::atomic::{AtomicU64, Ordering};
use yavs_interp::Machine;

/// Answers not written yet.
static OUT: Mutex<Vec<u8>> = Mutex::new(Vec::new());
static BEAT: AtomicU64 = AtomicU64::new(0);

fn main() {
    std::panic::set_hook(Box::new(|_| {}));
    let limit: u64 = std::env::var("ORACLE_SECONDS")
        .ok()
        .and_then(|s| s.parse().ok())
        .unwrap_or(10);
    // A command that runs longer than `limit` seconds ends the oracle with `hang`.
    std::thread::spawn(move || {
        let (mut seen, mut since) = (0, 0u64);
        loop {
            std::thread::sleep(std::time::Duration::from_millis(250));
            let b = BEAT.load(Ordering::Relaxed);
            if b % 2 == 1 && b == seen {
                since += 1;
                if since >= 4 * limit {
                    let mut b = OUT.lock().unwrap();
                    b.extend_from_slice(b"hang\n");
                    let _ = std::io::stdout().write_all(&b);
                    let _ = std::io::stdout().flush();
                    std::process::exit(3);
                }
            } else {
                since = 0;
            }
            seen = b;
        }
    });
    let mut machine = Machine::new();
    let stdin = std::io::stdin();
    let interactive = std::env::var_os("ORACLE_FLUSH").is_some();
    for line in stdin.lock().lines() {
        let Ok(line) = line else { break };
        let line = line.trim_end();
        if line.is_empty() || line.starts_with('#') {
            continue;
        }
        BEAT.fetch_add(1, Ordering::Relaxed);
        let out = machine.answer(line);
        BEAT.fetch_add(1, Ordering::Relaxed);
        let mut buf = OUT.lock().unwrap();
        buf.extend_from_slice(out.as_bytes());
        buf.push(b'\n');
        if interactive || buf.len() > 1 << 16 {
            let _ = std::io::stdout().write_all(&buf);
            let _ = std::io::stdout().flush();
            buf.clear();
        }
    }
    let buf = OUT.lock().unwrap();
    let _ = std::io::stdout().write_all(&buf);
    let _ = std::io::stdout().flush();
}
