//! `tsd-hub`: one disk for many processes, at a Unix socket. `python/tsd/hub` is its specification, and `README.md` in
//! this folder says why there are two.

mod buffer;
mod client;
mod disk;
mod frames;
mod hub;
mod limits;
mod listening;
mod log;
mod options;
mod programs;
mod stats;
mod system;

use std::io::{Read, Write};
use std::os::unix::net::UnixStream;
use std::path::Path;
use std::process::exit;
use std::time::Duration;

use options::{parse, Command, HELP, USAGE};

const FAILED: i32 = 1;
const NO_COMMAND: i32 = 2;
const TIME_TO_ANSWER: Duration = Duration::from_secs(60);

fn main() {
    let status = match parse(std::env::args_os().skip(1)) {
        Ok(Command::Help) => printed(&format!("{USAGE}{HELP}")),
        Ok(Command::Version) => printed(concat!("tsd-hub ", env!("CARGO_PKG_VERSION"), " (compiled)\n")),
        Ok(Command::Stats(path)) => match stats_of(&path) {
            Ok(text) => printed(&text),
            Err(why) => failed(&format!("{}: {why}", path.display())),
        },
        Ok(Command::Serve(given)) => hub::serve(&given).unwrap_or_else(|why| match why {
            hub::NotServed::NoSocket => {
                failed("no --socket was given, and none comes from systemd");
                NO_COMMAND
            }
            hub::NotServed::Failed(why) => failed(&why),
        }),
        Err(why) => {
            eprintln!("{USAGE}tsd-hub: {why}");
            NO_COMMAND
        }
    };
    exit(status);
}

fn printed(text: &str) -> i32 {
    i32::from(std::io::stdout().write_all(text.as_bytes()).is_err())
}

fn failed(why: &str) -> i32 {
    eprintln!("tsd-hub: {why}");
    FAILED
}

/// The numbers of the hub at a socket, or why it has none for this process.
fn stats_of(path: &Path) -> Result<String, String> {
    let body = asked(path).map_err(|error| error.to_string())?;
    if let Some(text) = body.strip_prefix(frames::STATS) {
        return Ok(String::from_utf8_lossy(text).into_owned());
    }
    Err(match body.as_slice() {
        frames::NO_REQUEST => "this hub tells its numbers to its own user and to root alone, or is an older one".into(),
        [_, _, _, _, _, _, words @ ..] if !words.is_empty() => String::from_utf8_lossy(words).into_owned(),
        _ => "the hub has no place left, or ends".into(),
    })
}

fn asked(path: &Path) -> std::io::Result<Vec<u8>> {
    let mut hub = UnixStream::connect(path)?;
    hub.set_read_timeout(Some(TIME_TO_ANSWER))?;
    let mut request = Vec::new();
    frames::put_frame(frames::STATS, &mut request);
    // A hub that is full tells that before it takes anything.
    let _ = hub.write_all(&request);
    let mut length = [0; frames::LENGTH_BYTES];
    hub.read_exact(&mut length)?;
    let mut body = vec![0; usize::from(u16::from_le_bytes(length))];
    hub.read_exact(&mut body)?;
    Ok(body)
}
