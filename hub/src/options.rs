//! The words of the command line.

use std::ffi::OsString;
use std::path::PathBuf;
use std::time::Duration;

/// How it is used.
pub const USAGE: &str = "\
usage: tsd-hub IMAGE PLACE --socket PATH [OPTION ...]
       tsd-hub --stats SOCKET
";

/// What the help says behind the usage.
pub const HELP: &str = "
Serves one disk to many processes at a Unix socket, each with a session of its own.

  IMAGE              the image of the disk
  PLACE              which free block is taken first: low, near, spread or zone
  --socket PATH      the socket's path, of at most 107 bytes; without it the socket is systemd's
  --mode MODE        the socket's mode in octal digits (600)
  --program PROGRAM  the program tsd
  --per-user N       how many sessions one user may have at once, 1 to 64 (16)
  --idle SECONDS     closes a client that asks nothing for so long (never)
  --metrics PATH     keeps the hub's numbers in this file, in Prometheus's form
  --stop-limit SECONDS
                     when it is stopped, kills a disk that doesn't end within this time (60)
  --stats SOCKET     prints the numbers of the hub at a socket
  --version          prints the version
  --help             prints this

Ends with the status of the disk's program, and with 1 where that was killed. Standard error has a line for each
connection and end, but not for more than 10 a second.
";

const PLACES: [&str; 4] = ["low", "near", "spread", "zone"];
const SESSIONS: usize = 64;
const MOST_SECONDS: f64 = 1e9;

/// What a hub is to do.
#[derive(Clone, Debug)]
pub struct Options {
    /// The image.
    pub image: String,
    /// The place.
    pub place: String,
    /// The socket's path.
    pub socket: Option<PathBuf>,
    /// Its mode.
    pub mode: u32,
    /// The program.
    pub program: Option<String>,
    /// Sessions of one user.
    pub per_user: usize,
    /// How long a client may ask nothing.
    pub idle: Option<Duration>,
    /// Where the numbers are kept.
    pub metrics: Option<PathBuf>,
    /// How long a stop waits for the disk.
    pub stop_limit: Duration,
}

/// What the command line asks for.
#[derive(Clone, Debug)]
pub enum Command {
    /// A hub.
    Serve(Options),
    /// The numbers of a hub at this socket.
    Stats(PathBuf),
    /// The help.
    Help,
    /// The version.
    Version,
}

/// What the words ask for, or why they are no command.
pub fn parse(words: impl Iterator<Item = OsString>) -> Result<Command, String> {
    let mut words = words.map(|word| word.into_string().map_err(|word| format!("{word:?} isn't UTF-8")));
    let mut given = Options {
        image: String::new(),
        place: String::new(),
        socket: None,
        mode: 0o600,
        program: None,
        per_user: 16,
        idle: None,
        metrics: None,
        stop_limit: Duration::from_secs(60),
    };
    let mut plain = Vec::new();
    while let Some(word) = words.next() {
        let word = word?;
        let (name, mut value) = match word.split_once('=') {
            Some((name, value)) if name.starts_with("--") => (name.to_owned(), Some(value.to_owned())),
            _ => (word.clone(), None),
        };
        let mut value = || match value.take() {
            Some(value) => Ok(value),
            None => words.next().unwrap_or_else(|| Err(format!("{name} wants a value"))),
        };
        match name.as_str() {
            "--help" | "-h" => return Ok(Command::Help),
            "--version" => return Ok(Command::Version),
            "--stats" => return Ok(Command::Stats(value()?.into())),
            "--socket" => given.socket = Some(value()?.into()),
            "--mode" => given.mode = mode(&value()?)?,
            "--program" => given.program = Some(value()?),
            "--per-user" => given.per_user = per_user(&value()?)?,
            "--idle" => given.idle = Some(seconds("--idle", &value()?)?),
            "--metrics" => given.metrics = Some(value()?.into()),
            "--stop-limit" => given.stop_limit = seconds("--stop-limit", &value()?)?,
            _ if word.starts_with("--") => return Err(format!("{word} is no option")),
            _ => plain.push(word),
        }
    }
    let [image, place]: [String; 2] = plain.try_into().map_err(|_| "an image and a place are wanted".to_owned())?;
    if !PLACES.contains(&place.as_str()) {
        return Err(format!("a place is {}, not {place:?}", PLACES.join(", ")));
    }
    (given.image, given.place) = (image, place);
    Ok(Command::Serve(given))
}

fn mode(text: &str) -> Result<u32, String> {
    let value = u32::from_str_radix(text, 8).ok().filter(|value| *value <= 0o777);
    value.ok_or(format!("--mode wants octal digits up to 777, not {text:?}"))
}

fn per_user(text: &str) -> Result<usize, String> {
    let value = text.parse().ok().filter(|value| (1..=SESSIONS).contains(value));
    value.ok_or(format!("--per-user wants a number from 1 to {SESSIONS}, not {text:?}"))
}

fn seconds(name: &str, text: &str) -> Result<Duration, String> {
    let value = text.parse::<f64>().ok().filter(|value| *value > 0.0 && *value <= MOST_SECONDS);
    value.map(Duration::from_secs_f64).ok_or(format!("{name} wants a number of seconds above 0, not {text:?}"))
}
