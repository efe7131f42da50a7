//! The cases of clients/cases.txt over the program and over a hub, and links that end. TSD_PROGRAM names the program
//! (the shipped one where it isn't set), TSD_HUB the hub's command.

mod table;
mod told;

use std::io::{Read, Write};
use std::os::unix::fs::PermissionsExt;
use std::os::unix::net::UnixListener;
use std::path::{Path, PathBuf};
use std::process::{Child, Command, Stdio};
use std::time::{Duration, Instant};
use std::{fs, thread};

use table::{Case, LinkCase, Sender};
use tsd_client::{requests, requests::Request, Capability, Disk, Error, LinkError, Options, Refusal, Reply};

const SEED: &str = "000102030405060708090a0b0c0d0e0f101112131415161718191a1b1c1d1e1f";
const LIMIT: Duration = Duration::from_secs(60);
const OPEN_FRAME: usize = 7;

/// A folder of its own, in memory where that can be, that goes at the end.
struct Folder(PathBuf);

impl Folder {
    fn new(name: &str) -> Self {
        let memory = Path::new("/dev/shm");
        let place = if memory.is_dir() { memory.to_owned() } else { std::env::temp_dir() };
        let path = place.join(format!("tsd-rust-{name}-{}", std::process::id()));
        fs::create_dir_all(&path).unwrap();
        Self(path)
    }

    fn path(&self, name: &str) -> PathBuf {
        self.0.join(name)
    }
}

impl Drop for Folder {
    fn drop(&mut self) {
        let _ = fs::remove_dir_all(&self.0);
    }
}

fn top() -> PathBuf {
    Path::new(env!("CARGO_MANIFEST_DIR")).join("../..")
}

fn program() -> PathBuf {
    std::env::var_os("TSD_PROGRAM").map_or_else(|| top().join("dist/x86_64-linux/tsd"), PathBuf::from)
}

/// Makes a disk; the capabilities of its primary blocks, R0 and W0 first.
fn format(image: &Path, size: &[String]) -> Vec<Capability> {
    let done = Command::new(program()).arg(image).arg("format").args(size).arg(SEED).output().unwrap();
    assert!(done.status.success(), "{done:?}");
    let text = String::from_utf8(done.stdout).unwrap();
    let digits = text.lines().flat_map(|line| line.split(' ').skip(2));
    digits.map(|digits| Capability::from_hex(digits).unwrap()).collect()
}

/// A hub that runs over an image; it goes at the end.
struct Hub {
    child: Child,
    socket: PathBuf,
}

impl Hub {
    /// `None` where there is no Python.
    fn start(image: &Path, socket: PathBuf) -> Option<Self> {
        let command = std::env::var("TSD_HUB").map_or_else(|_| top().join("python/bin/tsd-hub"), PathBuf::from);
        let mut started = Command::new(command);
        started.arg(image).args(["near", "--socket"]).arg(&socket).env("TSD_PROGRAM", program());
        let child = started.stderr(Stdio::null()).spawn().ok()?;
        let hub = Self { child, socket };
        let until = Instant::now() + LIMIT;
        while !hub.socket.exists() {
            assert!(Instant::now() < until, "the hub doesn't open its socket");
            thread::sleep(Duration::from_millis(5));
        }
        Some(hub)
    }
}

impl Drop for Hub {
    fn drop(&mut self) {
        let _ = self.child.kill();
        let _ = self.child.wait();
    }
}

/// A request that was sent: its reply as a line, once it is there.
type Answer<'a> = Box<dyn FnOnce() -> String + 'a>;

fn asked<R: Request>(disk: &Disk, session: u32, request: R, reply: fn(R::Answer) -> Reply) -> Answer<'_>
where
    R::Answer: 'static,
{
    let pending = disk.ask(request, session);
    Box::new(move || match pending.and_then(tsd_client::Pending::wait) {
        Ok(answer) => told::reply(&reply(answer)),
        Err(error) => told::error(&error),
    })
}

/// Sends the request of a line of the table.
fn ask<'a>(disk: &'a Disk, line: &str, caps: &[Capability]) -> Answer<'a> {
    let words: Vec<&str> = line.split(' ').collect();
    let number = |at: usize| -> u32 { words[at].parse().expect("a number") };
    let shown = |at: usize| capability(words[at], caps);
    let done: fn(()) -> Reply = |()| Reply::Done;
    if words[0] == "free" {
        return asked(disk, 0, requests::GetFree, Reply::Free);
    }
    let session = number(1);
    match words[0] {
        "open" => asked(disk, session, requests::Begin, done),
        "close" => asked(disk, session, requests::End, done),
        "sweep" => asked(disk, session, requests::Sweep { cap: shown(2).as_ref() }, Reply::Gone),
        "read" => asked(disk, session, requests::Read { block: number(2), cap: shown(3).as_ref() }, Reply::Bytes),
        "write" => {
            let (cap, data) = (shown(3), table::bytes(words[4]));
            asked(disk, session, requests::Write { block: number(2), data: &data, cap: cap.as_ref() }, done)
        }
        "setcap" => {
            let (cap, read, write) = (shown(3), shown(4).unwrap(), shown(5).unwrap());
            let request = requests::SetCapabilities { block: number(2), read: &read, write: &write, cap: cap.as_ref() };
            asked(disk, session, request, done)
        }
        _ => ask_of_pointers(disk, &words, shown(3).as_ref()),
    }
}

fn ask_of_pointers<'a>(disk: &'a Disk, words: &[&str], cap: Option<&Capability>) -> Answer<'a> {
    let number = |at: usize| -> u32 { words[at].parse().expect("a number") };
    let (session, source) = (number(1), number(2));
    match words[0] {
        "create" => asked(disk, session, requests::Create { source, target: number(4), cap }, |()| Reply::Done),
        "delete" => asked(disk, session, requests::Delete { source, target: number(4), cap }, Reply::Gone),
        "list" => asked(disk, session, requests::List64 { source, start: number(4), cap }, Reply::Targets),
        word => {
            let hint = (words[4] != "-").then(|| number(4));
            let count = number(5);
            if word == "alloc" {
                asked(disk, session, requests::Alloc { source, count, hint, cap }, Reply::Blocks)
            } else {
                assert_eq!("contig", word);
                asked(disk, session, requests::AllocContiguous { source, count, hint, cap }, Reply::Blocks)
            }
        }
    }
}

/// A capability of the table: `-` for none, R0 and W0 of block 0, or digits.
fn capability(word: &str, caps: &[Capability]) -> Option<Capability> {
    if word == "-" {
        return None;
    }
    let of_block = |text: &str| text.parse::<usize>().ok();
    match (word.strip_prefix('R').and_then(of_block), word.strip_prefix('W').and_then(of_block)) {
        (Some(block), _) => Some(caps[2 * block].clone()),
        (_, Some(block)) => Some(caps[2 * block + 1].clone()),
        _ => Some(Capability::from_hex(word).unwrap()),
    }
}

fn try_case(case: &Case, caps: &[Capability], disk: &Disk, is_together: bool) {
    let mut waiting = Vec::new();
    for (request, reply) in &case.steps {
        let answer = ask(disk, request, caps);
        if is_together {
            waiting.push((request, reply, answer));
        } else {
            assert_eq!(*reply, answer(), "{}: {request}", case.name);
        }
    }
    for (request, reply, answer) in waiting {
        assert_eq!(*reply, answer(), "{}, together: {request}", case.name);
    }
}

#[test]
fn each_case_over_the_program() {
    let folder = Folder::new("program");
    for case in table::read().cases {
        for is_together in [false, true] {
            let image = folder.path("disk.img");
            let caps = format(&image, &case.disk);
            let disk = Options::new().program(program()).open(&image).unwrap();
            try_case(&case, &caps, &disk, is_together);
            assert_eq!(Ok(()), disk.close(), "{}", case.name);
        }
    }
}

#[test]
fn each_case_over_a_hub() {
    let folder = Folder::new("hub");
    for (at, case) in table::read().cases.into_iter().filter(|case| !case.is_alone).enumerate() {
        for is_together in [false, true] {
            let image = folder.path(&format!("{at}-{is_together}.img"));
            let caps = format(&image, &case.disk);
            let Some(hub) = Hub::start(&image, image.with_extension("sock")) else {
                eprintln!("skipped: the hub can't be started; TSD_HUB names it");
                return;
            };
            let disk = Disk::connect(&hub.socket).unwrap();
            try_case(&case, &caps, &disk, is_together);
            assert_eq!(Ok(()), disk.close(), "{}", case.name);
        }
    }
}

/// A program that takes the frame of an opening, sends bytes, and ends.
fn fake_program(path: &Path, sent: &[u8], end: &str) {
    let bytes: String = sent.iter().map(|byte| format!("\\{byte:03o}")).collect();
    let text = format!(
        "#!/bin/sh\n[ \"$1\" != help ] || exit 2\nhead -c {OPEN_FRAME} >/dev/null\nprintf '{bytes}'\n\
         echo 'tsd: device fault' >&2\n{end}\n"
    );
    fs::write(path, text).unwrap();
    fs::set_permissions(path, fs::Permissions::from_mode(0o755)).unwrap();
}

/// A hub that does so.
fn fake_hub(path: &Path, sent: Vec<u8>) -> thread::JoinHandle<()> {
    let _ = fs::remove_file(path);
    let listener = UnixListener::bind(path).unwrap();
    thread::spawn(move || {
        let (mut stream, _) = listener.accept().unwrap();
        stream.read_exact(&mut [0; OPEN_FRAME]).unwrap();
        // The client may go before all is sent.
        let _ = stream.write_all(&sent);
    })
}

/// What comes of an opening, or else of the closing.
fn end_of(disk: Disk) -> String {
    let opened = disk.session(1).map(drop);
    match opened {
        Err(Error::Refused(refusal)) => format!("open-refused {}", told::refusal(refusal)),
        Err(Error::NoMemory) => "no-memory".into(),
        Err(Error::Link(error)) => {
            assert_eq!(Some(&error), disk.failure().as_ref(), "the link's end stays");
            assert_eq!(Err(Error::Link(error.clone())), disk.free());
            told::end(&error)
        }
        Ok(()) => disk.close().map_or_else(|error| told::end(&error), |()| "closed".into()),
    }
}

#[test]
fn each_link_ends_as_it_should() {
    let folder = Folder::new("links");
    for LinkCase { sender, sent, end } in table::read().links {
        let path = folder.path("other");
        let (found, good) = match sender {
            Sender::Program { status } => {
                fake_program(&path, &sent, &format!("exit {status}"));
                (end_of(Options::new().program(&path).open("x").unwrap()), "program-ended 0")
            }
            Sender::Hub => {
                let hub = fake_hub(&path, sent.clone());
                let found = end_of(Disk::connect(&path).unwrap());
                hub.join().unwrap();
                (found, "ended")
            }
        };
        let found = if found == "closed" { good.to_owned() } else { found };
        assert_eq!(end, found, "after {sent:02x?}");
    }
}

#[test]
fn the_words_of_a_program_that_ends_are_told() {
    let folder = Folder::new("words");
    let path = folder.path("other");
    fake_program(&path, &[], "exit 4");
    let disk = Options::new().program(&path).open("x").unwrap();
    let error = disk.session(1).map(drop).unwrap_err();
    assert_eq!("the disk's program ended with status 4: tsd: device fault", error.to_string());
}

#[test]
fn a_silent_program_is_told_and_ended() {
    let folder = Folder::new("silent");
    let path = folder.path("other");
    fake_program(&path, &[5], "exec sleep 100");
    let limit = Duration::from_millis(300);
    let disk = Options::new().program(&path).limit(limit).open("x").unwrap();
    let begun = Instant::now();
    assert_eq!(Err(Error::Link(LinkError::Silent(limit))), disk.session(1).map(drop));
    assert!(begun.elapsed() < Duration::from_secs(10));
}

#[test]
fn a_killed_program_is_told_by_its_signal() {
    let folder = Folder::new("killed");
    let path = folder.path("other");
    fake_program(&path, &[], "kill -9 $$");
    let disk = Options::new().program(&path).open("x").unwrap();
    let error = disk.session(1).map(drop).unwrap_err();
    assert!(matches!(error, Error::Link(LinkError::ProgramEnded { status: -9, .. })));
}

#[test]
fn what_is_not_there_is_told() {
    let missing = Options::new().program("/no/such/tsd").open("x").unwrap_err().to_string();
    assert!(missing.starts_with("/no/such/tsd can't be started: "), "{missing}");
    let missing = Disk::connect("/no/such.sock").unwrap_err().to_string();
    assert!(missing.starts_with("no hub at /no/such.sock: "), "{missing}");
    let folder = Folder::new("missing");
    let disk = Options::new().program(program()).open(folder.path("none.img")).unwrap();
    let error = disk.free().unwrap_err();
    assert!(
        matches!(&error, Error::Link(LinkError::ProgramEnded { status: 4, words, .. }) if words.contains("none.img"))
    );
    let long = Capability::from_file(folder.path("none")).unwrap_err().to_string();
    assert!(long.starts_with("the file of the capability can't be read: "), "{long}");
}

#[test]
fn thousands_of_requests_under_way_are_answered_in_order() {
    let folder = Folder::new("many");
    let image = folder.path("disk.img");
    let caps = format(&image, &["64", "8", "256", "1"].map(str::to_owned));
    let disk = Options::new().program(program()).open(&image).unwrap();
    let session = disk.session(1).unwrap();
    let blocks = session.alloc(0, 32, None, Some(&caps[1])).unwrap();
    let mut asked = Vec::new();
    for count in 0..3000_u32 {
        let block = blocks[count as usize % 32];
        drop(session.ask(requests::Write { block, data: &count.to_le_bytes().repeat(1024), cap: None }).unwrap());
        asked.push((count, session.ask(requests::Read { block, cap: None }).unwrap()));
    }
    while let Some((count, pending)) = asked.pop() {
        assert_eq!(count.to_le_bytes().repeat(1024), pending.wait().unwrap());
    }
    let all: Result<Vec<u32>, Error> = session.list(0, Some(&caps[0])).collect();
    assert_eq!(Ok(blocks), all);
    drop(asked);
    let long = session.write(0, &[1; 70_000], Some(&caps[1]));
    assert_eq!(Err(Error::Refused(Refusal::BadRequest)), long, "no frame has room for that");
    session.close().unwrap();
    assert_eq!(
        Err(Error::Refused(Refusal::NotOpen)),
        disk.ask(requests::Read { block: 0, cap: None }, 1).unwrap().wait()
    );
    assert_eq!(None, disk.geometry().unwrap());
    assert_eq!(Ok(()), disk.close());
}
