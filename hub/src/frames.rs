//! The bodies of frames (docs/FORMAT.md): what a client's becomes before it goes to the disk, what a reply is, and what
//! a hub itself tells.

/// The bytes of a frame's length.
pub const LENGTH_BYTES: usize = 2;
/// The body that asks how many blocks are free.
pub const FREE: &[u8] = &[7];
/// The body that asks the hub for its greeting.
pub const HELLO: &[u8] = &[HUB, GREETING];
/// The body that asks the hub for its numbers.
pub const STATS: &[u8] = &[HUB, NUMBERS];
/// The reply that a body is no request.
pub const NO_REQUEST: &[u8] = &[REFUSED as u8, 0];

const SESSION_END: usize = 5;
const MOST_BODY: usize = 4122;
const MOST_WORDS: usize = 4096;
const HUB: u8 = 255;
const GREETING: u8 = 4;
const NUMBERS: u8 = 5;
const REFUSED: usize = 8;
const MOST_NEW_BLOCKS: usize = 32;
const MOST_TARGETS: usize = 64;
const RULES: usize = 16;

/// The kinds of requests by their codes; what is none has the code 0.
pub const KINDS: [&str; 13] =
    ["none", "open", "close", "read", "write", "alloc", "contig", "free", "create", "delete", "caps", "sweep", "list"];
/// The rules of refusals by their bytes.
pub const RULE_NAMES: [&str; RULES] = [
    "bad-request",
    "bad-session",
    "not-open",
    "already-open",
    "bad-count",
    "bad-size",
    "no-such-block",
    "free-block",
    "not-primary",
    "is-primary",
    "denied",
    "pointer-exists",
    "no-pointer",
    "full",
    "run",
    "pointers-full",
];

/// What a hub tells a client last.
#[derive(Clone, Copy)]
pub enum Told {
    /// No session is left for it.
    Full = 1,
    /// The disk ended.
    DiskEnded = 2,
    /// The hub was stopped.
    Stopped = 3,
    /// It asked nothing for too long.
    Idle = 6,
}

/// What a body of a client is.
#[derive(Clone, Copy, PartialEq, Eq)]
pub enum Asked {
    /// A request that changes the disk, so that it waits for syncs; its code.
    Change(u8),
    /// Any other request of a session, or the count of free blocks; its code.
    Read(u8),
    /// What is no request.
    Nothing,
    /// For the hub: its greeting.
    Hello,
    /// For the hub: its numbers.
    Stats,
}

impl Asked {
    /// Of a body.
    pub fn of(body: &[u8]) -> Asked {
        let is_whole = (SESSION_END..=MOST_BODY).contains(&body.len());
        match body.first() {
            Some(7) if body == FREE => Asked::Read(7),
            Some(&code @ (4 | 5 | 6 | 8 | 9 | 10 | 11)) if is_whole => Asked::Change(code),
            Some(&code @ (1 | 2 | 3 | 12)) if is_whole => Asked::Read(code),
            Some(&HUB) if body == HELLO => Asked::Hello,
            Some(&HUB) if body == STATS => Asked::Stats,
            _ => Asked::Nothing,
        }
    }

    /// The code of its kind, 0 for none.
    pub fn code(self) -> u8 {
        match self {
            Asked::Change(code) | Asked::Read(code) => code,
            Asked::Nothing | Asked::Hello | Asked::Stats => 0,
        }
    }
}

/// Puts a frame.
pub fn put_frame(body: &[u8], to: &mut Vec<u8>) {
    to.extend_from_slice(&(body.len() as u16).to_le_bytes());
    to.extend_from_slice(body);
}

/// Puts the frame of a request with this session's number in place of the one that stands there. The count of free
/// blocks has none; what is no request, whatever a later disk may make of it, becomes the empty body.
pub fn put_of_session(asked: Asked, body: &[u8], session: u32, to: &mut Vec<u8>) {
    let start = to.len();
    match asked {
        Asked::Change(_) | Asked::Read(_) => put_frame(body, to),
        Asked::Nothing | Asked::Hello | Asked::Stats => put_frame(&[], to),
    }
    if to.len() > start + LENGTH_BYTES + 1 {
        let number = start + LENGTH_BYTES + 1;
        to[number..number + 4].copy_from_slice(&session.to_le_bytes());
    }
}

/// Puts the frame that closes a session.
pub fn put_end(session: u32, to: &mut Vec<u8>) {
    put_frame(&[2, 0, 0, 0, 0], to);
    let at = to.len() - 4;
    to[at..].copy_from_slice(&session.to_le_bytes());
}

/// The body by which a hub tells this.
pub fn told_body(what: Told, status: i32, words: &str) -> Vec<u8> {
    let mut end = words.len().min(MOST_WORDS);
    while !words.is_char_boundary(end) {
        end -= 1;
    }
    [&[HUB, what as u8], &status.to_le_bytes()[..], &words.as_bytes()[..end]].concat()
}

/// The size of a disk, as its greeting tells it.
#[derive(Clone, Copy, Debug, PartialEq, Eq)]
pub struct Geometry {
    /// Bytes of a block.
    pub block_bytes: u32,
    /// Blocks.
    pub blocks: u32,
    /// Primary blocks.
    pub primaries: u32,
    /// The image's version.
    pub version: u32,
}

impl Geometry {
    /// What an image's header says (docs/FORMAT.md, The header); None where it is no header of a disk.
    pub fn of_header(header: &[u8; 512]) -> Option<Geometry> {
        let number = |at: usize| u32::from_le_bytes([header[at], header[at + 1], header[at + 2], header[at + 3]]);
        let (version, sectors, blocks, primaries) = (number(8), number(12), number(16), number(20));
        let is_lawful = &header[..8] == b"TSDISK01" && (1..=2).contains(&version) && matches!(sectors, 1 | 2 | 4 | 8);
        is_lawful.then_some(Geometry { block_bytes: 512 * sectors, blocks, primaries, version })
    }

    /// The body of the greeting.
    pub fn greeting(&self) -> Vec<u8> {
        let mut body = vec![HUB, GREETING];
        for number in [self.block_bytes, self.blocks, self.primaries, self.version] {
            body.extend_from_slice(&number.to_le_bytes());
        }
        body
    }
}

/// The body that gives the hub's numbers.
pub fn stats_body(text: &str) -> Vec<u8> {
    [STATS, text.as_bytes()].concat()
}

/// What a reply is.
pub enum Reply {
    /// The request was carried out.
    Done,
    /// It was refused, by the rule with this byte.
    Refused(usize),
    /// No memory to open a session.
    NoMemory,
}

impl Reply {
    /// The reply that a body is; None where it is none.
    pub fn of(body: &[u8]) -> Option<Reply> {
        let rest = body.len().checked_sub(1)?;
        let of_numbers = rest % 4 == 0;
        match body[0] {
            1 if rest == 0 => Some(Reply::Done),
            2 if matches!(rest, 512 | 1024 | 2048 | 4096) => Some(Reply::Done),
            3 if of_numbers && (1..=MOST_NEW_BLOCKS).contains(&(rest / 4)) => Some(Reply::Done),
            4 | 5 if rest == 4 => Some(Reply::Done),
            6 if of_numbers && rest / 4 <= MOST_TARGETS => Some(Reply::Done),
            7 if rest == 0 => Some(Reply::NoMemory),
            8 => refusal(&body[1..]).map(Reply::Refused),
            _ => None,
        }
    }
}

fn refusal(rest: &[u8]) -> Option<usize> {
    let (&rule, more) = rest.split_first()?;
    let is_whole = match rule {
        10 => more.len() == 2 && more.iter().all(|level| *level <= 2),
        13..=15 => more.len() == 8,
        _ => usize::from(rule) < RULES && more.is_empty(),
    };
    is_whole.then_some(usize::from(rule))
}
