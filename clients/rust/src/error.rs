//! What may go wrong: a refusal of the disk, or the end of the link to it.

use std::fmt;
use std::io;
use std::time::Duration;

/// What a session may do at a block.
#[derive(Debug, Clone, Copy, PartialEq, Eq, PartialOrd, Ord, Hash)]
pub enum Level {
    /// Nothing.
    None,
    /// To read it.
    Read,
    /// To write it, and to read it.
    Write,
}

/// The rule by which the disk refused a request, with the rule's numbers. A refused request changed nothing.
#[derive(Debug, Clone, Copy, PartialEq, Eq, Hash)]
pub enum Refusal {
    /// The frame's body is no request.
    BadRequest,
    /// The session isn't in 1 to 64.
    BadSession,
    /// The session isn't open.
    NotOpen,
    /// The session is open already.
    AlreadyOpen,
    /// The count isn't in 1 to 32.
    BadCount,
    /// There are more bytes than a block has.
    BadSize,
    /// The disk has no block of this number.
    NoSuchBlock,
    /// The block is free.
    FreeBlock,
    /// Only primary blocks have capabilities.
    NotPrimary,
    /// Nothing points to a primary block.
    IsPrimary,
    /// The level attained is below the one needed.
    Denied {
        /// The level that the session attains there.
        attained: Level,
        /// The level that the request needs.
        needed: Level,
    },
    /// The pointer is held already.
    PointerExists,
    /// The pointer isn't held.
    NoPointer,
    /// Fewer blocks are free than were asked for.
    Full {
        /// How many blocks are free.
        free: u32,
        /// How many were asked for.
        wanted: u32,
    },
    /// Enough blocks are free, but not in a row.
    NoRun {
        /// How many blocks are free.
        free: u32,
        /// How many in a row were asked for.
        wanted: u32,
    },
    /// There is no room for the new pointers.
    PointersFull {
        /// How many pointers are held.
        held: u32,
        /// The most that may be held.
        most: u32,
    },
}

/// Why the link to a disk can't be used any more. Each request under way gets it, and so does each later one. A request
/// whose reply didn't come was carried out whole, or not at all.
#[derive(Debug, Clone, PartialEq, Eq)]
pub enum LinkError {
    /// What came is no reply, or not one to what was asked.
    NoReply(String),
    /// Requests were under way, and for so long no reply came, or nothing could be sent.
    Silent(Duration),
    /// The hub's connection ended.
    Ended {
        /// Whether it ended inside a frame.
        inside_frame: bool,
    },
    /// The disk's program ended.
    ProgramEnded {
        /// Its status; below 0 the number of the signal that killed it.
        status: i32,
        /// What it put on standard error.
        words: String,
        /// Whether its output ended inside a frame.
        inside_frame: bool,
    },
    /// A hub tells that its disk ended.
    DiskEnded {
        /// The status of the disk's program; below 0 the number of a signal.
        status: i32,
        /// Its words.
        words: String,
    },
    /// A hub tells that it has no session left, or none for this user.
    HubFull {
        /// Its words, where there is more to say.
        words: String,
    },
    /// A hub tells that it closes this connection, on which nothing came for long.
    HubIdle {
        /// Its words.
        words: String,
    },
    /// A hub tells that it stops.
    HubStopped,
    /// The library ended with another status than 0.
    #[cfg(feature = "embedded")]
    Embedded {
        /// The number of `tsd_embed.h`.
        status: i32,
        /// Its words.
        words: String,
    },
    /// The program can't be started, the hub can't be reached, or a call of the system failed.
    System {
        /// What was tried.
        what: String,
        /// What kind of error it is.
        kind: io::ErrorKind,
        /// The system's words.
        words: String,
    },
}

/// What a call gives in place of its answer.
#[derive(Debug, Clone, PartialEq, Eq)]
pub enum Error {
    /// The disk refused the request, which changed nothing.
    Refused(Refusal),
    /// The disk found no memory to open a session; nothing changed.
    NoMemory,
    /// The link to the disk ended.
    Link(LinkError),
}

impl LinkError {
    pub(crate) fn system(what: impl Into<String>, error: &io::Error) -> Self {
        Self::System { what: what.into(), kind: error.kind(), words: error.to_string() }
    }
}

impl From<LinkError> for Error {
    fn from(error: LinkError) -> Self {
        Self::Link(error)
    }
}

impl fmt::Display for Level {
    fn fmt(&self, out: &mut fmt::Formatter<'_>) -> fmt::Result {
        out.write_str(match self {
            Self::None => "none",
            Self::Read => "read",
            Self::Write => "write",
        })
    }
}

impl fmt::Display for Refusal {
    fn fmt(&self, out: &mut fmt::Formatter<'_>) -> fmt::Result {
        match self {
            Self::BadRequest => out.write_str("the body is no request"),
            Self::BadSession => out.write_str("the session isn't in 1 to 64"),
            Self::NotOpen => out.write_str("the session isn't open"),
            Self::AlreadyOpen => out.write_str("the session is open already"),
            Self::BadCount => out.write_str("the count isn't in 1 to 32"),
            Self::BadSize => out.write_str("more bytes than a block has"),
            Self::NoSuchBlock => out.write_str("the disk has no block of this number"),
            Self::FreeBlock => out.write_str("the block is free"),
            Self::NotPrimary => out.write_str("only primary blocks have capabilities"),
            Self::IsPrimary => out.write_str("nothing points to a primary block"),
            Self::Denied { attained, needed } => write!(out, "denied: {attained} attained, {needed} needed"),
            Self::PointerExists => out.write_str("the pointer is held already"),
            Self::NoPointer => out.write_str("the pointer isn't held"),
            Self::Full { free, wanted } => write!(out, "no room: {free} blocks free, {wanted} wanted"),
            Self::NoRun { free, wanted } => write!(out, "no {wanted} blocks in a row: {free} are free"),
            Self::PointersFull { held, most } => write!(out, "no room for pointers: {held} of {most} are held"),
        }
    }
}

/// Words behind a colon, where there are any.
fn behind(words: &str) -> String {
    if words.is_empty() {
        String::new()
    } else {
        format!(": {words}")
    }
}

impl fmt::Display for LinkError {
    fn fmt(&self, out: &mut fmt::Formatter<'_>) -> fmt::Result {
        let place = |inside: &bool| if *inside { " inside a frame" } else { "" };
        match self {
            Self::NoReply(why) => out.write_str(why),
            Self::Silent(time) => write!(out, "no reply for {} seconds", time.as_secs_f64()),
            Self::Ended { inside_frame } => write!(out, "the connection ended{}", place(inside_frame)),
            Self::ProgramEnded { status, words, inside_frame } => {
                write!(out, "the disk's program ended with status {status}{}{}", place(inside_frame), behind(words))
            }
            Self::DiskEnded { status, words } => {
                write!(out, "the hub's disk ended with status {status}{}", behind(words))
            }
            Self::HubFull { words } => write!(out, "the hub has no session left{}", behind(words)),
            Self::HubIdle { words } => write!(out, "the hub closed the connection, which was idle{}", behind(words)),
            Self::HubStopped => out.write_str("the hub stopped"),
            #[cfg(feature = "embedded")]
            Self::Embedded { words, .. } => write!(out, "the disk in this process: {words}"),
            Self::System { what, words, .. } => write!(out, "{what}: {words}"),
        }
    }
}

impl fmt::Display for Error {
    fn fmt(&self, out: &mut fmt::Formatter<'_>) -> fmt::Result {
        match self {
            Self::Refused(refusal) => refusal.fmt(out),
            Self::NoMemory => out.write_str("no memory to open a session"),
            Self::Link(error) => error.fmt(out),
        }
    }
}

impl std::error::Error for Refusal {}
impl std::error::Error for LinkError {}
impl std::error::Error for Error {}
