//! Answers and ends as the table of cases spells them.

use tsd_client::{Error, LinkError, Refusal, Reply};

/// A reply, as a line of docs/FORMAT.md.
pub fn reply(reply: &Reply) -> String {
    match reply {
        Reply::Done => "ok".into(),
        Reply::Bytes(bytes) => data(bytes),
        Reply::Blocks(blocks) => numbers("blocks", blocks),
        Reply::Free(count) => format!("free {count}"),
        Reply::Gone(count) => format!("gone {count}"),
        Reply::Targets(targets) => numbers("list", targets),
        Reply::NoMemory => "no memory".into(),
        Reply::Refused(refusal) => format!("no {}", self::refusal(*refusal)),
        Reply::Greeting(size) => {
            format!("greeting {} {} {} {}", size.block_bytes, size.blocks, size.primaries, size.version)
        }
    }
}

/// The rule's words.
pub fn refusal(refusal: Refusal) -> String {
    match refusal {
        Refusal::BadRequest => "bad-request".into(),
        Refusal::BadSession => "bad-session".into(),
        Refusal::NotOpen => "not-open".into(),
        Refusal::AlreadyOpen => "already-open".into(),
        Refusal::BadCount => "bad-count".into(),
        Refusal::BadSize => "bad-size".into(),
        Refusal::NoSuchBlock => "no-such-block".into(),
        Refusal::FreeBlock => "free-block".into(),
        Refusal::NotPrimary => "not-primary".into(),
        Refusal::IsPrimary => "is-primary".into(),
        Refusal::Denied { attained, needed } => format!("denied {attained} {needed}"),
        Refusal::PointerExists => "pointer-exists".into(),
        Refusal::NoPointer => "no-pointer".into(),
        Refusal::Full { free, wanted } => format!("full {free} {wanted}"),
        Refusal::NoRun { free, wanted } => format!("run {free} {wanted}"),
        Refusal::PointersFull { held, most } => format!("pointers-full {held} {most}"),
    }
}

/// Why a link ended.
pub fn end(error: &LinkError) -> String {
    let inside = |inside_frame: &bool| if *inside_frame { " inside" } else { "" };
    match error {
        LinkError::NoReply(_) => "no-reply".into(),
        LinkError::Silent(_) => "silent".into(),
        LinkError::Ended { inside_frame } => format!("ended{}", inside(inside_frame)),
        LinkError::ProgramEnded { status, inside_frame, .. } => {
            format!("program-ended {status}{}", inside(inside_frame))
        }
        LinkError::DiskEnded { status, words } => format!("disk-ended {status} {words}").trim_end().into(),
        LinkError::HubFull { words } => format!("hub-full {words}").trim_end().into(),
        LinkError::HubIdle { words } => format!("hub-idle {words}").trim_end().into(),
        LinkError::HubStopped => "hub-stopped".into(),
        #[cfg(feature = "embedded")]
        LinkError::Embedded { status, .. } => format!("library {status}"),
        LinkError::System { kind, .. } => format!("system {kind}"),
    }
}

/// What a call gave in place of its answer.
#[allow(dead_code)]
pub fn error(error: &Error) -> String {
    match error {
        Error::Refused(refusal) => format!("no {}", self::refusal(*refusal)),
        Error::NoMemory => "no memory".into(),
        Error::Link(error) => end(error),
    }
}

/// The bytes up to the last that isn't zero; `BYTE*COUNT` where these are more than 16 and all the same.
fn data(bytes: &[u8]) -> String {
    let length = bytes.iter().rposition(|&byte| byte != 0).map_or(0, |last| last + 1);
    if length > 16 && bytes[..length].iter().all(|&byte| byte == bytes[0]) {
        return format!("data {:02x}*{length}", bytes[0]);
    }
    let digits: String = bytes[..length].iter().map(|byte| format!("{byte:02x}")).collect();
    format!("data {}", if digits.is_empty() { "-" } else { &digits })
}

fn numbers(word: &str, numbers: &[u32]) -> String {
    let numbers: String = numbers.iter().map(|number| format!(" {number}")).collect();
    format!("{word}{}", if numbers.is_empty() { " -" } else { &numbers })
}
