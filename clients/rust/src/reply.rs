//! Replies: what the body of a frame says, or that it is none.

use crate::error::{Level, LinkError, Refusal};

const BLOCK_LENGTHS: [usize; 4] = [512, 1024, 2048, 4096];
const MOST_NEW_BLOCKS: usize = 32;
const MOST_TARGETS: usize = 64;
/// With this byte begins what a hub itself tells, and what is asked of the hub itself.
pub(crate) const HUB: u8 = 255;
/// The size of the disk: asked for by these two bytes, and told by them and four numbers.
pub(crate) const GREETING: u8 = 4;

/// The size of a disk, which never changes, and the version of its image.
#[derive(Debug, Clone, Copy, PartialEq, Eq)]
pub struct Geometry {
    /// How many bytes a block has: 512, 1,024, 2,048 or 4,096.
    pub block_bytes: u32,
    /// How many blocks there are.
    pub blocks: u32,
    /// How many of them are primary.
    pub primaries: u32,
    /// The version of the image, 1 or 2.
    pub version: u32,
}

/// What the disk answers to a request.
#[derive(Debug, Clone, PartialEq, Eq)]
pub enum Reply {
    /// Done.
    Done,
    /// All bytes of a block.
    Bytes(Vec<u8>),
    /// New blocks.
    Blocks(Vec<u32>),
    /// How many blocks are free.
    Free(u32),
    /// How many blocks became free.
    Gone(u32),
    /// Targets of pointers, ascending.
    Targets(Vec<u32>),
    /// No memory to open a session; nothing changed.
    NoMemory,
    /// Refused.
    Refused(Refusal),
    /// The size of the disk, which a hub tells.
    Greeting(Geometry),
}

/// What a body is.
#[derive(Debug)]
pub(crate) enum Body {
    Reply(Reply),
    /// What a hub tells, after which nothing comes.
    End(LinkError),
    /// None of these.
    Other,
}

/// Reads the body of a frame.
pub(crate) fn decode(body: &[u8]) -> Body {
    if let Some((&HUB, told)) = body.split_first() {
        return decode_told(told);
    }
    decode_reply(body).map_or(Body::Other, Body::Reply)
}

fn decode_reply(body: &[u8]) -> Option<Reply> {
    let (&code, rest) = body.split_first()?;
    match code {
        1 => rest.is_empty().then_some(Reply::Done),
        2 => BLOCK_LENGTHS.contains(&rest.len()).then(|| Reply::Bytes(rest.to_vec())),
        3 => numbers(rest).filter(|blocks| (1..=MOST_NEW_BLOCKS).contains(&blocks.len())).map(Reply::Blocks),
        4 => one_number(rest).map(Reply::Free),
        5 => one_number(rest).map(Reply::Gone),
        6 => numbers(rest).filter(|targets| targets.len() <= MOST_TARGETS).map(Reply::Targets),
        7 => rest.is_empty().then_some(Reply::NoMemory),
        8 => decode_refusal(rest).map(Reply::Refused),
        _ => None,
    }
}

fn decode_refusal(rest: &[u8]) -> Option<Refusal> {
    let (&rule, more) = rest.split_first()?;
    match rule {
        10 => two_levels(more).map(|(attained, needed)| Refusal::Denied { attained, needed }),
        13 => two_numbers(more).map(|(free, wanted)| Refusal::Full { free, wanted }),
        14 => two_numbers(more).map(|(free, wanted)| Refusal::NoRun { free, wanted }),
        15 => two_numbers(more).map(|(held, most)| Refusal::PointersFull { held, most }),
        _ if more.is_empty() => plain_refusal(rule),
        _ => None,
    }
}

/// The rules that have no numbers.
fn plain_refusal(rule: u8) -> Option<Refusal> {
    Some(match rule {
        0 => Refusal::BadRequest,
        1 => Refusal::BadSession,
        2 => Refusal::NotOpen,
        3 => Refusal::AlreadyOpen,
        4 => Refusal::BadCount,
        5 => Refusal::BadSize,
        6 => Refusal::NoSuchBlock,
        7 => Refusal::FreeBlock,
        8 => Refusal::NotPrimary,
        9 => Refusal::IsPrimary,
        11 => Refusal::PointerExists,
        12 => Refusal::NoPointer,
        _ => return None,
    })
}

/// What a hub itself tells: a byte of what, and then a status and words, or the size of the disk.
fn decode_told(told: &[u8]) -> Body {
    let Some((&what, rest)) = told.split_first() else { return Body::Other };
    if what == GREETING {
        return decode_geometry(rest).map_or(Body::Other, |geometry| Body::Reply(Reply::Greeting(geometry)));
    }
    let Some((status, words)) = rest.split_first_chunk::<4>() else { return Body::Other };
    let words = String::from_utf8_lossy(words).into_owned();
    match what {
        1 => Body::End(LinkError::HubFull { words }),
        2 => Body::End(LinkError::DiskEnded { status: i32::from_le_bytes(*status), words }),
        3 => Body::End(LinkError::HubStopped),
        6 => Body::End(LinkError::HubIdle { words }),
        _ => Body::Other,
    }
}

/// Four numbers; what stands behind them is ignored.
fn decode_geometry(rest: &[u8]) -> Option<Geometry> {
    match numbers(rest.get(..16)?)?[..] {
        [block_bytes, blocks, primaries, version] => Some(Geometry { block_bytes, blocks, primaries, version }),
        _ => None,
    }
}

fn numbers(bytes: &[u8]) -> Option<Vec<u32>> {
    let number = |four: &[u8]| u32::from_le_bytes([four[0], four[1], four[2], four[3]]);
    (bytes.len() % 4 == 0).then(|| bytes.chunks(4).map(number).collect())
}

fn one_number(bytes: &[u8]) -> Option<u32> {
    bytes.try_into().ok().map(u32::from_le_bytes)
}

fn two_numbers(bytes: &[u8]) -> Option<(u32, u32)> {
    match numbers(bytes)?[..] {
        [first, second] => Some((first, second)),
        _ => None,
    }
}

fn two_levels(bytes: &[u8]) -> Option<(Level, Level)> {
    match *bytes {
        [first, second] => Some((level(first)?, level(second)?)),
        _ => None,
    }
}

fn level(byte: u8) -> Option<Level> {
    match byte {
        0 => Some(Level::None),
        1 => Some(Level::Read),
        2 => Some(Level::Write),
        _ => None,
    }
}

#[cfg(test)]
mod tests {
    use super::*;
    use crate::{table, told};

    #[test]
    fn each_body_of_the_table_says_what_it_should() {
        let replies = table::read().replies;
        assert!(replies.len() > 60);
        for (body, expected) in replies {
            let found = match decode(&body) {
                Body::Reply(reply) => told::reply(&reply),
                Body::End(end) => told::end(&end),
                Body::Other => "none".into(),
            };
            assert_eq!(expected, found, "{body:02x?}");
        }
    }
}
