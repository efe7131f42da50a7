//! Bytes that come at one end and go at the other.

use std::io::{ErrorKind, Read, Write};

use crate::frames::LENGTH_BYTES;

const MOST_SLACK: usize = 1 << 16;

/// A row of bytes.
#[derive(Default)]
pub struct Buffer {
    bytes: Vec<u8>,
    start: usize,
}

/// How a call on a descriptor went.
#[derive(Clone, Copy, PartialEq, Eq)]
pub enum Moved {
    /// All that there was, or is room for.
    All,
    /// Some, and there may be more.
    Some,
    /// The other side has ended, or the call failed.
    Over,
}

impl Buffer {
    /// The bytes.
    pub fn held(&self) -> &[u8] {
        &self.bytes[self.start..]
    }

    /// Whether there are none.
    pub fn is_empty(&self) -> bool {
        self.start == self.bytes.len()
    }

    /// Takes the first bytes away.
    pub fn consume(&mut self, count: usize) {
        self.start += count;
        if self.is_empty() {
            self.clear();
        } else if self.start > MOST_SLACK {
            self.bytes.drain(..self.start);
            self.start = 0;
        }
    }

    /// Takes all away.
    pub fn clear(&mut self) {
        self.bytes.clear();
        self.start = 0;
    }

    /// Where bytes are put.
    pub fn end(&mut self) -> &mut Vec<u8> {
        &mut self.bytes
    }

    /// Reads once. `All` where less came than there is room for, unless an end may stand behind it.
    pub fn read_from(&mut self, from: &mut impl Read, room: &mut [u8], may_end: bool) -> Moved {
        loop {
            match from.read(room) {
                Ok(0) => return Moved::Over,
                Ok(count) => {
                    self.bytes.extend_from_slice(&room[..count]);
                    return if count < room.len() && !may_end { Moved::All } else { Moved::Some };
                }
                Err(error) if error.kind() == ErrorKind::Interrupted => {}
                Err(error) if error.kind() == ErrorKind::WouldBlock => return Moved::All,
                Err(_) => return Moved::Over,
            }
        }
    }

    /// Writes as much as is taken at once. `Some` where bytes are left.
    pub fn write_to(&mut self, to: &mut impl Write) -> Moved {
        while !self.is_empty() {
            match to.write(self.held()) {
                Ok(0) => return Moved::Over,
                Ok(count) => self.consume(count),
                Err(error) if error.kind() == ErrorKind::Interrupted => {}
                Err(error) if error.kind() == ErrorKind::WouldBlock => return Moved::Some,
                Err(_) => return Moved::Over,
            }
        }
        Moved::All
    }
}

/// The end of the whole frame that begins here, if there is one.
pub fn frame_end(bytes: &[u8], start: usize) -> Option<usize> {
    let head = bytes.get(start..start + LENGTH_BYTES)?;
    let end = start + LENGTH_BYTES + usize::from(u16::from_le_bytes([head[0], head[1]]));
    (end <= bytes.len()).then_some(end)
}
