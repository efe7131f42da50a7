//! A client's connection: its requests as they lie there, and its replies until it takes them.

use std::os::unix::net::UnixStream;
use std::time::Instant;

use crate::buffer::{frame_end, Buffer, Moved};
use crate::frames::{put_frame, Asked, LENGTH_BYTES};

/// Once so many requests of a client lie between its socket and its taking their replies, no more is read of it.
const WINDOW: usize = 16;

/// A client that has a session's number, or a guest that has none.
pub struct Client {
    /// Its socket.
    pub stream: UnixStream,
    /// Its user's number.
    pub user: u32,
    /// Its user and process, as the log tells them.
    pub peer: String,
    /// Which connection under its number it is: replies to one before it are not its own.
    pub generation: u64,
    /// How many frames it has sent.
    pub requests: u64,
    /// How many of its requests are at the disk.
    pub at_disk: usize,
    /// When it last sent a whole frame or took a reply.
    pub last_heard: Instant,
    /// Whether it stands in the row of those that have a request.
    pub is_in_row: bool,
    /// Whether room for its replies is waited for.
    pub waits_for_room: bool,
    input: Buffer,
    counted: usize,
    lying: usize,
    output: Buffer,
    undelivered: usize,
    may_have_bytes: bool,
    may_end: bool,
    has_ended: bool,
    is_broken: bool,
}

impl Client {
    /// A new one.
    pub fn new(stream: UnixStream, user: u32, peer: String, generation: u64, now: Instant) -> Client {
        Client {
            stream,
            user,
            peer,
            generation,
            requests: 0,
            at_disk: 0,
            last_heard: now,
            is_in_row: false,
            waits_for_room: false,
            input: Buffer::default(),
            counted: 0,
            lying: 0,
            output: Buffer::default(),
            undelivered: 0,
            may_have_bytes: true,
            may_end: false,
            has_ended: false,
            is_broken: false,
        }
    }

    /// Its socket may have bytes, and an end behind them.
    pub fn note_bytes(&mut self, may_end: bool) {
        self.may_have_bytes = true;
        self.may_end |= may_end;
    }

    /// Reads as long as there are bytes and room for requests. How many whole frames came.
    pub fn read(&mut self, room: &mut [u8], now: Instant) -> usize {
        let before = self.lying;
        while self.may_have_bytes && !self.has_ended && !self.is_broken && self.window_left() > 0 {
            match self.input.read_from(&mut self.stream, room, self.may_end) {
                Moved::All => self.may_have_bytes = false,
                Moved::Some => {}
                Moved::Over => self.has_ended = true,
            }
            self.count_frames();
        }
        let come = self.lying - before;
        if come > 0 {
            self.last_heard = now;
            self.requests += come as u64;
        }
        come
    }

    fn window_left(&self) -> usize {
        WINDOW.saturating_sub(self.lying + self.at_disk + self.undelivered)
    }

    fn count_frames(&mut self) {
        while let Some(end) = frame_end(self.input.held(), self.counted) {
            self.counted = end;
            self.lying += 1;
        }
    }

    /// How many of its requests lie here.
    pub fn lying(&self) -> usize {
        self.lying
    }

    /// The next request, where there is one.
    pub fn next(&self) -> Option<Asked> {
        (self.lying > 0).then(|| Asked::of(self.front()))
    }

    /// The body of the next request, which is there.
    pub fn front(&self) -> &[u8] {
        let held = self.input.held();
        let length = usize::from(u16::from_le_bytes([held[0], held[1]]));
        &held[LENGTH_BYTES..LENGTH_BYTES + length]
    }

    /// Takes the next request, which is there, away.
    pub fn take_front(&mut self) {
        let length = LENGTH_BYTES + self.front().len();
        self.input.consume(length);
        self.counted -= length;
        self.lying -= 1;
    }

    /// Puts a reply, or what the hub tells, behind the others.
    pub fn give(&mut self, body: &[u8]) {
        if !self.is_broken {
            put_frame(body, self.output.end());
            self.undelivered += 1;
        }
    }

    /// Sends as much as the client takes at once; whether all.
    pub fn send(&mut self, now: Instant) -> bool {
        if self.is_broken || self.output.is_empty() {
            return true;
        }
        match self.output.write_to(&mut self.stream) {
            Moved::All => {
                self.undelivered = 0;
                self.last_heard = now;
                true
            }
            Moved::Some => false,
            Moved::Over => {
                self.break_off();
                true
            }
        }
    }

    /// It takes no replies any more: what lies here of it is dropped.
    pub fn break_off(&mut self) {
        self.is_broken = true;
        self.drop_requests();
        self.output.clear();
    }

    /// Drops the requests that haven't gone to the disk.
    pub fn drop_requests(&mut self) {
        self.input.clear();
        self.counted = 0;
        self.lying = 0;
    }

    /// Whether it has all that it will ever get.
    pub fn is_done(&self) -> bool {
        self.is_broken || (self.has_ended && self.lying == 0 && self.at_disk == 0 && self.output.is_empty())
    }

    /// Whether it waits for nothing from the disk.
    pub fn is_at_rest(&self) -> bool {
        self.lying == 0 && self.at_disk == 0
    }
}
