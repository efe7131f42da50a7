//! A link to a disk: requests go out as they are asked, and each reply is kept for the request that it answers.

use std::collections::VecDeque;
use std::io::{self, ErrorKind, Read, Write};
use std::net::Shutdown;
use std::os::unix::net::UnixStream;
use std::time::{Duration, Instant};

use crate::capability::wipe;
use crate::error::LinkError;
use crate::frames::{begin, finish, Cutter};
use crate::peer::Peer;
use crate::reply::{decode, Body, Reply, HUB};
use crate::requests::Request;

/// The most requests under way: a further one first waits for the oldest reply.
pub(crate) const MOST_UNDER_WAY: usize = 64;
const PIECE: usize = 65_536;
/// Room for each request but a write, so that what shows a capability isn't moved: a moved text isn't wiped.
const USUAL_TEXT: usize = 128;
/// A call of the socket waits so long at most; then it is looked whether the limit has passed.
const LONGEST_NAP: Duration = Duration::from_millis(20);

/// A request that was sent.
enum Slot {
    /// Its reply is under way.
    UnderWay { asks_geometry: bool, is_wanted: bool },
    /// Its reply.
    Answered(Reply),
    /// Nobody waits for it any more.
    Over,
}

/// Requests and replies to a peer.
pub(crate) struct Link {
    stream: UnixStream,
    peer: Peer,
    limit: Duration,
    /// When a reply came last, or the call began that waits for one.
    since: Instant,
    cutter: Cutter,
    piece: Vec<u8>,
    text: Vec<u8>,
    /// The requests from number `first` on; none before number `oldest` is under way.
    slots: VecDeque<Slot>,
    first: u64,
    oldest: u64,
    under_way: usize,
    failure: Option<LinkError>,
    is_closed: bool,
}

impl Link {
    pub(crate) fn new(stream: UnixStream, peer: Peer, limit: Duration) -> Result<Self, LinkError> {
        let nap = limit.min(LONGEST_NAP);
        let set = stream.set_read_timeout(Some(nap)).and_then(|()| stream.set_write_timeout(Some(nap)));
        set.map_err(|error| LinkError::system("the socket can't be set up", &error))?;
        Ok(Self {
            stream,
            peer,
            limit,
            since: Instant::now(),
            cutter: Cutter::default(),
            piece: vec![0; PIECE],
            text: Vec::with_capacity(USUAL_TEXT),
            slots: VecDeque::new(),
            first: 0,
            oldest: 0,
            under_way: 0,
            failure: None,
            is_closed: false,
        })
    }

    /// Why the link can't be used any more.
    pub(crate) fn failure(&self) -> Option<&LinkError> {
        self.failure.as_ref()
    }

    /// Sends a request; its number.
    pub(crate) fn send<R: Request>(&mut self, request: &R, session: u32) -> Result<u64, LinkError> {
        self.since = Instant::now();
        while self.under_way >= MOST_UNDER_WAY {
            self.step()?;
        }
        if let Some(failure) = &self.failure {
            return Err(failure.clone());
        }
        let mut text = std::mem::take(&mut self.text);
        begin(&mut text);
        request.encode(session, &mut text);
        let asks_geometry = text.get(2) == Some(&HUB);
        finish(&mut text);
        self.slots.push_back(Slot::UnderWay { asks_geometry, is_wanted: true });
        self.under_way += 1;
        self.put(&text);
        wipe(&mut text);
        self.text = text;
        Ok(self.first + self.slots.len() as u64 - 1)
    }

    /// The reply to a request, once it is there.
    pub(crate) fn take(&mut self, number: u64) -> Result<Reply, LinkError> {
        let at = (number - self.first) as usize;
        self.since = Instant::now();
        loop {
            match std::mem::replace(&mut self.slots[at], Slot::Over) {
                Slot::Answered(reply) => {
                    self.forget_old();
                    return Ok(reply);
                }
                under_way => self.slots[at] = under_way,
            }
            if let Some(failure) = &self.failure {
                return Err(failure.clone());
            }
            // The reply may have come before what failed: so it is looked for again.
            let _ = self.step();
        }
    }

    /// Nobody waits for this request's reply any more.
    pub(crate) fn forget(&mut self, number: u64) {
        let Some(slot) = number.checked_sub(self.first).and_then(|at| self.slots.get_mut(at as usize)) else { return };
        match slot {
            Slot::UnderWay { is_wanted, .. } => *is_wanted = false,
            Slot::Answered(_) | Slot::Over => *slot = Slot::Over,
        }
        self.forget_old();
    }

    /// No more requests: waits for the replies that are under way and for the other side's end.
    pub(crate) fn close(&mut self) -> Result<(), LinkError> {
        if std::mem::replace(&mut self.is_closed, true) {
            return Ok(());
        }
        // It fails only where the other side has gone, which the next step tells.
        let _ = self.stream.shutdown(Shutdown::Write);
        self.since = Instant::now();
        let lost = loop {
            let waited = self.under_way;
            if self.step().is_err() {
                break waited;
            }
        };
        match self.failure.clone() {
            Some(
                LinkError::ProgramEnded { status: 0, inside_frame: false, .. }
                | LinkError::Ended { inside_frame: false },
            ) if lost == 0 => Ok(()),
            Some(failure) => Err(failure),
            None => Ok(()),
        }
    }

    fn forget_old(&mut self) {
        while matches!(self.slots.front(), Some(Slot::Over)) {
            self.slots.pop_front();
            self.first += 1;
        }
    }

    /// Puts a whole frame; where the other side takes nothing, replies are taken meanwhile. What became of a frame that
    /// can't be put is told when its reply is asked for.
    fn put(&mut self, text: &[u8]) {
        if let Some(replies) = self.peer.apply(text) {
            self.cutter.feed(replies);
            // Where a reply is none the link has failed, which its taking tells.
            if let Err(failure) = self.settle_all() {
                let _ = self.fail(failure);
            }
            return;
        }
        let mut left = text;
        while !left.is_empty() && self.failure.is_none() {
            match self.stream.write(left) {
                Ok(count) => left = &left[count..],
                Err(error) if is_nap(&error) => drop(self.step()),
                // The other side has gone: what it put before, and how it ended, comes by the replies.
                Err(_) => return,
            }
        }
    }

    /// Takes the replies that are there, or waits a while for one. The error is that of the link, which stays.
    fn step(&mut self) -> Result<(), LinkError> {
        if let Some(failure) = &self.failure {
            return Err(failure.clone());
        }
        let done = self.receive();
        if let Err(failure) = &done {
            self.failure = Some(failure.clone());
            self.under_way = 0;
        }
        done
    }

    fn receive(&mut self) -> Result<(), LinkError> {
        let count = match self.stream.read(&mut self.piece) {
            Ok(count) => count,
            Err(error) if is_nap(&error) => return self.check_silence(),
            Err(error) if error.kind() == ErrorKind::ConnectionReset => 0,
            Err(error) => return Err(LinkError::system("reading the replies failed", &error)),
        };
        if count == 0 {
            let inside_frame = self.cutter.is_inside();
            return Err(self.peer.ended(inside_frame, self.limit));
        }
        self.cutter.feed(&self.piece[..count]);
        self.settle_all()?;
        self.check_silence()
    }

    /// Gives the replies that are whole to the requests that wait for them.
    fn settle_all(&mut self) -> Result<(), LinkError> {
        while let Some(body) = self.cutter.next() {
            let told = (body.len(), body.first().copied());
            match decode(body) {
                Body::Reply(reply) => self.settle(reply)?,
                Body::End(end) => return Err(end),
                Body::Other => return Err(no_reply(told)),
            }
        }
        Ok(())
    }

    /// Bytes that make no whole reply are silence too.
    fn check_silence(&mut self) -> Result<(), LinkError> {
        if (self.under_way > 0 || self.is_closed) && self.since.elapsed() > self.limit {
            self.peer.stop();
            return Err(LinkError::Silent(self.limit));
        }
        Ok(())
    }

    /// Gives a reply to the request that has waited longest. A size that nobody asked for is passed over.
    fn settle(&mut self, reply: Reply) -> Result<(), LinkError> {
        let is_greeting = matches!(reply, Reply::Greeting(_));
        let (slot, is_wanted) = match self.oldest_under_way() {
            Some((_, false, _)) if is_greeting => return Ok(()),
            Some((slot, _, is_wanted)) => (slot, is_wanted),
            None if is_greeting => return Ok(()),
            None => return Err(LinkError::NoReply("a reply came to no request".into())),
        };
        *slot = if is_wanted { Slot::Answered(reply) } else { Slot::Over };
        self.under_way -= 1;
        self.since = Instant::now();
        self.forget_old();
        Ok(())
    }

    /// The slot of the request that has waited longest, whether it asks for the size, and whether somebody waits.
    fn oldest_under_way(&mut self) -> Option<(&mut Slot, bool, bool)> {
        self.oldest = self.oldest.max(self.first);
        let start = (self.oldest - self.first) as usize;
        for (at, slot) in self.slots.iter_mut().enumerate().skip(start) {
            if let Slot::UnderWay { asks_geometry, is_wanted } = *slot {
                self.oldest = self.first + at as u64;
                return Some((slot, asks_geometry, is_wanted));
            }
        }
        None
    }

    /// The link failed since a reply was of another kind than its request.
    pub(crate) fn fail(&mut self, failure: LinkError) -> LinkError {
        self.under_way = 0;
        self.failure.get_or_insert(failure).clone()
    }
}

impl Drop for Link {
    fn drop(&mut self) {
        // Who drops a disk doesn't ask how it ended.
        let _ = self.close();
        self.peer.stop();
    }
}

fn is_nap(error: &io::Error) -> bool {
    matches!(error.kind(), ErrorKind::WouldBlock | ErrorKind::TimedOut | ErrorKind::Interrupted)
}

fn no_reply((length, code): (usize, Option<u8>)) -> LinkError {
    let code = code.map_or("no code".into(), |code| format!("code {code}"));
    LinkError::NoReply(format!("a body of {length} bytes with {code} is no reply"))
}
