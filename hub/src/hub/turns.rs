//! Whose requests go to the disk next: one of each client that has one.
//!
//! Reads go ahead, since they take microseconds and a change waits for syncs. While a change waits, one read of each
//! client goes, then the changes of one round, and then the next reads: so a read waits for one round of changes at
//! most, and a change for one read of each client. While no change waits, reads go as long as the disk has less than it
//! takes to be busy.
//!
//! Where changes share their syncs, a round waits a little for the clients that the round before has answered: those
//! that change one thing after another come together then, in place of by turns in two rounds of half as many.

use std::collections::VecDeque;
use std::time::{Duration, Instant};

use super::{Hub, NotServed, Slot, To, SESSIONS};
use crate::buffer::frame_end;
use crate::client::Client;
use crate::frames::{put_of_session, stats_body, Asked, Reply, LENGTH_BYTES, NO_REQUEST};
use crate::system::{own_user, Interest};

/// So many requests keep the disk busy.
const MOST_AT_DISK: usize = 512;
/// A round of changes may take so many microseconds where each waits for its own syncs. One goes in any case.
const MICROS_OF_ROUND: f64 = 1000.0;
/// A round of changes that share their syncs has so many, or one of each client.
const SHARING: usize = 64;
/// By this part the last round counts in how long a change takes.
const WEIGHT: f64 = 0.25;
/// A round that shares its syncs waits for clients for one of so many parts of the time that the round before took.
const PARTS_TO_WAIT: u32 = 4;
/// It waits so long at most.
const MOST_TO_WAIT: Duration = Duration::from_millis(10);

/// The row of the clients that have a request.
pub struct Turns {
    /// Whether changes that come together share their syncs.
    pub shares: bool,
    row: VecDeque<usize>,
    changes_at_disk: usize,
    reads_went: bool,
    /// A bit for each slot whose client is awaited.
    awaited: u128,
    waits_until: Option<Instant>,
    round: Option<(Instant, usize)>,
    micros_of_change: f64,
}

impl Turns {
    /// Of no clients.
    pub fn new(shares: bool) -> Turns {
        Turns {
            shares,
            row: VecDeque::new(),
            changes_at_disk: 0,
            reads_went: false,
            awaited: 0,
            waits_until: None,
            round: None,
            micros_of_change: MICROS_OF_ROUND,
        }
    }

    /// A client that has a request stands in the row, once.
    pub fn note(&mut self, slot: usize, client: &mut Client) {
        if client.lying() > 0 {
            self.awaited &= !(1 << slot);
            if !client.is_in_row {
                client.is_in_row = true;
                self.row.push_back(slot);
            }
        }
    }

    /// A client is gone.
    pub fn forget(&mut self, slot: usize) {
        self.awaited &= !(1 << slot);
        self.row.retain(|other| *other != slot);
    }

    /// A client whose change was answered, and that has no other request: it may come with one soon.
    fn await_change(&mut self, slot: usize, client: &Client) {
        if self.shares && client.lying() == 0 {
            self.awaited |= 1 << slot;
        }
    }

    /// How long the next round waits for clients.
    fn waits(&self, now: Instant) -> Duration {
        match self.waits_until {
            Some(until) if self.awaited != 0 && self.changes_at_disk == 0 => until.saturating_duration_since(now),
            _ => Duration::ZERO,
        }
    }

    fn most_changes(&self) -> usize {
        if self.shares {
            return SHARING;
        }
        ((MICROS_OF_ROUND / self.micros_of_change) as usize).clamp(1, SHARING)
    }

    fn begin_round(&mut self, count: usize, now: Instant) {
        self.changes_at_disk = count;
        self.reads_went = false;
        self.awaited = 0;
        self.round = (count > 0).then_some((now, count));
    }

    fn end_change(&mut self, now: Instant) {
        self.changes_at_disk -= 1;
        if let (0, Some((begun, count))) = (self.changes_at_disk, self.round) {
            let time = now.saturating_duration_since(begun);
            self.waits_until = Some(now + (time / PARTS_TO_WAIT).min(MOST_TO_WAIT));
            let micros = time.as_micros() as f64 / count as f64;
            self.micros_of_change += WEIGHT * (micros.max(1.0) - self.micros_of_change);
        }
    }
}

/// Which requests a round takes.
#[derive(Clone, Copy, PartialEq, Eq)]
enum Taking {
    Reads,
    Changes,
}

impl Hub<'_> {
    /// Requests to the disk by one write, replies to each client by one; once more where these made room for requests.
    pub(super) fn take_turn(&mut self) -> Result<(), NotServed> {
        loop {
            self.fill();
            self.send_to_disk()?;
            if self.touched.is_empty() {
                return Ok(());
            }
            self.deliver()?;
        }
    }

    fn fill(&mut self) {
        while self.turns.changes_at_disk == 0 && !self.turns.row.is_empty() {
            if self.has_waiting_change() {
                return self.fill_with_changes();
            }
            if self.order.len() >= MOST_AT_DISK || self.round(Taking::Reads, usize::MAX) == 0 {
                return;
            }
        }
    }

    /// How many whole milliseconds a round of changes waits; none where none does. Where it is less than one, which the
    /// system can't wait, whoever has something to do may run meanwhile.
    pub(super) fn time_to_round(&self) -> Option<Duration> {
        let time = self.turns.waits(self.now);
        if time.is_zero() || !self.has_waiting_change() {
            return None;
        }
        if time < Duration::from_millis(1) {
            std::thread::yield_now();
        }
        Some(Duration::from_millis(time.as_millis() as u64))
    }

    fn has_waiting_change(&self) -> bool {
        self.turns.row.iter().any(|slot| match &self.slots[*slot] {
            Slot::Taken(client) => matches!(client.next(), Some(Asked::Change(_))),
            _ => false,
        })
    }

    fn fill_with_changes(&mut self) {
        if !self.turns.reads_went {
            self.round(Taking::Reads, usize::MAX);
            self.turns.reads_went = true;
        }
        if !self.order.is_empty() || !self.turns.waits(self.now).is_zero() {
            return;
        }
        let most = self.turns.most_changes();
        let mut count = 0;
        while count < most {
            let taken = self.round(Taking::Changes, if self.turns.shares { usize::MAX } else { most - count });
            count += taken;
            if taken == 0 || !self.turns.shares {
                break;
            }
        }
        self.stats.rounds += 1;
        self.turns.begin_round(count, self.now);
    }

    /// Takes at most one request of each client in the row, of this kind, and at most so many; how many.
    fn round(&mut self, taking: Taking, most: usize) -> usize {
        let mut count = 0;
        for _ in 0..self.turns.row.len() {
            if count == most {
                break;
            }
            let Some(slot) = self.turns.row.pop_front() else { break };
            count += usize::from(self.take_one(slot, taking));
            if let Slot::Taken(client) = &mut self.slots[slot] {
                client.is_in_row = false;
                self.turns.note(slot, client);
            }
        }
        count
    }

    fn take_one(&mut self, slot: usize, taking: Taking) -> bool {
        let Slot::Taken(client) = &mut self.slots[slot] else { return false };
        let Some(asked) = client.next() else { return false };
        let is_for_hub = matches!(asked, Asked::Hello | Asked::Stats);
        let is_change = matches!(asked, Asked::Change(_));
        if is_change != (taking == Taking::Changes) || (is_for_hub && client.at_disk > 0) {
            return false;
        }
        self.stats.requests[usize::from(asked.code())] += 1;
        self.stats.queue.go(1, self.now);
        if is_for_hub {
            client.take_front();
            self.answer(slot, asked);
            return true;
        }
        put_of_session(asked, client.front(), slot as u32, self.disk.requests.end());
        client.take_front();
        client.at_disk += 1;
        let to = To::Client(slot, client.generation);
        self.expect(to, asked);
        true
    }

    /// What is asked of the hub itself.
    pub(super) fn answer(&mut self, slot: usize, asked: Asked) {
        let Slot::Taken(client) = &mut self.slots[slot] else { return };
        let is_trusted = client.user == 0 || client.user == own_user();
        let body = match (asked, &self.geometry) {
            (Asked::Hello, Some(geometry)) => geometry.greeting(),
            (Asked::Stats, _) if is_trusted => {
                stats_body(&self.stats.plain(self.turns.shares, self.log.left_out_total, self.now))
            }
            _ => NO_REQUEST.to_vec(),
        };
        client.give(&body);
        self.touched.push(slot);
    }

    /// Gives out the replies that have come; whether more may come.
    pub(super) fn take_replies(&mut self, may_end: bool) -> Result<bool, NotServed> {
        let goes_on = self.disk.read(&mut self.room, may_end);
        let replies = std::mem::take(&mut self.disk.replies);
        let mut start = 0;
        while let (None, Some(end)) = (self.complaint, frame_end(replies.held(), start)) {
            self.complaint = self.take_reply(&replies.held()[start + LENGTH_BYTES..end])?;
            start = end;
        }
        self.disk.replies = replies;
        self.disk.replies.consume(start);
        if self.complaint.is_some() {
            self.disk.kill();
        }
        Ok(goes_on && self.complaint.is_none())
    }

    /// Gives out a reply; what is wrong with it, where something is.
    fn take_reply(&mut self, body: &[u8]) -> Result<Option<&'static str>, NotServed> {
        let Some(reply) = Reply::of(body) else { return Ok(Some("what came is no reply")) };
        let Some(sent) = self.order.pop_front() else { return Ok(Some("a reply came to no request")) };
        self.stats.at_disk.go(1, self.now);
        let is_change = matches!(sent.asked, Asked::Change(_));
        if is_change {
            self.turns.end_change(self.now);
        }
        match reply {
            Reply::Refused(rule) => self.stats.refusals[rule] += 1,
            Reply::Done => self.stats.changes += u64::from(is_change),
            Reply::NoMemory => {}
        }
        match sent.to {
            To::Opening => self.open(body)?,
            To::Closed(slot) => self.free(slot),
            To::Client(slot, generation) => self.give(slot, generation, is_change, body),
        }
        Ok(None)
    }

    fn give(&mut self, slot: usize, generation: u64, is_change: bool, body: &[u8]) {
        let Slot::Taken(client) = &mut self.slots[slot] else { return };
        if client.generation == generation {
            client.at_disk -= 1;
            client.give(body);
            if is_change {
                self.turns.await_change(slot, client);
            }
            if self.touched.last() != Some(&slot) {
                self.touched.push(slot);
            }
        }
    }

    fn free(&mut self, slot: usize) {
        if let Slot::Closing(user) = std::mem::replace(&mut self.slots[slot], Slot::Free) {
            self.users.of(user, self.now).sessions -= 1;
            self.stats.sessions -= 1;
        }
    }

    /// Sends the replies, and reads on where that made room for requests.
    pub(super) fn deliver(&mut self) -> Result<(), NotServed> {
        let mut touched = std::mem::take(&mut self.touched);
        touched.sort_unstable();
        touched.dedup();
        for slot in touched.drain(..) {
            self.send_to_client(slot)?;
            if slot <= SESSIONS {
                self.read_client(slot);
            }
        }
        touched.append(&mut self.touched);
        self.touched = touched;
        Ok(())
    }

    pub(super) fn send_to_client(&mut self, slot: usize) -> Result<(), NotServed> {
        let Slot::Taken(client) = &mut self.slots[slot] else { return Ok(()) };
        let before = client.lying();
        let is_all = client.send(self.now);
        self.stats.queue.go(before - client.lying(), self.now);
        if is_all == client.waits_for_room {
            client.waits_for_room = !is_all;
            let interest = if is_all { Interest::Read } else { Interest::ReadAndWrite };
            self.poll.change(&client.stream, slot as u64 | client.generation << 8, interest)?;
        }
        Ok(())
    }
}
