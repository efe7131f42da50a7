//! Connections that come: who is served, who waits, and who is turned away.
//!
//! A user may have so many sessions, and may join so often: whoever comes sooner waits. One that has hung up meanwhile
//! is dropped, and costs its user nothing; so a process that connects and closes in a loop delays neither other users
//! nor, for long, its own.

use std::io::ErrorKind;
use std::os::unix::net::UnixStream;
use std::time::{Duration, Instant};

use super::{Hub, Listening, Slot, GUESTS, SESSIONS};
use crate::client::Client;
use crate::frames::{put_frame, told_body, Asked, Told};
use crate::limits::{MOST_OF_ALL, MOST_WAITING};
use crate::stats::Turned;
use crate::system::{has_hung_up, peer_of, Interest};

/// So many connections are taken in a turn.
const MOST_IN_TURN: usize = 16;
/// So long a connection without a session may ask for the hub's numbers.
const TIME_OF_GUEST: Duration = Duration::from_millis(100);

/// A connection that isn't served yet.
pub struct Joiner {
    stream: UnixStream,
    process: i32,
    user: u32,
}

impl Hub<'_> {
    /// Takes connections.
    pub(super) fn accept(&mut self) {
        for _ in 0..MOST_IN_TURN {
            let stream = match self.listening.listener().accept() {
                Ok((stream, _)) => stream,
                Err(error) if error.kind() == ErrorKind::WouldBlock => return,
                Err(error) => {
                    self.log.line(self.now, &format!("a connection couldn't be taken: {error}"));
                    return std::thread::sleep(super::TICK);
                }
            };
            if has_hung_up(&stream) {
                self.stats.hung_up += 1;
                continue;
            }
            if stream.set_nonblocking(true).is_err() {
                continue;
            }
            if let Ok((process, user)) = peer_of(&stream) {
                self.let_wait(Joiner { stream, process, user });
            }
        }
    }

    fn let_wait(&mut self, joiner: Joiner) {
        if self.users.of(joiner.user, self.now).waiting >= MOST_WAITING {
            self.drop_hung_up(joiner.user);
        }
        let user = self.users.of(joiner.user, self.now);
        if user.waiting >= MOST_WAITING || self.joiners.len() >= MOST_OF_ALL {
            return self.turn_away(joiner, Turned::Rate);
        }
        user.waiting += 1;
        self.joiners.push_back(joiner);
    }

    fn drop_hung_up(&mut self, number: u32) {
        let before = self.joiners.len();
        self.joiners.retain(|joiner| joiner.user != number || !has_hung_up(&joiner.stream));
        let dropped = before - self.joiners.len();
        self.users.of(number, self.now).waiting -= dropped;
        self.stats.hung_up += dropped as u64;
    }

    /// Lets those join who may.
    pub(super) fn let_join(&mut self) {
        for _ in 0..self.joiners.len() {
            let Some(joiner) = self.joiners.pop_front() else { return };
            let has_hung_up = has_hung_up(&joiner.stream);
            let user = self.users.of(joiner.user, self.now);
            if has_hung_up {
                user.waiting -= 1;
                self.stats.hung_up += 1;
            } else if user.joins.take(self.now) {
                user.waiting -= 1;
                self.join(joiner);
            } else {
                self.joiners.push_back(joiner);
            }
        }
    }

    fn join(&mut self, joiner: Joiner) {
        let sessions = self.users.of(joiner.user, self.now).sessions;
        let free = self.slots[1..=SESSIONS].iter().position(|slot| matches!(slot, Slot::Free));
        match free {
            Some(at) if sessions < self.options.per_user => self.begin(joiner, at + 1),
            _ => self.welcome_guest(joiner, if free.is_none() { Turned::Full } else { Turned::User }),
        }
    }

    fn peer_text(&mut self, joiner: &Joiner) -> String {
        let (process, number) = (joiner.process, joiner.user);
        let name = &self.users.of(number, self.now).name;
        let command = std::fs::read_to_string(format!("/proc/{process}/comm"));
        let command = command.map(|name| format!(" ('{}')", name.trim().escape_debug())).unwrap_or_default();
        format!("user {name} ({number}), process {process}{command}")
    }

    fn begin(&mut self, joiner: Joiner, slot: usize) {
        let peer = self.peer_text(&joiner);
        self.log.line(self.now, &format!("session {slot}: connected: {peer}"));
        self.users.of(joiner.user, self.now).sessions += 1;
        self.stats.sessions += 1;
        self.stats.sessions_total += 1;
        self.take_place(joiner, slot, peer);
    }

    fn take_place(&mut self, joiner: Joiner, slot: usize, peer: String) {
        self.generation += 1;
        let key = slot as u64 | self.generation << 8;
        let added = self.poll.add(&joiner.stream, key, Interest::Read);
        let client = Client::new(joiner.stream, joiner.user, peer, self.generation, self.now);
        self.slots[slot] = Slot::Taken(client);
        match added {
            Ok(()) => self.read_client(slot),
            Err(_) => self.finish(slot),
        }
    }

    /// A connection for which no session is left may still ask for the hub's numbers.
    fn welcome_guest(&mut self, joiner: Joiner, why: Turned) {
        self.stats.turn_away(why);
        let peer = self.peer_text(&joiner);
        let reason = self.reason(why, joiner.user);
        self.log.line(self.now, &format!("refused, as {reason}: {peer}"));
        let guests = SESSIONS + 1..=SESSIONS + GUESTS;
        match guests.clone().find(|slot| matches!(self.slots[*slot], Slot::Free)) {
            Some(slot) => self.take_place(joiner, slot, reason),
            None => tell(joiner.stream, &refusal(why, &reason)),
        }
    }

    fn reason(&mut self, why: Turned, number: u32) -> String {
        let name = &self.users.of(number, self.now).name;
        match why {
            Turned::Full => "all sessions are taken".to_owned(),
            Turned::User => format!("user {name} ({number}) has {} sessions", self.options.per_user),
            Turned::Rate => format!("user {name} ({number}) joins too often"),
        }
    }

    fn turn_away(&mut self, joiner: Joiner, why: Turned) {
        self.stats.turn_away(why);
        let reason = self.reason(why, joiner.user);
        self.log.line(self.now, &format!("refused, as {reason}: process {}", joiner.process));
        tell(joiner.stream, &refusal(why, &reason));
    }

    /// A guest may ask for the hub's numbers; whatever else it sends, it is told that no session is left.
    pub(super) fn meet_guest(&mut self, slot: usize) {
        loop {
            let Slot::Taken(client) = &mut self.slots[slot] else { return };
            match client.next() {
                Some(Asked::Stats) => {
                    client.take_front();
                    self.stats.queue.go(1, self.now);
                    self.answer(slot, Asked::Stats);
                }
                Some(_) => return self.dismiss_guest(slot),
                None if client.is_done() => return self.finish(slot),
                None => return,
            }
        }
    }

    fn dismiss_guest(&mut self, slot: usize) {
        let Slot::Taken(client) = &mut self.slots[slot] else { return };
        let is_all = client.peer == "all sessions are taken";
        let body = refusal(if is_all { Turned::Full } else { Turned::User }, &client.peer);
        client.give(&body);
        client.send(self.now);
        self.finish(slot);
    }

    pub(super) fn dismiss_guests(&mut self) {
        for slot in SESSIONS + 1..=SESSIONS + GUESTS {
            if self.has_waited(slot, TIME_OF_GUEST) {
                self.dismiss_guest(slot);
            }
        }
    }

    fn has_waited(&self, slot: usize, time: Duration) -> bool {
        let since = |heard: Instant| self.now.saturating_duration_since(heard);
        matches!(&self.slots[slot], Slot::Taken(client) if client.is_at_rest() && since(client.last_heard) > time)
    }

    /// Closes clients that have asked nothing for longer than they may.
    pub(super) fn dismiss_idle(&mut self) {
        let Some(idle) = self.options.idle else { return };
        for slot in 1..=SESSIONS {
            if self.has_waited(slot, idle) {
                let words = format!("nothing was asked for {} seconds", idle.as_secs_f64());
                self.stats.idle += 1;
                if let Slot::Taken(client) = &mut self.slots[slot] {
                    client.give(&told_body(Told::Idle, 0, &words));
                    client.send(self.now);
                }
                self.finish(slot);
            }
        }
    }

    /// Tells those who wait, and those whose connection wasn't taken, that all is over.
    pub(super) fn tell_joiners(&mut self, body: &[u8]) {
        for joiner in self.joiners.drain(..) {
            tell(joiner.stream, body);
        }
        let listener = match &self.listening {
            Listening::Own(place) => &place.listener,
            // What systemd holds stays for the next hub.
            Listening::OfSystemd(_) => return,
        };
        while let Ok((stream, _)) = listener.accept() {
            tell(stream, body);
        }
    }
}

fn refusal(why: Turned, reason: &str) -> Vec<u8> {
    let words = if matches!(why, Turned::Full) { "" } else { reason };
    told_body(Told::Full, 0, words)
}

/// Tells a new connection one frame, for which there is room, and closes it.
fn tell(mut stream: UnixStream, body: &[u8]) {
    let mut frame = Vec::new();
    put_frame(body, &mut frame);
    let _ = stream.set_nonblocking(true);
    let _ = std::io::Write::write(&mut stream, &frame);
}
