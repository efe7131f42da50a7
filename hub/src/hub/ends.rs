//! How a hub ends: each client is told why, and the disk ends in order.

use std::time::{Duration, Instant};

use super::{Hub, NotServed, Slot, OF_LISTENER, OF_OUTPUT};
use crate::disk::Ending;
use crate::frames::{told_body, Told};
use crate::system::Event;

/// What a client doesn't take within this time is lost.
const TIME_TO_TAKE: Duration = Duration::from_secs(1);
/// A disk that has closed its output has so long to end.
const TIME_TO_DIE: Duration = Duration::from_secs(5);
const FAILED: i32 = 1;

impl Hub<'_> {
    /// A signal came: the disk ends in order, or is killed where that takes too long.
    pub(super) fn stop(&mut self, number: i32) -> Result<i32, NotServed> {
        self.log.always(&format!("stopped by signal {number}"));
        let until = self.now + self.options.stop_limit;
        let until_told = self.now + TIME_TO_TAKE;
        self.tell_all(&told_body(Told::Stopped, 0, ""))?;
        let mut goes_on = true;
        while goes_on && Instant::now() < until {
            if self.disk.requests.is_empty() {
                self.disk.end_requests();
            }
            goes_on = self.wait_a_little(until)?;
        }
        while self.has_untold() && Instant::now() < until_told {
            self.wait_a_little(until_told)?;
        }
        let ending = self.disk.ending(until);
        if ending.status != 0 {
            self.tell_of(&ending);
        }
        Ok(self.over(&ending))
    }

    /// The disk ended by itself: each client is told how. The status is its own, but not 0.
    pub(super) fn after_the_disk(&mut self) -> Result<i32, NotServed> {
        let mut ending = self.disk.ending(self.now + TIME_TO_DIE);
        if let Some(complaint) = self.complaint {
            ending.words = complaint.to_owned();
        }
        self.tell_of(&ending);
        let until = Instant::now() + TIME_TO_TAKE;
        self.tell_all(&told_body(Told::DiskEnded, ending.status, &ending.words))?;
        while self.has_untold() && Instant::now() < until {
            self.wait_a_little(until)?;
        }
        Ok(self.over(&ending).max(FAILED))
    }

    fn tell_of(&mut self, ending: &Ending) {
        self.log.always(&format!("the disk ended with status {}: {}", ending.status, ending.words));
    }

    /// The status of the hub: the disk's, and 1 where it was killed.
    fn over(&mut self, ending: &Ending) -> i32 {
        self.keep_metrics();
        self.log.end();
        if ending.status < 0 {
            FAILED
        } else {
            ending.status
        }
    }

    fn tell_all(&mut self, body: &[u8]) -> Result<(), NotServed> {
        if self.is_open {
            self.poll.remove(self.listening.listener())?;
        }
        self.tell_joiners(body);
        for slot in 0..self.slots.len() {
            if let Slot::Taken(client) = &mut self.slots[slot] {
                client.drop_requests();
                client.give(body);
                self.touched.push(slot);
            }
        }
        self.send_all()
    }

    /// Whether there is a client that hasn't taken all.
    fn has_untold(&self) -> bool {
        self.slots.iter().any(|slot| matches!(slot, Slot::Taken(client) if client.waits_for_room))
    }

    fn send_all(&mut self) -> Result<(), NotServed> {
        for slot in std::mem::take(&mut self.touched) {
            self.send_to_client(slot)?;
            if matches!(&self.slots[slot], Slot::Taken(client) if !client.waits_for_room) {
                self.slots[slot] = Slot::Free;
            }
        }
        Ok(())
    }

    /// Takes what happens next, but no requests; whether the disk's output goes on.
    fn wait_a_little(&mut self, until: Instant) -> Result<bool, NotServed> {
        let mut events: Vec<Event> = Vec::new();
        let left = until.saturating_duration_since(Instant::now());
        self.poll.wait(Some(left.min(super::TICK)), &mut events)?;
        let mut goes_on = true;
        for event in events {
            match event.key {
                OF_OUTPUT => goes_on = self.disk.read(&mut self.room, event.has_ended),
                super::OF_INPUT | OF_LISTENER | super::OF_SIGNALS => {}
                key if event.is_writable => self.touched.push((key & 0xff) as usize),
                _ => {}
            }
        }
        self.disk.replies.clear();
        self.send_to_disk()?;
        self.send_all()?;
        Ok(goes_on)
    }
}
