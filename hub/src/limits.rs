//! How much of something is allowed: some at once, and then so many a second; and what each user may have.

use std::collections::HashMap;
use std::time::Instant;

/// So many connections of a user may come at once, and then so many a second.
pub const JOINS: (f64, f64) = (64.0, 100.0);
/// So many connections of a user may wait for that.
pub const MOST_WAITING: usize = 64;
/// So many of all users may: a process may have 1,024 files open, where nothing else is set.
pub const MOST_OF_ALL: usize = 512;

/// An allowance that grows again.
pub struct Allowance {
    most: f64,
    a_second: f64,
    left: f64,
    since: Instant,
}

impl Allowance {
    /// A full one.
    pub fn new((most, a_second): (f64, f64), now: Instant) -> Allowance {
        Allowance { most, a_second, left: most, since: now }
    }

    /// Takes one, if there is one.
    pub fn take(&mut self, now: Instant) -> bool {
        let grown = now.saturating_duration_since(self.since).as_secs_f64() * self.a_second;
        self.left = (self.left + grown).min(self.most);
        self.since = now;
        let is_there = self.left >= 1.0;
        if is_there {
            self.left -= 1.0;
        }
        is_there
    }
}

/// What a user has.
pub struct User {
    /// The user's name, as the log tells it.
    pub name: String,
    /// Sessions.
    pub sessions: usize,
    /// Connections that wait to be served.
    pub waiting: usize,
    /// What may join.
    pub joins: Allowance,
}

/// The users that were seen.
#[derive(Default)]
pub struct Users {
    by_number: HashMap<u32, User>,
}

impl Users {
    /// A user.
    pub fn of(&mut self, number: u32, now: Instant) -> &mut User {
        self.by_number.entry(number).or_insert_with(|| User {
            name: crate::system::user_name(number).unwrap_or_else(|| "unknown".into()),
            sessions: 0,
            waiting: 0,
            joins: Allowance::new(JOINS, now),
        })
    }
}
