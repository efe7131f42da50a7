//! What a hub counts, and its two texts.

use std::fmt::Write;
use std::time::Instant;

use crate::frames::{KINDS, RULE_NAMES};

/// How many of something there are, and how long all that there ever were have stayed.
pub struct Stay {
    since: Instant,
    /// How many there are.
    pub count: i64,
    moments: i64,
}

impl Stay {
    /// Of none.
    pub fn new(since: Instant) -> Stay {
        Stay { since, count: 0, moments: 0 }
    }

    fn micros(&self, now: Instant) -> i64 {
        now.saturating_duration_since(self.since).as_micros() as i64
    }

    /// So many come.
    pub fn come(&mut self, count: usize, now: Instant) {
        self.count += count as i64;
        self.moments -= count as i64 * self.micros(now);
    }

    /// So many go.
    pub fn go(&mut self, count: usize, now: Instant) {
        self.count -= count as i64;
        self.moments += count as i64 * self.micros(now);
    }

    /// The seconds that all of them have stayed, together.
    pub fn seconds(&self, now: Instant) -> f64 {
        (self.moments + self.count * self.micros(now)) as f64 / 1e6
    }
}

/// Why a connection wasn't served.
#[derive(Clone, Copy)]
pub enum Turned {
    /// All sessions were taken.
    Full,
    /// Its user had as many as a user may have.
    User,
    /// Its user joined too often.
    Rate,
}

const TURNED: [&str; 3] = ["full", "user", "rate"];

/// The counts.
pub struct Stats {
    /// Requests that lie in the hub.
    pub queue: Stay,
    /// Requests at the disk.
    pub at_disk: Stay,
    /// Requests by the codes of their kinds.
    pub requests: [u64; KINDS.len()],
    /// Refusals by the bytes of their rules.
    pub refusals: [u64; RULE_NAMES.len()],
    /// Changes that were carried out.
    pub changes: u64,
    /// Rounds of changes that were sent to the disk.
    pub rounds: u64,
    /// Sessions now.
    pub sessions: usize,
    /// Sessions in all.
    pub sessions_total: u64,
    /// Connections that weren't served.
    pub turned_away: [u64; TURNED.len()],
    /// Connections that had hung up before they were served.
    pub hung_up: u64,
    /// Connections that were closed since they asked nothing.
    pub idle: u64,
    begun: Instant,
}

type Row = (&'static str, &'static str, Option<(&'static str, &'static str)>, String);

impl Stats {
    /// Of a hub that begins.
    pub fn new(now: Instant) -> Stats {
        Stats {
            queue: Stay::new(now),
            at_disk: Stay::new(now),
            requests: [0; KINDS.len()],
            refusals: [0; RULE_NAMES.len()],
            changes: 0,
            rounds: 0,
            sessions: 0,
            sessions_total: 0,
            turned_away: [0; TURNED.len()],
            hung_up: 0,
            idle: 0,
            begun: now,
        }
    }

    /// Counts a connection that isn't served.
    pub fn turn_away(&mut self, why: Turned) {
        self.turned_away[why as usize] += 1;
    }

    /// How many syncs of the image the changes took at least: two for each that was carried out, or, where those that
    /// come together share them, for each round in which one may have been.
    fn syncs(&self, shares: bool) -> u64 {
        2 * if shares { self.rounds.min(self.changes) } else { self.changes }
    }

    fn rows(&self, shares: bool, left_out: u64, now: Instant) -> Vec<Row> {
        let whole = |name, kind, value: u64| -> Row { (name, kind, None, value.to_string()) };
        let time = |name, value: f64| -> Row { (name, "counter", None, format!("{value:.6}")) };
        let mut rows = Vec::new();
        let labelled = [
            ("requests_total", "kind", &KINDS[..], &self.requests[..]),
            ("refusals_total", "rule", &RULE_NAMES[..], &self.refusals[..]),
            ("turned_away_total", "why", &TURNED[..], &self.turned_away[..]),
        ];
        for (name, label, names, counts) in labelled {
            for (value, count) in names.iter().copied().zip(counts) {
                rows.push((name, "counter", Some((label, value)), count.to_string()));
            }
        }
        rows.extend([
            whole("changes_total", "counter", self.changes),
            whole("change_rounds_total", "counter", self.rounds),
            whole("syncs_at_least_total", "counter", self.syncs(shares)),
            whole("sessions", "gauge", self.sessions as u64),
            whole("sessions_total", "counter", self.sessions_total),
            whole("hung_up_total", "counter", self.hung_up),
            whole("idle_closed_total", "counter", self.idle),
            whole("queue_requests", "gauge", self.queue.count.max(0) as u64),
            time("queue_seconds_total", self.queue.seconds(now)),
            whole("disk_requests", "gauge", self.at_disk.count.max(0) as u64),
            time("disk_seconds_total", self.at_disk.seconds(now)),
            whole("log_lines_left_out_total", "counter", left_out),
            time("up_seconds_total", now.saturating_duration_since(self.begun).as_secs_f64()),
        ]);
        rows
    }

    /// A line for each number: its name, a label where it has one, and its value.
    pub fn plain(&self, shares: bool, left_out: u64, now: Instant) -> String {
        let mut text = String::new();
        for (name, _, label, value) in self.rows(shares, left_out, now) {
            let _ = match label {
                Some((_, label)) => writeln!(text, "{name} {label} {value}"),
                None => writeln!(text, "{name} {value}"),
            };
        }
        text
    }

    /// The same in Prometheus's form.
    pub fn prometheus(&self, shares: bool, left_out: u64, now: Instant) -> String {
        let (mut text, mut last) = (String::new(), "");
        for (name, kind, label, value) in self.rows(shares, left_out, now) {
            if name != last {
                let _ = writeln!(text, "# TYPE tsd_hub_{name} {kind}");
            }
            last = name;
            let _ = match label {
                Some((label, of)) => writeln!(text, "tsd_hub_{name}{{{label}=\"{of}\"}} {value}"),
                None => writeln!(text, "tsd_hub_{name} {value}"),
            };
        }
        text
    }
}
