//! Lines on standard error. They are limited in number, and whoever reads them delays nobody.

use std::io::{Result, Write};
use std::path::{Path, PathBuf};
use std::sync::mpsc::{sync_channel, SyncSender};
use std::thread::JoinHandle;
use std::time::{Duration, Instant};

use crate::limits::Allowance;

/// So many lines may come at once, and then so many a second.
const LINES: (f64, f64) = (256.0, 10.0);
const MOST_WAITING: usize = 512;
const TIME_TO_END: Duration = Duration::from_secs(1);
const NAP: Duration = Duration::from_millis(5);

enum Put {
    Line(String),
    File(PathBuf, String),
}

/// A log. A thread of its own writes it, and also the file of the hub's numbers.
pub struct Log {
    puts: Option<SyncSender<Put>>,
    writer: Option<JoinHandle<()>>,
    allowance: Allowance,
    left_out: u64,
    /// How many lines were left out in all.
    pub left_out_total: u64,
}

impl Log {
    /// A log that begins.
    pub fn new(now: Instant) -> Log {
        let (puts, taken) = sync_channel::<Put>(MOST_WAITING);
        let writer = std::thread::spawn(move || taken.into_iter().for_each(put_out));
        let allowance = Allowance::new(LINES, now);
        Log { puts: Some(puts), writer: Some(writer), allowance, left_out: 0, left_out_total: 0 }
    }

    /// A line that may be left out where there are too many.
    pub fn line(&mut self, now: Instant, text: &str) {
        if self.allowance.take(now) {
            self.tell_left_out();
            self.put(text);
        } else {
            self.leave_out();
        }
    }

    /// A line of the hub itself, of which there are few.
    pub fn always(&mut self, text: &str) {
        self.tell_left_out();
        self.put(text);
    }

    fn tell_left_out(&mut self) {
        if self.left_out > 0 {
            let text = format!("{} lines were left out, as too many came", self.left_out);
            self.left_out = 0;
            self.put(&text);
        }
    }

    fn put(&mut self, text: &str) {
        let line = Put::Line(format!("tsd-hub: {text}\n"));
        if self.puts.as_ref().is_some_and(|puts| puts.try_send(line).is_err()) {
            self.leave_out();
        }
    }

    /// Puts a text into a file, when it is its turn. It isn't put where too much waits.
    pub fn keep_file(&mut self, path: &Path, text: String) {
        if let Some(puts) = &self.puts {
            let _ = puts.try_send(Put::File(path.to_owned(), text));
        }
    }

    /// Puts a text into a file, which has the old text or the new one at each moment.
    pub fn write_file(path: &Path, text: &str) -> Result<()> {
        let mut beside = path.as_os_str().to_owned();
        beside.push(format!(".{}", std::process::id()));
        std::fs::write(&beside, text).and_then(|()| std::fs::rename(&beside, path))
    }

    fn leave_out(&mut self) {
        self.left_out += 1;
        self.left_out_total += 1;
    }

    /// Ends it. Lines that nobody takes within a second are lost.
    pub fn end(&mut self) {
        self.tell_left_out();
        self.puts = None;
        let until = Instant::now() + TIME_TO_END;
        while self.writer.as_ref().is_some_and(|writer| !writer.is_finished()) && Instant::now() < until {
            std::thread::sleep(NAP);
        }
    }
}

fn put_out(put: Put) {
    let line = match put {
        Put::Line(line) => line,
        Put::File(path, text) => match Log::write_file(&path, &text) {
            Ok(()) => return,
            Err(error) => format!("tsd-hub: {}: {error}\n", path.display()),
        },
    };
    let _ = std::io::stderr().write_all(line.as_bytes());
}
