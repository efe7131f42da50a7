//! The disk's program: requests in, replies out, in one order.

use std::fs::File;
use std::io::{Read, Result, Seek};
use std::os::unix::process::{CommandExt, ExitStatusExt};
use std::process::{Child, ChildStdin, ChildStdout, Command, ExitStatus, Stdio};
use std::time::{Duration, Instant};

use crate::buffer::{Buffer, Moved};
use crate::system::{kill_group, memory_file, set_nonblocking, widen_pipe};

const MOST_WORDS: u64 = 4096;
const PIPE_BYTES: usize = 1 << 20;
const TIME_TO_TELL: Duration = Duration::from_secs(10);
const NAP: Duration = Duration::from_millis(5);

/// How the disk's program ended: its status (below 0 for a signal), and its words on standard error.
#[derive(Clone, Debug)]
pub struct Ending {
    /// The status.
    pub status: i32,
    /// The words.
    pub words: String,
}

/// A running program that serves frames.
pub struct Disk {
    /// Where its replies come from.
    pub output: ChildStdout,
    /// Where its requests go, until they end.
    pub input: Option<ChildStdin>,
    /// What is to go there.
    pub requests: Buffer,
    /// What has come.
    pub replies: Buffer,
    /// Whether room for requests is waited for.
    pub waits_for_room: bool,
    child: Child,
    error: File,
}

impl Disk {
    /// Starts a program, in a process group of its own: a Ctrl-C at the terminal is for the hub alone.
    pub fn start(words: &[String]) -> Result<Disk> {
        let error = memory_file()?;
        let mut child = Command::new(&words[0])
            .args(&words[1..])
            .stdin(Stdio::piped())
            .stdout(Stdio::piped())
            .stderr(error.try_clone()?)
            .process_group(0)
            .spawn()?;
        let (input, output) = (child.stdin.take(), child.stdout.take());
        let (Some(input), Some(output)) = (input, output) else { unreachable!("both are pipes") };
        set_nonblocking(&input)?;
        set_nonblocking(&output)?;
        widen_pipe(&output, PIPE_BYTES);
        widen_pipe(&input, PIPE_BYTES);
        let (requests, replies) = (Buffer::default(), Buffer::default());
        Ok(Disk { output, input: Some(input), requests, replies, waits_for_room: false, child, error })
    }

    /// The number of its process.
    pub fn process(&self) -> u32 {
        self.child.id()
    }

    /// Sends as much as it takes at once; whether all. Where it takes no more it has ended, and its output says so.
    pub fn send(&mut self) -> bool {
        let Some(input) = &mut self.input else { return true };
        match self.requests.write_to(input) {
            Moved::All => true,
            Moved::Some => false,
            Moved::Over => {
                self.requests.clear();
                true
            }
        }
    }

    /// Reads what has come; whether its output goes on.
    pub fn read(&mut self, room: &mut [u8], may_end: bool) -> bool {
        loop {
            match self.replies.read_from(&mut self.output, room, may_end) {
                Moved::All => return true,
                Moved::Some => {}
                Moved::Over => return false,
            }
        }
    }

    /// Ends its requests.
    pub fn end_requests(&mut self) {
        self.input = None;
    }

    /// Kills it, with what it has started itself.
    pub fn kill(&mut self) {
        if matches!(self.child.try_wait(), Ok(None)) {
            kill_group(self.process());
        }
    }

    /// How it ended, where it has; it is killed where it hasn't when the time is over.
    pub fn ending(&mut self, until: Instant) -> Ending {
        let status = wait_until(&mut self.child, until).unwrap_or_else(|| {
            self.kill();
            self.child.wait().unwrap_or_default()
        });
        let mut words = Vec::new();
        let _ = self.error.rewind().and_then(|()| (&self.error).take(MOST_WORDS).read_to_end(&mut words));
        let words = String::from_utf8_lossy(&words).trim().to_owned();
        Ending { status: number_of(status), words }
    }
}

fn number_of(status: ExitStatus) -> i32 {
    status.code().unwrap_or_else(|| -status.signal().unwrap_or(0))
}

fn wait_until(child: &mut Child, until: Instant) -> Option<ExitStatus> {
    loop {
        match child.try_wait() {
            Ok(Some(status)) => return Some(status),
            Ok(None) if Instant::now() < until => std::thread::sleep(NAP),
            _ => return None,
        }
    }
}

/// The command that serves frames: `group`, by which requests that come together share their syncs, where the program
/// has it, and else `serve`.
pub fn serving_command(program: &str) -> &'static str {
    let asked = Command::new(program)
        .args(["help", "group"])
        .stdin(Stdio::null())
        .stdout(Stdio::null())
        .stderr(Stdio::null())
        .process_group(0)
        .spawn();
    let Ok(mut child) = asked else { return "serve" };
    match wait_until(&mut child, Instant::now() + TIME_TO_TELL) {
        Some(status) if status.success() => "group",
        Some(_) => "serve",
        None => {
            kill_group(child.id());
            let _ = child.wait();
            "serve"
        }
    }
}
