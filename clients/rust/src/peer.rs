//! What is at the other end of a link: a program that was started for it, or a hub.

use std::ffi::OsString;
use std::io::{self, Read};
use std::os::fd::OwnedFd;
use std::os::unix::net::UnixStream;
use std::os::unix::process::{CommandExt, ExitStatusExt};
use std::path::Path;
use std::process::{Child, Command, ExitStatus, Stdio};
use std::thread::sleep;
use std::time::{Duration, Instant};

#[cfg(feature = "embedded")]
use crate::embedded::Embedded;
use crate::error::LinkError;

const MOST_WORDS: u64 = 4096;
const NAP: Duration = Duration::from_millis(2);
const LONGEST_WAIT_FOR_WORDS: Duration = Duration::from_millis(200);

/// The other end.
pub(crate) enum Peer {
    /// A program, and its standard error.
    Program { child: Child, words: UnixStream },
    /// A hub.
    Hub,
    /// The library, and the other end of a socket on which nothing comes.
    #[cfg(feature = "embedded")]
    Library(Embedded),
}

impl Peer {
    /// Starts a program, in a process group of its own: a Ctrl-C at the terminal doesn't reach it. Its standard input
    /// and output are one socket, so that no call on it waits for ever.
    pub(crate) fn start(program: &Path, words: &[OsString]) -> Result<(UnixStream, Self), LinkError> {
        let failed = |error: io::Error| LinkError::system(format!("{} can't be started", program.display()), &error);
        let (ours, theirs) = UnixStream::pair().map_err(failed)?;
        let (our_words, their_words) = UnixStream::pair().map_err(failed)?;
        let mut command = Command::new(program);
        command.args(words).process_group(0);
        command.stdin(Stdio::from(OwnedFd::from(theirs.try_clone().map_err(failed)?)));
        command.stdout(Stdio::from(OwnedFd::from(theirs))).stderr(Stdio::from(OwnedFd::from(their_words)));
        let child = command.spawn().map_err(failed)?;
        Ok((ours, Self::Program { child, words: our_words }))
    }

    /// Joins a hub.
    pub(crate) fn join(socket: &Path) -> Result<(UnixStream, Self), LinkError> {
        let failed = |error: io::Error| LinkError::system(format!("no hub at {}", socket.display()), &error);
        Ok((UnixStream::connect(socket).map_err(failed)?, Self::Hub))
    }

    /// Opens an image by the library. The socket is at its end: only what the library does tells how it went.
    #[cfg(feature = "embedded")]
    pub(crate) fn embed(image: &Path) -> Result<(UnixStream, Self), LinkError> {
        let library = Embedded::open(image)?;
        let pair = UnixStream::pair().map_err(|error| LinkError::system("no socket", &error))?;
        Ok((pair.0, Self::Library(library)))
    }

    /// The replies to a frame, of the library; none where it ended, and of any other peer.
    pub(crate) fn apply(&mut self, frame: &[u8]) -> Option<&[u8]> {
        match self {
            #[cfg(feature = "embedded")]
            Self::Library(library) => Some(library.apply(frame)),
            _ => {
                let _ = frame;
                None
            }
        }
    }

    /// How it ended, once nothing more comes from it. A program that doesn't end within the limit is killed.
    pub(crate) fn ended(&mut self, inside_frame: bool, limit: Duration) -> LinkError {
        #[cfg(feature = "embedded")]
        if let Self::Library(library) = self {
            return library.ended(inside_frame);
        }
        let Self::Program { child, words } = self else { return LinkError::Ended { inside_frame } };
        match wait(child, limit) {
            Ok(status) => LinkError::ProgramEnded { status: number_of(status), words: words_of(words), inside_frame },
            Err(error) => LinkError::system("waiting for the disk's program failed", &error),
        }
    }

    /// Ends it, whatever it does.
    pub(crate) fn stop(&mut self) {
        if let Self::Program { child, .. } = self {
            // Each fails only where the program has ended.
            let _ = child.kill();
            let _ = child.wait();
        }
    }
}

fn wait(child: &mut Child, limit: Duration) -> io::Result<ExitStatus> {
    let until = Instant::now() + limit;
    while Instant::now() < until {
        if let Some(status) = child.try_wait()? {
            return Ok(status);
        }
        sleep(NAP);
    }
    child.kill()?;
    child.wait()
}

fn number_of(status: ExitStatus) -> i32 {
    status.code().unwrap_or_else(|| -status.signal().unwrap_or(0))
}

/// What a program that has ended has put on standard error.
fn words_of(stream: &mut UnixStream) -> String {
    let mut bytes = Vec::new();
    if stream.set_read_timeout(Some(LONGEST_WAIT_FOR_WORDS)).is_ok() {
        // What came until a call failed is told.
        let _ = stream.take(MOST_WORDS).read_to_end(&mut bytes);
    }
    String::from_utf8_lossy(&bytes).trim().to_owned()
}
