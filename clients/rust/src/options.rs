//! How a disk is opened: by which program, with which placement, and how long a silence may last.

use std::ffi::OsString;
use std::fmt;
use std::path::{Path, PathBuf};
use std::time::Duration;

use crate::disk::Disk;
use crate::error::LinkError;
use crate::link::Link;
use crate::peer::Peer;

/// Which free block is taken first.
#[derive(Debug, Clone, Copy, PartialEq, Eq, Default)]
pub enum Place {
    /// The lowest.
    Low,
    /// The nearest to the hint.
    #[default]
    Near,
    /// From the hint on, round the disk.
    Spread,
    /// By zones of 256 blocks, from the hint's on.
    Zone,
}

/// Which command of the program serves the frames.
#[derive(Debug, Clone, Copy, PartialEq, Eq)]
pub enum Command {
    /// A commit for each request.
    Serve,
    /// A commit for all requests that lie there together.
    Group,
}

/// How a disk is opened.
///
/// ```no_run
/// use std::time::Duration;
/// use tsd_client::{Options, Place};
/// # fn main() -> Result<(), tsd_client::LinkError> {
/// let disk = Options::new().program("/usr/bin/tsd").place(Place::Low).limit(Duration::from_secs(5)).open("disk.img")?;
/// # drop(disk);
/// # Ok(())
/// # }
/// ```
#[derive(Debug, Clone)]
pub struct Options {
    program: Option<PathBuf>,
    place: Place,
    command: Option<Command>,
    limit: Duration,
}

impl Options {
    /// The program that the variable TSD_PROGRAM names, or else `tsd` on the path; the command `group` where the
    /// program has it, else `serve`; the placement `near`; and a limit of 60 seconds.
    pub fn new() -> Self {
        Self { program: None, place: Place::default(), command: None, limit: Duration::from_secs(60) }
    }

    /// Which program is started.
    pub fn program(mut self, program: impl AsRef<Path>) -> Self {
        self.program = Some(program.as_ref().to_owned());
        self
    }

    /// Which free block is taken first.
    pub fn place(mut self, place: Place) -> Self {
        self.place = place;
        self
    }

    /// Which command of the program serves.
    pub fn command(mut self, command: Command) -> Self {
        self.command = Some(command);
        self
    }

    /// Where requests are under way and no reply comes for so long, the link has failed ([`LinkError::Silent`]). The
    /// first reply waits until the image is open. It is at least a millisecond.
    pub fn limit(mut self, limit: Duration) -> Self {
        self.limit = limit.max(Duration::from_millis(1));
        self
    }

    /// Starts the program over an image, for this process alone. That the image can't be opened is told by the first
    /// call.
    ///
    /// # Errors
    /// [`LinkError::System`] where the program can't be started.
    pub fn open(&self, image: impl AsRef<Path>) -> Result<Disk, LinkError> {
        let program = self.program.clone().unwrap_or_else(named_program);
        let command = self.command.unwrap_or_else(|| Command::of(&program));
        let words = [image_word(image.as_ref()), command.to_string().into(), self.place.to_string().into()];
        let (stream, peer) = Peer::start(&program, &words)?;
        Ok(Disk::of(Link::new(stream, peer, self.limit)?))
    }

    /// Joins the hub at a Unix socket.
    ///
    /// # Errors
    /// [`LinkError::System`] where there is none.
    pub fn connect(&self, socket: impl AsRef<Path>) -> Result<Disk, LinkError> {
        let (stream, peer) = Peer::join(socket.as_ref())?;
        Ok(Disk::of(Link::new(stream, peer, self.limit)?))
    }
}

impl Default for Options {
    fn default() -> Self {
        Self::new()
    }
}

impl Command {
    /// `Group` where the program has that command.
    fn of(program: &Path) -> Self {
        let mut asked = std::process::Command::new(program);
        asked.args(["help", "group"]).stdin(std::process::Stdio::null());
        match asked.output() {
            Ok(told) if told.status.success() => Self::Group,
            _ => Self::Serve,
        }
    }
}

impl fmt::Display for Command {
    fn fmt(&self, out: &mut fmt::Formatter<'_>) -> fmt::Result {
        out.write_str(match self {
            Self::Serve => "serve",
            Self::Group => "group",
        })
    }
}

impl fmt::Display for Place {
    fn fmt(&self, out: &mut fmt::Formatter<'_>) -> fmt::Result {
        out.write_str(match self {
            Self::Low => "low",
            Self::Near => "near",
            Self::Spread => "spread",
            Self::Zone => "zone",
        })
    }
}

fn named_program() -> PathBuf {
    std::env::var_os("TSD_PROGRAM").filter(|name| !name.is_empty()).unwrap_or_else(|| "tsd".into()).into()
}

/// The image as a word that the program takes for no other: `help`, `mirror` and what begins with a dash get a `./`.
fn image_word(image: &Path) -> OsString {
    let word = image.as_os_str();
    let is_taken = word == "help" || word == "mirror" || word.as_encoded_bytes().starts_with(b"-") && word != "-";
    if !is_taken {
        return word.to_owned();
    }
    let mut longer = OsString::from("./");
    longer.push(word);
    longer
}

#[cfg(test)]
mod tests {
    use super::*;

    #[test]
    fn an_image_is_taken_for_no_other_word() {
        for (name, word) in [("a", "a"), ("-", "-"), ("-x", "./-x"), ("help", "./help"), ("mirror", "./mirror")] {
            assert_eq!(OsString::from(word), image_word(Path::new(name)));
        }
    }
}
