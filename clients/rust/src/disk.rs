//! A disk that is open, and its sessions.

use std::cell::RefCell;
use std::fmt;
use std::path::Path;

use crate::capability::Capability;
use crate::error::{Error, LinkError, Refusal};
use crate::link::Link;
use crate::options::Options;
use crate::reply::{Geometry, Reply};
use crate::requests::{self, Request};

const MOST_TARGETS: usize = 64;

/// A disk that is open: of a program that was started for it, or of a hub.
///
/// When it is dropped it is closed, and how that went isn't told: [`close`](Disk::close) tells.
pub struct Disk {
    link: RefCell<Link>,
}

impl Disk {
    /// Starts the program over an image, as [`Options::new`] says.
    ///
    /// # Errors
    /// [`LinkError::System`] where the program can't be started.
    pub fn open(image: impl AsRef<Path>) -> Result<Self, LinkError> {
        Options::new().open(image)
    }

    /// Opens an image in this process, by the library: each request is one call of it, which is over when its reply is
    /// there. Free blocks are taken by `near`.
    ///
    /// # Errors
    /// [`LinkError::Embedded`] where the image can't be opened.
    #[cfg(feature = "embedded")]
    pub fn embed(image: impl AsRef<Path>) -> Result<Self, LinkError> {
        let (stream, peer) = crate::peer::Peer::embed(image.as_ref())?;
        Ok(Self::of(Link::new(stream, peer, std::time::Duration::from_secs(60))?))
    }

    /// Joins the hub at a Unix socket.
    ///
    /// # Errors
    /// [`LinkError::System`] where there is none.
    pub fn connect(socket: impl AsRef<Path>) -> Result<Self, LinkError> {
        Options::new().connect(socket)
    }

    pub(crate) fn of(link: Link) -> Self {
        Self { link: RefCell::new(link) }
    }

    /// Opens a session, 1 to 64. Over a hub there is one at a time, whose number the hub sets.
    ///
    /// # Errors
    /// `AlreadyOpen` and `BadSession`, no memory, or the link's end.
    pub fn session(&self, number: u32) -> Result<Session<'_>, Error> {
        self.ask(requests::Begin, number)?.wait()?;
        Ok(Session { disk: self, number, is_open: true })
    }

    /// How many blocks are free.
    ///
    /// # Errors
    /// The link's end.
    pub fn free(&self) -> Result<u32, Error> {
        self.ask(requests::GetFree, 0)?.wait()
    }

    /// The size of the disk, which a hub tells; `None` where the other side doesn't tell it.
    ///
    /// # Errors
    /// The link's end.
    pub fn geometry(&self) -> Result<Option<Geometry>, Error> {
        match self.ask(requests::GetGeometry, 0)?.wait() {
            Ok(geometry) => Ok(Some(geometry)),
            Err(Error::Refused(Refusal::BadRequest)) => Ok(None),
            Err(error) => Err(error),
        }
    }

    /// Sends a request of a session, and doesn't wait. At most 64 are under way: a further one waits for the oldest
    /// reply first.
    ///
    /// # Errors
    /// Where the link has ended before.
    pub fn ask<R: Request>(&self, request: R, session: u32) -> Result<Pending<'_, R::Answer>, Error> {
        let number = self.link.borrow_mut().send(&request, session)?;
        Ok(Pending { disk: self, number: Some(number), answer: R::answer })
    }

    /// Why the disk can't be used any more; `None` while it can.
    pub fn failure(&self) -> Option<LinkError> {
        self.link.borrow().failure().cloned()
    }

    /// Ends the link, once the requests under way are answered, and waits for the program's end.
    ///
    /// # Errors
    /// `ProgramEnded` where the program ended with another status than 0; another one where the link failed.
    pub fn close(self) -> Result<(), LinkError> {
        self.link.borrow_mut().close()
    }
}

impl fmt::Debug for Disk {
    fn fmt(&self, out: &mut fmt::Formatter<'_>) -> fmt::Result {
        out.debug_struct("Disk").field("failure", &self.failure()).finish_non_exhaustive()
    }
}

/// A request under way. Where it is dropped its reply is passed over: the disk carries it out all the same.
#[must_use = "the answer is told by `wait`"]
pub struct Pending<'a, A> {
    disk: &'a Disk,
    number: Option<u64>,
    answer: fn(Reply) -> Option<A>,
}

impl<A> Pending<'_, A> {
    /// Waits for the answer.
    ///
    /// # Errors
    /// The refusal, no memory, or the link's end.
    pub fn wait(mut self) -> Result<A, Error> {
        let Some(number) = self.number.take() else { unreachable!("a request is waited for once") };
        let mut link = self.disk.link.borrow_mut();
        match link.take(number)? {
            Reply::Refused(refusal) => Err(Error::Refused(refusal)),
            Reply::NoMemory => Err(Error::NoMemory),
            reply => (self.answer)(reply).ok_or_else(|| {
                Error::Link(link.fail(LinkError::NoReply("the reply is of another kind than its request".into())))
            }),
        }
    }
}

impl<A> Drop for Pending<'_, A> {
    fn drop(&mut self) {
        if let Some(number) = self.number {
            self.disk.link.borrow_mut().forget(number);
        }
    }
}

impl<A> fmt::Debug for Pending<'_, A> {
    fn fmt(&self, out: &mut fmt::Formatter<'_>) -> fmt::Result {
        out.write_str("<a request under way>")
    }
}

/// A session of a disk, from its opening to its closing. When it is dropped it is closed.
///
/// Each call waits for its answer; `cap` is what is shown, and a block that isn't primary needs none.
#[derive(Debug)]
pub struct Session<'a> {
    disk: &'a Disk,
    number: u32,
    is_open: bool,
}

impl<'a> Session<'a> {
    /// Its number.
    pub fn number(&self) -> u32 {
        self.number
    }

    /// Sends a request of this session, and doesn't wait.
    ///
    /// # Errors
    /// Where the link has ended before.
    pub fn ask<R: Request>(&self, request: R) -> Result<Pending<'a, R::Answer>, Error> {
        self.disk.ask(request, self.number)
    }

    /// All bytes of a block.
    ///
    /// # Errors
    /// A refusal, or the link's end.
    pub fn read(&self, block: u32, cap: Option<&Capability>) -> Result<Vec<u8>, Error> {
        self.ask(requests::Read { block, cap })?.wait()
    }

    /// Sets a block's bytes; zeros follow to its end.
    ///
    /// # Errors
    /// A refusal, or the link's end.
    pub fn write(&self, block: u32, data: &[u8], cap: Option<&Capability>) -> Result<(), Error> {
        self.ask(requests::Write { block, data, cap })?.wait()
    }

    /// Takes 1 to 32 free blocks, with a pointer to each from the source; their numbers.
    ///
    /// # Errors
    /// A refusal, or the link's end.
    pub fn alloc(
        &self,
        source: u32,
        count: u32,
        hint: Option<u32>,
        cap: Option<&Capability>,
    ) -> Result<Vec<u32>, Error> {
        self.ask(requests::Alloc { source, count, hint, cap })?.wait()
    }

    /// The same with blocks in a row.
    ///
    /// # Errors
    /// A refusal, or the link's end.
    pub fn alloc_contiguous(
        &self,
        source: u32,
        count: u32,
        hint: Option<u32>,
        cap: Option<&Capability>,
    ) -> Result<Vec<u32>, Error> {
        self.ask(requests::AllocContiguous { source, count, hint, cap })?.wait()
    }

    /// Adds a pointer; the capability is for the source.
    ///
    /// # Errors
    /// A refusal, or the link's end.
    pub fn create(&self, source: u32, target: u32, cap: Option<&Capability>) -> Result<(), Error> {
        self.ask(requests::Create { source, target, cap })?.wait()
    }

    /// Deletes a pointer; how many blocks became free.
    ///
    /// # Errors
    /// A refusal, or the link's end.
    pub fn delete(&self, source: u32, target: u32, cap: Option<&Capability>) -> Result<u32, Error> {
        self.ask(requests::Delete { source, target, cap })?.wait()
    }

    /// Gives a primary block new capabilities; what any session holds from it ends.
    ///
    /// # Errors
    /// A refusal, or the link's end.
    pub fn set_capabilities(
        &self,
        block: u32,
        read: &Capability,
        write: &Capability,
        cap: Option<&Capability>,
    ) -> Result<(), Error> {
        self.ask(requests::SetCapabilities { block, read, write, cap })?.wait()
    }

    /// Reclaims what no primary block leads to; how many blocks that were. The capability is for block 0.
    ///
    /// # Errors
    /// A refusal, or the link's end.
    pub fn sweep(&self, cap: Option<&Capability>) -> Result<u32, Error> {
        self.ask(requests::Sweep { cap })?.wait()
    }

    /// The least 64 targets of a block's pointers that aren't below the start, ascending.
    ///
    /// # Errors
    /// A refusal, or the link's end.
    pub fn list64(&self, source: u32, start: u32, cap: Option<&Capability>) -> Result<Vec<u32>, Error> {
        self.ask(requests::List64 { source, start, cap })?.wait()
    }

    /// All targets of a block's pointers, ascending: 64 are asked for at a time, as they are taken. What changes
    /// meanwhile may be told or not.
    pub fn list<'s>(&'s self, source: u32, cap: Option<&'s Capability>) -> Targets<'s> {
        Targets { session: self, source, cap, start: Some(0), batch: Vec::new().into_iter() }
    }

    /// Ends all that the session holds.
    ///
    /// # Errors
    /// The link's end.
    pub fn close(mut self) -> Result<(), Error> {
        self.is_open = false;
        self.ask(requests::End)?.wait()
    }
}

impl Drop for Session<'_> {
    fn drop(&mut self) {
        if self.is_open {
            // Where the link has ended, so has the session. The reply is passed over.
            let _ = self.ask(requests::End);
        }
    }
}

/// The targets of a block's pointers: an iterator that asks for 64 at a time, and ends after an error.
#[derive(Debug)]
pub struct Targets<'s> {
    session: &'s Session<'s>,
    source: u32,
    cap: Option<&'s Capability>,
    /// From where on is asked next; `None` where all was told.
    start: Option<u32>,
    batch: std::vec::IntoIter<u32>,
}

impl Iterator for Targets<'_> {
    type Item = Result<u32, Error>;

    fn next(&mut self) -> Option<Self::Item> {
        if let Some(target) = self.batch.next() {
            return Some(Ok(target));
        }
        let targets = match self.session.list64(self.source, self.start.take()?, self.cap) {
            Ok(targets) => targets,
            Err(error) => return Some(Err(error)),
        };
        if targets.len() == MOST_TARGETS {
            self.start = targets.last().and_then(|last| last.checked_add(1));
        }
        self.batch = targets.into_iter();
        self.batch.next().map(Ok)
    }
}
