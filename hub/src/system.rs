//! What the standard library lacks of Linux. All of the program's `unsafe` stands here.

use std::ffi::{c_char, c_int, c_long, c_uint, c_void, CStr};
use std::fs::File;
use std::io::{Error, ErrorKind, Result};
use std::os::fd::{AsRawFd, FromRawFd, IntoRawFd, OwnedFd, RawFd};
use std::os::unix::ffi::OsStrExt;
use std::os::unix::net::{UnixListener, UnixStream};
use std::path::Path;
use std::sync::atomic::{AtomicI32, Ordering};
use std::time::Duration;

const EPOLL_CLOEXEC: c_int = 0o2000000;
const EPOLL_CTL_ADD: c_int = 1;
const EPOLL_CTL_DEL: c_int = 2;
const EPOLL_CTL_MOD: c_int = 3;
const EPOLLIN: u32 = 0x1;
const EPOLLOUT: u32 = 0x4;
const EPOLLERR: u32 = 0x8;
const EPOLLHUP: u32 = 0x10;
const EPOLLRDHUP: u32 = 0x2000;
const EPOLLET: u32 = 1 << 31;
const SOL_SOCKET: c_int = 1;
const SO_PEERCRED: c_int = 17;
const MSG_PEEK: c_int = 2;
const MSG_DONTWAIT: c_int = 0x40;
const F_GETFL: c_int = 3;
const F_SETFL: c_int = 4;
const F_SETPIPE_SZ: c_int = 1031;
const O_NONBLOCK: c_int = 0o4000;
const MFD_CLOEXEC: c_uint = 1;
const SCHED_OTHER: c_int = 0;
const SCHED_BATCH: c_int = 3;
const SIGKILL: c_int = 9;
const LOCK_EX: c_int = 2;
const LOCK_NB: c_int = 4;
const AF_UNIX: c_int = 1;
const SOCK_STREAM: c_int = 1;
const SOCK_NONBLOCK: c_int = O_NONBLOCK;
const SOCK_CLOEXEC: c_int = 0o2000000;
const FIRST_INHERITED: RawFd = 3;
const F_SETFD: c_int = 2;
const FD_CLOEXEC: c_int = 1;

#[repr(C)]
struct UnixAddress {
    family: u16,
    path: [u8; 108],
}

#[repr(C)]
struct Passwd {
    name: *const c_char,
}

#[repr(C)]
struct Credentials {
    process: c_int,
    user: c_uint,
    group: c_uint,
}

#[repr(C)]
#[cfg_attr(target_arch = "x86_64", repr(packed))]
#[derive(Clone, Copy)]
struct EpollEvent {
    events: u32,
    data: u64,
}

extern "C" {
    fn connect(fd: c_int, address: *const UnixAddress, length: c_uint) -> c_int;
    fn epoll_create1(flags: c_int) -> c_int;
    fn epoll_ctl(epoll: c_int, what: c_int, fd: c_int, event: *mut EpollEvent) -> c_int;
    fn epoll_wait(epoll: c_int, events: *mut EpollEvent, most: c_int, milliseconds: c_int) -> c_int;
    fn fcntl(fd: c_int, what: c_int, value: c_long) -> c_int;
    fn getpwuid(user: c_uint) -> *const Passwd;
    fn getsockopt(fd: c_int, level: c_int, name: c_int, value: *mut c_void, length: *mut c_uint) -> c_int;
    fn geteuid() -> c_uint;
    fn flock(fd: c_int, what: c_int) -> c_int;
    fn listen(fd: c_int, backlog: c_int) -> c_int;
    fn kill(process: c_int, signal: c_int) -> c_int;
    fn memfd_create(name: *const c_char, flags: c_uint) -> c_int;
    fn recv(fd: c_int, to: *mut c_void, length: usize, flags: c_int) -> isize;
    fn sched_getscheduler(process: c_int) -> c_int;
    fn sched_setscheduler(process: c_int, policy: c_int, parameter: *const c_int) -> c_int;
    fn socket(family: c_int, kind: c_int, protocol: c_int) -> c_int;
    fn signal(number: c_int, handler: extern "C" fn(c_int)) -> usize;
    fn umask(mask: c_uint) -> c_uint;
    fn write(fd: c_int, from: *const c_void, length: usize) -> isize;
}

fn checked(result: c_int) -> Result<c_int> {
    if result < 0 {
        return Err(Error::last_os_error());
    }
    Ok(result)
}

/// What has happened to a descriptor.
#[derive(Clone, Copy)]
pub struct Event {
    /// The number under which it was added.
    pub key: u64,
    /// It may have bytes, or an end.
    pub is_readable: bool,
    /// Its other end is gone, or sends no more.
    pub has_ended: bool,
    /// It may take bytes again.
    pub is_writable: bool,
}

/// Waits for descriptors. Each is told once when bytes come; whoever is told reads until there are none.
pub struct Poll {
    epoll: OwnedFd,
    events: Vec<EpollEvent>,
}

/// What is waited for.
#[derive(Clone, Copy, PartialEq, Eq)]
pub enum Interest {
    /// Bytes that come, told as long as there are some.
    Level,
    /// Bytes that come, told once.
    Read,
    /// The same, and room for bytes.
    ReadAndWrite,
    /// Room for bytes, told once.
    Write,
}

impl Interest {
    fn bits(self) -> u32 {
        match self {
            Interest::Level => EPOLLIN,
            Interest::Read => EPOLLIN | EPOLLRDHUP | EPOLLET,
            Interest::ReadAndWrite => EPOLLIN | EPOLLRDHUP | EPOLLOUT | EPOLLET,
            Interest::Write => EPOLLOUT | EPOLLET,
        }
    }
}

impl Poll {
    /// Of no descriptors yet.
    pub fn new() -> Result<Poll> {
        // SAFETY: no pointer is handed over; the descriptor is new and ours.
        let epoll = unsafe { OwnedFd::from_raw_fd(checked(epoll_create1(EPOLL_CLOEXEC))?) };
        Ok(Poll { epoll, events: vec![EpollEvent { events: 0, data: 0 }; 256] })
    }

    fn control(&self, what: c_int, fd: RawFd, key: u64, bits: u32) -> Result<()> {
        let mut event = EpollEvent { events: bits, data: key };
        // SAFETY: the event lives through the call.
        checked(unsafe { epoll_ctl(self.epoll.as_raw_fd(), what, fd, &mut event) }).map(drop)
    }

    /// Waits for this descriptor too.
    pub fn add(&self, fd: &impl AsRawFd, key: u64, interest: Interest) -> Result<()> {
        self.control(EPOLL_CTL_ADD, fd.as_raw_fd(), key, interest.bits())
    }

    /// Waits for something else of a descriptor.
    pub fn change(&self, fd: &impl AsRawFd, key: u64, interest: Interest) -> Result<()> {
        self.control(EPOLL_CTL_MOD, fd.as_raw_fd(), key, interest.bits())
    }

    /// Waits for it no more.
    pub fn remove(&self, fd: &impl AsRawFd) -> Result<()> {
        self.control(EPOLL_CTL_DEL, fd.as_raw_fd(), 0, 0)
    }

    /// What happens next, or nothing where the time is over first. None for a time is forever.
    pub fn wait(&mut self, most: Option<Duration>, found: &mut Vec<Event>) -> Result<()> {
        found.clear();
        let milliseconds = most.map_or(-1, |time| time.as_micros().div_ceil(1000).min(1 << 30) as c_int);
        let room = self.events.len() as c_int;
        // SAFETY: the events have room for so many, and live through the call.
        let count = unsafe { epoll_wait(self.epoll.as_raw_fd(), self.events.as_mut_ptr(), room, milliseconds) };
        match checked(count) {
            Err(error) if error.kind() == ErrorKind::Interrupted => return Ok(()),
            other => other?,
        };
        found.extend(self.events[..count as usize].iter().map(|event| {
            let bits = event.events;
            Event {
                key: event.data,
                is_readable: bits & (EPOLLIN | EPOLLRDHUP | EPOLLHUP | EPOLLERR) != 0,
                has_ended: bits & (EPOLLRDHUP | EPOLLHUP | EPOLLERR) != 0,
                is_writable: bits & (EPOLLOUT | EPOLLHUP | EPOLLERR) != 0,
            }
        }));
        Ok(())
    }
}

/// The process and the user at the other end of a Unix socket, as the system knows them.
pub fn peer_of(socket: &impl AsRawFd) -> Result<(i32, u32)> {
    let mut told = Credentials { process: 0, user: 0, group: 0 };
    let mut length = std::mem::size_of::<Credentials>() as c_uint;
    let to = &mut told as *mut Credentials as *mut c_void;
    // SAFETY: `told` has `length` bytes, any of which make a value of it.
    checked(unsafe { getsockopt(socket.as_raw_fd(), SOL_SOCKET, SO_PEERCRED, to, &mut length) })?;
    Ok((told.process, told.user))
}

/// The name of a user.
pub fn user_name(user: u32) -> Option<String> {
    // SAFETY: this program has one thread that asks, and copies the name before it asks again.
    unsafe {
        let entry = getpwuid(user);
        if entry.is_null() || (*entry).name.is_null() {
            return None;
        }
        Some(CStr::from_ptr((*entry).name).to_string_lossy().into_owned())
    }
}

/// The user that this process acts as.
pub fn own_user() -> u32 {
    // SAFETY: it takes and gives a number.
    unsafe { geteuid() }
}

/// Whether the other end of a socket has ended its side, with no byte before.
pub fn has_hung_up(socket: &impl AsRawFd) -> bool {
    let mut byte = 0u8;
    let to = &mut byte as *mut u8 as *mut c_void;
    // SAFETY: there is room for the one byte that is asked for.
    unsafe { recv(socket.as_raw_fd(), to, 1, MSG_PEEK | MSG_DONTWAIT) == 0 }
}

/// Connects to a Unix socket, and ends the connection: an error where nobody listens there, or nobody takes it at once.
pub fn probe(path: &Path) -> Result<()> {
    let mut address = UnixAddress { family: AF_UNIX as u16, path: [0; 108] };
    let bytes = path.as_os_str().as_bytes();
    address.path.get_mut(..bytes.len()).ok_or(ErrorKind::InvalidInput)?.copy_from_slice(bytes);
    // SAFETY: the socket is new and ours; the address lives through the call.
    unsafe {
        let kind = SOCK_STREAM | SOCK_NONBLOCK | SOCK_CLOEXEC;
        let socket = OwnedFd::from_raw_fd(checked(socket(AF_UNIX, kind, 0))?);
        let length = std::mem::size_of::<UnixAddress>() as c_uint;
        checked(connect(socket.as_raw_fd(), &address, length)).map(drop)
    }
}

/// Locks a file for this process alone, until it is closed; whether no other one has locked it.
pub fn try_lock(file: &File) -> Result<bool> {
    // SAFETY: it takes numbers alone.
    match checked(unsafe { flock(file.as_raw_fd(), LOCK_EX | LOCK_NB) }) {
        Err(error) if error.kind() == ErrorKind::WouldBlock => Ok(false),
        other => other.map(|_| true),
    }
}

/// Sets how many connections may lie at a listening socket untaken.
pub fn set_backlog(listener: &UnixListener, most: i32) -> Result<()> {
    // SAFETY: it takes numbers alone.
    checked(unsafe { listen(listener.as_raw_fd(), most) }).map(drop)
}

/// Makes calls on a descriptor answer at once, also where there is nothing.
pub fn set_nonblocking(fd: &impl AsRawFd) -> Result<()> {
    // SAFETY: these take numbers alone.
    unsafe {
        let flags = checked(fcntl(fd.as_raw_fd(), F_GETFL, 0))?;
        checked(fcntl(fd.as_raw_fd(), F_SETFL, c_long::from(flags | O_NONBLOCK))).map(drop)
    }
}

/// Gives a pipe room for so many bytes, where the system lets it.
pub fn widen_pipe(fd: &impl AsRawFd, bytes: usize) {
    // SAFETY: it takes numbers alone.
    unsafe { fcntl(fd.as_raw_fd(), F_SETPIPE_SZ, bytes as c_long) };
}

/// A file in memory, which is gone when it is closed.
pub fn memory_file() -> Result<File> {
    // SAFETY: the name is a constant that ends with a zero; the descriptor is new and ours.
    unsafe { Ok(File::from_raw_fd(checked(memfd_create(c"tsd".as_ptr(), MFD_CLOEXEC))?)) }
}

/// Lets this thread run when the processor has nothing that was woken sooner: then the disk isn't interrupted at each
/// of its replies, and a turn has many. A way of scheduling that was chosen for this process stays.
pub fn run_in_batches() {
    let parameter: c_int = 0;
    // SAFETY: the parameter is a structure of one number, which lives through the call.
    unsafe {
        if sched_getscheduler(0) == SCHED_OTHER {
            sched_setscheduler(0, SCHED_BATCH, &parameter);
        }
    }
}

/// Kills a process group.
pub fn kill_group(process: u32) {
    // SAFETY: it takes numbers alone.
    unsafe { kill(-(process as c_int), SIGKILL) };
}

/// Sets what modes new files don't have; what it was before.
pub fn set_umask(mask: u32) -> u32 {
    // SAFETY: it takes and gives numbers.
    unsafe { umask(mask) }
}

/// The one socket that systemd has opened for this process (LISTEN_PID, LISTEN_FDS), if it has.
pub fn inherited_listener() -> Option<UnixListener> {
    let is_ours = std::env::var("LISTEN_PID").ok()? == std::process::id().to_string();
    if !is_ours || std::env::var("LISTEN_FDS").ok()? != "1" {
        return None;
    }
    // SAFETY: systemd's rule is that this descriptor is open and this process's own.
    unsafe {
        fcntl(FIRST_INHERITED, F_SETFD, c_long::from(FD_CLOEXEC));
        Some(UnixListener::from_raw_fd(FIRST_INHERITED))
    }
}

static SIGNAL: AtomicI32 = AtomicI32::new(0);
static TO_WAKE: AtomicI32 = AtomicI32::new(-1);

extern "C" fn note(number: c_int) {
    let _ = SIGNAL.compare_exchange(0, number, Ordering::SeqCst, Ordering::SeqCst);
    // SAFETY: the byte is a constant; a handler may write.
    unsafe { write(TO_WAKE.load(Ordering::SeqCst), [0u8].as_ptr().cast(), 1) };
}

/// Notes these signals from now on. A byte comes from the given end for each.
pub fn note_signals(numbers: &[c_int]) -> Result<UnixStream> {
    let (woken, waking) = UnixStream::pair()?;
    waking.set_nonblocking(true)?;
    TO_WAKE.store(waking.into_raw_fd(), Ordering::SeqCst);
    for number in numbers {
        // SAFETY: the handler touches atomic numbers, and writes to a descriptor that stays open.
        unsafe { signal(*number, note) };
    }
    Ok(woken)
}

/// The first signal that has come.
pub fn noted_signal() -> Option<i32> {
    Some(SIGNAL.load(Ordering::SeqCst)).filter(|number| *number != 0)
}
