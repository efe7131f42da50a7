//! The socket at which a hub listens at a path, and the lock that makes it the only hub there.

use std::fs::{remove_file, rename, symlink_metadata, File, OpenOptions, Permissions};
use std::io::{Error, ErrorKind, Read, Result, Seek, Write};
use std::os::fd::AsRawFd;
use std::os::unix::fs::{FileTypeExt, MetadataExt, OpenOptionsExt, PermissionsExt};
use std::os::unix::net::UnixListener;
use std::path::{Path, PathBuf};

use crate::system::{probe, set_backlog, set_umask, try_lock};

/// The bytes that the system takes of a socket's path.
const MOST_PATH: usize = 107;
/// So many connections may lie there untaken; more would only wait longer.
const BACKLOG: i32 = 128;
const MOST_TRIES: usize = 100;
const O_NOFOLLOW: i32 = 0o400000;

/// A socket of this hub's own, with its lock, which are taken away when it ends.
pub struct Place {
    /// The socket.
    pub listener: UnixListener,
    path: PathBuf,
    identity: (u64, u64),
    lock: PathBuf,
    _held: File,
}

fn named(path: &Path, error: &Error) -> Error {
    Error::new(error.kind(), format!("{}: {error}", path.display()))
}

fn identity_of(path: &Path) -> Result<(u64, u64)> {
    symlink_metadata(path).map(|about| (about.dev(), about.ino()))
}

impl Place {
    /// Listens at a path, which is there once it listens and has this mode. A socket that nobody listens at any more is
    /// replaced; anything else that is there is refused.
    pub fn take(path: &Path, mode: u32) -> Result<Place> {
        let length = path.as_os_str().len();
        if length > MOST_PATH {
            let text = format!("{}: a socket's path has at most {MOST_PATH} bytes, not {length}", path.display());
            return Err(Error::new(ErrorKind::InvalidInput, text));
        }
        let mut lock = path.as_os_str().to_owned();
        lock.push(".lock");
        let lock = PathBuf::from(lock);
        let held = hold(&lock, path)?;
        let listened = check_stale(path).and_then(|()| listen(path, mode).map_err(|error| named(path, &error)));
        match listened {
            Ok((listener, identity)) => Ok(Place { listener, path: path.into(), identity, lock, _held: held }),
            Err(error) => {
                let _ = remove_file(&lock);
                Err(error)
            }
        }
    }
}

impl Drop for Place {
    /// What stands at the path is taken away where it is this hub's socket, and nothing else.
    fn drop(&mut self) {
        if identity_of(&self.path).is_ok_and(|found| found == self.identity) {
            let _ = remove_file(&self.path);
        }
        let _ = remove_file(&self.lock);
    }
}

/// The lock of a path: a file beside it that one process has locked. It is of no use where another process has taken it
/// away meanwhile; then the new one is locked.
fn hold(lock: &Path, path: &Path) -> Result<File> {
    for _ in 0..MOST_TRIES {
        let mut file = OpenOptions::new()
            .read(true)
            .write(true)
            .create(true)
            .truncate(false)
            .mode(0o600)
            .custom_flags(O_NOFOLLOW)
            .open(lock)
            .map_err(|error| named(lock, &error))?;
        if !try_lock(&file).map_err(|error| named(lock, &error))? {
            let mut process = String::new();
            let _ = file.read_to_string(&mut process);
            let text = format!("somebody listens at {}: process {}", path.display(), process.trim());
            return Err(Error::new(ErrorKind::AddrInUse, text));
        }
        let about = file.metadata()?;
        if identity_of(lock).is_ok_and(|found| found == (about.dev(), about.ino())) {
            file.set_len(0)?;
            file.rewind()?;
            writeln!(file, "{}", std::process::id())?;
            return Ok(file);
        }
    }
    Err(Error::new(ErrorKind::AddrInUse, format!("{} is made and taken away by others", lock.display())))
}

fn check_stale(path: &Path) -> Result<()> {
    let about = match symlink_metadata(path) {
        Err(error) if error.kind() == ErrorKind::NotFound => return Ok(()),
        other => other.map_err(|error| named(path, &error))?,
    };
    if !about.file_type().is_socket() {
        let text = format!("{} is there, and is no socket", path.display());
        return Err(Error::new(ErrorKind::AlreadyExists, text));
    }
    match probe(path).map_err(|error| error.kind()) {
        Err(ErrorKind::ConnectionRefused | ErrorKind::NotFound) => Ok(()),
        Err(ErrorKind::PermissionDenied) => Err(named(path, &ErrorKind::PermissionDenied.into())),
        _ => Err(Error::new(ErrorKind::AddrInUse, format!("somebody listens at {}", path.display()))),
    }
}

/// Binds under a name beside the path, by way of the folder's descriptor: so it may be as long as the path itself.
fn listen(path: &Path, mode: u32) -> Result<(UnixListener, (u64, u64))> {
    let folder = match path.parent() {
        Some(folder) if !folder.as_os_str().is_empty() => folder,
        _ => Path::new("."),
    };
    let held = File::open(folder)?;
    let name = format!(".tsd-hub.{}", std::process::id());
    let beside = folder.join(&name);
    let _ = remove_file(&beside);
    let before = set_umask(0o777 & !mode);
    let bound = UnixListener::bind(format!("/proc/self/fd/{}/{name}", held.as_raw_fd()));
    set_umask(before);
    let listener = bound?;
    set_backlog(&listener, BACKLOG)?;
    let moved = std::fs::set_permissions(&beside, Permissions::from_mode(mode))
        .and_then(|()| identity_of(&beside))
        .and_then(|identity| rename(&beside, path).map(|()| identity));
    if moved.is_err() {
        let _ = remove_file(&beside);
    }
    moved.map(|identity| (listener, identity))
}
