//! The library in this process: what `tsd_embed.h` declares, and the calls of it. Here alone is code that the compiler
//! can't check.
#![allow(unsafe_code)]

use std::ffi::{c_char, c_int, c_void, CStr, CString};
use std::io;
use std::os::unix::ffi::OsStrExt;
use std::path::Path;
use std::ptr::{null_mut, NonNull};

use crate::error::LinkError;

const OK: c_int = 0;
const SYSTEM: c_int = 29;

extern "C" {
    fn tsd_embed_open(path: *const c_char, disk: *mut *mut c_void) -> c_int;
    fn tsd_embed_apply(
        disk: *mut c_void,
        frames: *const c_void,
        length: usize,
        replies: *mut c_void,
        room: usize,
        filled: *mut usize,
    ) -> c_int;
    fn tsd_embed_room(frames: *const c_void, length: usize) -> usize;
    fn tsd_embed_close(disk: *mut c_void) -> c_int;
    fn tsd_embed_words(status: c_int) -> *const c_char;
}

/// A disk that the library has open.
pub(crate) struct Embedded {
    disk: NonNull<c_void>,
    replies: Vec<u8>,
    status: c_int,
    is_closed: bool,
}

// SAFETY: the library's disk may be used by any thread, by one at a time.
unsafe impl Send for Embedded {}

impl Embedded {
    /// Opens an image.
    pub(crate) fn open(image: &Path) -> Result<Self, LinkError> {
        let path = CString::new(image.as_os_str().as_bytes())
            .map_err(|_| LinkError::system("the path", &io::Error::from(io::ErrorKind::InvalidInput)))?;
        let mut disk = null_mut();
        // SAFETY: the path ends with a zero, and the pointer is this function's.
        let status = unsafe { tsd_embed_open(path.as_ptr(), &mut disk) };
        match NonNull::new(disk) {
            Some(disk) if status == OK => Ok(Self { disk, replies: Vec::new(), status: OK, is_closed: false }),
            _ if status == SYSTEM => {
                Err(LinkError::system(format!("{} can't be opened", image.display()), &io::Error::last_os_error()))
            }
            _ => Err(told(status)),
        }
    }

    /// Carries out a whole frame; the frame of its reply, or none where the library ended.
    pub(crate) fn apply(&mut self, frame: &[u8]) -> &[u8] {
        if self.status != OK || self.is_closed {
            return &[];
        }
        // SAFETY: the bytes are those of the slice.
        let room = unsafe { tsd_embed_room(frame.as_ptr().cast(), frame.len()) };
        if self.replies.len() < room {
            self.replies.resize(room, 0);
        }
        let mut filled = 0;
        // SAFETY: the disk is open, both memories are slices of their lengths, and they don't overlap.
        self.status = unsafe {
            tsd_embed_apply(
                self.disk.as_ptr(),
                frame.as_ptr().cast(),
                frame.len(),
                self.replies.as_mut_ptr().cast(),
                self.replies.len(),
                &mut filled,
            )
        };
        &self.replies[..filled]
    }

    /// How it ended. Where no call failed it is closed now.
    pub(crate) fn ended(&mut self, inside_frame: bool) -> LinkError {
        let closed = self.close();
        match if self.status == OK { closed } else { self.status } {
            OK => LinkError::Ended { inside_frame },
            status => told(status),
        }
    }

    fn close(&mut self) -> c_int {
        if std::mem::replace(&mut self.is_closed, true) {
            return OK;
        }
        // SAFETY: it is open, and nothing uses it from now on.
        unsafe { tsd_embed_close(self.disk.as_ptr()) }
    }
}

impl Drop for Embedded {
    fn drop(&mut self) {
        // Who drops a disk doesn't ask how it ended.
        let _ = self.close();
    }
}

fn told(status: c_int) -> LinkError {
    // SAFETY: the words of any status are a text that stays.
    let words = unsafe { CStr::from_ptr(tsd_embed_words(status)) };
    LinkError::Embedded { status, words: words.to_string_lossy().into_owned() }
}
