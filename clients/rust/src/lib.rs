//! A client of `tsd`, the type-safe disk: it asks, and the disk judges each request.
//!
//! [`Disk::open`] starts the program over an image, for this process alone; [`Disk::connect`] joins a hub at a Unix
//! socket. Blocks are numbers, contents are bytes, and a [`Capability`] never prints itself and is wiped when it goes.
//! A refusal is a value with its numbers ([`Refusal`]), and no call waits for ever. docs/FORMAT.md has the frames.
//!
//! ```no_run
//! use tsd_client::{Capability, Disk, Error, Level, Refusal};
//!
//! # fn main() -> Result<(), Box<dyn std::error::Error>> {
//! let write = Capability::from_file("disk.write")?;
//! let disk = Disk::open("disk.img")?;
//! let session = disk.session(1)?;
//! session.write(0, b"hello", Some(&write))?;
//! let blocks = session.alloc(0, 2, None, Some(&write))?;
//! session.write(blocks[0], b"world", None)?;
//! match session.read(0, None) {
//!     Err(Error::Refused(Refusal::Denied { attained, needed })) => {
//!         assert_eq!((attained, needed), (Level::None, Level::Read));
//!     }
//!     other => panic!("{other:?}"),
//! }
//! session.close()?;
//! disk.close()?;
//! # Ok(())
//! # }
//! ```
//!
//! **Several requests under way.** [`Session::ask`] and [`Disk::ask`] send a request and don't wait; [`Pending::wait`]
//! gives its answer. The disk carries requests out in the order in which they were sent.
//!
//! ```no_run
//! # use tsd_client::{requests::Read, Disk, Error};
//! # fn all(disk: &Disk) -> Result<(), Error> {
//! let session = disk.session(1)?;
//! let asked = (1..9).map(|block| session.ask(Read { block, cap: None })).collect::<Result<Vec<_>, _>>()?;
//! for one in asked {
//!     println!("{} bytes", one.wait()?.len());
//! }
//! # Ok(())
//! # }
//! ```
//!
//! **In this process.** With the feature `embedded` a disk is also opened by `Disk::embed`, with no program: the
//! library `libtsd.a` is linked, and each request is a call of it.
//!
//! A disk is used by one thread at a time; each thread may join the hub by a connection of its own. The crate needs the
//! standard library alone, of Linux, and stands outside the disk's proofs: it weakens none.

#![cfg_attr(not(feature = "embedded"), forbid(unsafe_code))]
#![deny(unsafe_code)]
#![warn(missing_docs)]

mod capability;
mod disk;
#[cfg(feature = "embedded")]
mod embedded;
mod error;
mod frames;
mod link;
mod options;
mod peer;
mod reply;
pub mod requests;

pub use capability::{Capability, NoCapability};
pub use disk::{Disk, Pending, Session, Targets};
pub use error::{Error, Level, LinkError, Refusal};
pub use options::{Command, Options, Place};
pub use reply::{Geometry, Reply};

#[cfg(test)]
extern crate self as tsd_client;
#[cfg(test)]
#[allow(dead_code)]
#[path = "../tests/table/mod.rs"]
mod table;
#[cfg(test)]
#[path = "../tests/told/mod.rs"]
mod told;
