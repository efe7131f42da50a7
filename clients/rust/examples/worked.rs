//! What clients/README.md shows: a disk that is read and written, by the program or by a hub.
//!
//!     worked IMAGE CAPABILITY      the capability to write block 0 is the first word of the file CAPABILITY
//!     worked --hub SOCKET CAPABILITY
//!     worked --embed IMAGE CAPABILITY      in this process, with the feature `embedded`

use std::error::Error as AnyError;

use tsd_client::{requests::Read, Capability, Disk, Error, Session};

fn main() -> Result<(), Box<dyn AnyError>> {
    let words: Vec<String> = std::env::args().skip(1).collect();
    let (disk, cap) = match &words[..] {
        [image, cap] => (Disk::open(image)?, cap),
        [word, socket, cap] if word == "--hub" => (Disk::connect(socket)?, cap),
        #[cfg(feature = "embedded")]
        [word, image, cap] if word == "--embed" => (Disk::embed(image)?, cap),
        _ => return Err("usage: worked [--hub] IMAGE CAPABILITY".into()),
    };
    let cap = Capability::from_file(cap)?;
    let session = disk.session(1)?;
    work(&session, &cap)?;
    println!("{} blocks are free", disk.free()?);
    session.close()?;
    disk.close()?;
    Ok(())
}

fn work(session: &Session<'_>, cap: &Capability) -> Result<(), Error> {
    session.write(0, b"hello", Some(cap))?;
    let blocks = session.alloc(0, 3, None, Some(cap))?;
    for (block, text) in blocks.iter().zip(["a", "type-safe", "disk"]) {
        session.write(*block, text.as_bytes(), None)?;
    }
    // All three are under way at once.
    let asked: Result<Vec<_>, Error> = blocks.iter().map(|&block| session.ask(Read { block, cap: None })).collect();
    for one in asked? {
        let bytes = one.wait()?;
        let length = bytes.iter().position(|&byte| byte == 0).unwrap_or(bytes.len());
        println!("{}", String::from_utf8_lossy(&bytes[..length]));
    }
    match session.write(0, b"", None) {
        Err(Error::Refused(refusal)) => println!("{refusal}"),
        other => other?,
    }
    println!("{} gone", session.delete(0, blocks[0], Some(cap))?);
    Ok(())
}
