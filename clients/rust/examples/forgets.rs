//! Uses a capability, and waits for a byte; drops it, and waits again. A test looks meanwhile for its bytes in this
//! process's memory.
//!
//!     forgets IMAGE CAPABILITY

use std::error::Error as AnyError;
use std::io::{stdin, Read};

use tsd_client::{Capability, Disk};

fn main() -> Result<(), Box<dyn AnyError>> {
    let words: Vec<String> = std::env::args().skip(1).collect();
    let [image, cap] = &words[..] else { return Err("usage: forgets IMAGE CAPABILITY".into()) };
    let disk = Disk::open(image)?;
    let session = disk.session(1)?;
    let cap = Capability::from_file(cap)?;
    session.write(0, &[1; 512], Some(&cap))?;
    session.set_capabilities(0, &cap, &cap.clone(), Some(&cap))?;
    session.read(0, Some(&cap))?;
    println!("held");
    stdin().read_exact(&mut [0])?;
    drop(cap);
    println!("dropped");
    stdin().read_exact(&mut [0])?;
    Ok(())
}
