//! Capabilities: 16 bytes that never print themselves, and are wiped when they go.

use std::fmt;
use std::fs::File;
use std::hint::black_box;
use std::io::{self, Read};
use std::path::Path;
use std::sync::atomic::{compiler_fence, Ordering};

const LENGTH: usize = 16;
const MOST_FILE_BYTES: usize = 4096;

/// The 16 bytes that a request shows at a primary block.
///
/// It prints as `<capability>`, is compared in a time that doesn't depend on its bytes, and its memory is wiped when it
/// is dropped; [`reveal`](Capability::reveal) alone gives its bytes.
///
/// ```
/// use tsd_client::Capability;
/// let cap = Capability::from_hex("bbbbbbbbbbbbbbbbbbbbbbbbbbbbbbbb").unwrap();
/// assert_eq!("<capability>", format!("{cap:?}"));
/// assert_eq!(&[0xbb; 16], cap.reveal());
/// ```
#[derive(Clone)]
pub struct Capability(Box<[u8; LENGTH]>);

/// Why a text or a file gives no capability. Nothing of it is told.
#[derive(Debug)]
pub enum NoCapability {
    /// It has so many characters, and not 32.
    Length(usize),
    /// A character is no hexadecimal digit.
    Digit,
    /// The file has no word among its first 4,096 bytes.
    NoWord,
    /// The file can't be read.
    Io(io::Error),
}

impl Capability {
    /// Of these 16 bytes, which are copied: wipe your own.
    pub fn new(secret: &[u8; LENGTH]) -> Self {
        let mut cap = Self::zero();
        cap.0.copy_from_slice(secret);
        cap
    }

    /// One that nobody can guess, from the system's source of random bytes.
    ///
    /// # Errors
    /// Where that source can't be read.
    pub fn random() -> io::Result<Self> {
        let mut cap = Self::zero();
        File::open("/dev/urandom")?.read_exact(&mut cap.0[..])?;
        Ok(cap)
    }

    /// Of 32 hexadecimal digits of either case.
    ///
    /// # Errors
    /// `Length` or `Digit` where it is another text.
    pub fn from_hex(digits: &str) -> Result<Self, NoCapability> {
        Self::from_digits(digits.as_bytes())
    }

    /// Of the first word of a file, as 32 hexadecimal digits.
    ///
    /// # Errors
    /// `Io` where it can't be read, `NoWord` where it has none, and those of [`from_hex`](Capability::from_hex).
    pub fn from_file(path: impl AsRef<Path>) -> Result<Self, NoCapability> {
        let mut text = Box::new([0; MOST_FILE_BYTES]);
        let cap = first_word(path.as_ref(), &mut text).and_then(Self::from_digits);
        wipe(&mut text[..]);
        cap
    }

    /// Its 16 bytes. Whoever has them has the capability.
    pub fn reveal(&self) -> &[u8; LENGTH] {
        &self.0
    }

    fn zero() -> Self {
        Self(Box::new([0; LENGTH]))
    }

    fn from_digits(digits: &[u8]) -> Result<Self, NoCapability> {
        if digits.len() != 2 * LENGTH {
            return Err(NoCapability::Length(digits.len()));
        }
        let mut cap = Self::zero();
        for (byte, pair) in cap.0.iter_mut().zip(digits.chunks(2)) {
            let value = |digit: u8| (digit as char).to_digit(16).ok_or(NoCapability::Digit);
            *byte = (value(pair[0])? << 4 | value(pair[1])?) as u8;
        }
        Ok(cap)
    }
}

fn first_word<'a>(path: &Path, text: &'a mut [u8; MOST_FILE_BYTES]) -> Result<&'a [u8], NoCapability> {
    let mut file = File::open(path).map_err(NoCapability::Io)?;
    let mut length = 0;
    while length < MOST_FILE_BYTES {
        match file.read(&mut text[length..]).map_err(NoCapability::Io)? {
            0 => break,
            count => length += count,
        }
    }
    let mut words = text[..length].split(u8::is_ascii_whitespace);
    words.find(|word| !word.is_empty()).ok_or(NoCapability::NoWord)
}

/// Sets bytes to zero in a way that the compiler doesn't leave out.
pub(crate) fn wipe(bytes: &mut [u8]) {
    bytes.fill(0);
    black_box(bytes);
    compiler_fence(Ordering::SeqCst);
}

impl Drop for Capability {
    fn drop(&mut self) {
        wipe(&mut self.0[..]);
    }
}

impl PartialEq for Capability {
    fn eq(&self, other: &Self) -> bool {
        let differing = self.0.iter().zip(other.0.iter()).fold(0, |sum, (one, two)| black_box(sum | (one ^ two)));
        differing == 0
    }
}

impl Eq for Capability {}

impl fmt::Debug for Capability {
    fn fmt(&self, out: &mut fmt::Formatter<'_>) -> fmt::Result {
        out.write_str("<capability>")
    }
}

impl fmt::Display for NoCapability {
    fn fmt(&self, out: &mut fmt::Formatter<'_>) -> fmt::Result {
        match self {
            Self::Length(count) => write!(out, "a capability has 32 hexadecimal digits, not {count} characters"),
            Self::Digit => out.write_str("a character of the capability is no hexadecimal digit"),
            Self::NoWord => out.write_str("the file has no word"),
            Self::Io(error) => write!(out, "the file of the capability can't be read: {error}"),
        }
    }
}

impl std::error::Error for NoCapability {}

#[cfg(test)]
mod tests {
    use super::*;

    #[test]
    fn digits_of_either_case_give_the_same_bytes() {
        let (lower, upper) = ("0123456789abcdef".repeat(2), "0123456789ABCDEF".repeat(2));
        let cap = Capability::from_hex(&lower).unwrap();
        assert_eq!(cap, Capability::from_hex(&upper).unwrap());
        assert_eq!([0x01, 0x23, 0x45, 0x67, 0x89, 0xab, 0xcd, 0xef], cap.reveal()[..8]);
        assert_ne!(cap, Capability::new(&[0; LENGTH]));
    }

    #[test]
    fn bad_digits_are_not_told() {
        for (text, words) in [("ab".repeat(15), "not 30 characters"), ("zz".repeat(16), "no hexadecimal digit")] {
            let told = Capability::from_hex(&text).unwrap_err().to_string();
            assert!(told.contains(words) && !told.contains(&text), "{told}");
        }
    }

    #[test]
    fn random_ones_differ() {
        assert_ne!(Capability::random().unwrap(), Capability::random().unwrap());
    }

    #[test]
    fn wiping_leaves_zeros() {
        let mut bytes = [7; 40];
        wipe(&mut bytes);
        assert_eq!([0; 40], bytes);
    }
}
