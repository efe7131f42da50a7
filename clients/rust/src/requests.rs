//! The requests as values: what is asked, and which answer comes. docs/MODEL.md says what each needs and changes.
//!
//! `cap` is what is shown at the block or source; a block that isn't primary needs none.

use crate::capability::Capability;
use crate::reply::{Geometry, Reply, GREETING, HUB};

/// A request. The trait can't be implemented elsewhere.
pub trait Request: sealed::Encode {
    /// What the disk answers where it doesn't refuse.
    type Answer;

    /// The answer that a reply has; `None` for a reply of another kind.
    #[doc(hidden)]
    fn answer(reply: Reply) -> Option<Self::Answer>;
}

pub(crate) mod sealed {
    /// How a request becomes the body of a frame.
    pub trait Encode {
        /// Puts the body behind what stands in the text, as a request of this session.
        fn encode(&self, session: u32, text: &mut Vec<u8>);
    }
}

/// Opens the session.
#[derive(Debug, Clone)]
pub struct Begin;
/// Closes the session, and what it holds.
#[derive(Debug, Clone)]
pub struct End;
/// All bytes of a block.
#[derive(Debug, Clone)]
pub struct Read<'a> {
    /// Which block.
    pub block: u32,
    /// What is shown.
    pub cap: Option<&'a Capability>,
}
/// Sets a block's bytes; zeros follow to its end.
#[derive(Debug, Clone)]
pub struct Write<'a> {
    /// Which block.
    pub block: u32,
    /// Its first bytes.
    pub data: &'a [u8],
    /// What is shown.
    pub cap: Option<&'a Capability>,
}
/// Takes free blocks, with a pointer to each from the source.
#[derive(Debug, Clone)]
pub struct Alloc<'a> {
    /// Where the pointers come from.
    pub source: u32,
    /// How many, 1 to 32.
    pub count: u32,
    /// Near which block.
    pub hint: Option<u32>,
    /// What is shown.
    pub cap: Option<&'a Capability>,
}
/// The same with blocks in a row.
#[derive(Debug, Clone)]
pub struct AllocContiguous<'a> {
    /// Where the pointers come from.
    pub source: u32,
    /// How many, 1 to 32.
    pub count: u32,
    /// Near which block.
    pub hint: Option<u32>,
    /// What is shown.
    pub cap: Option<&'a Capability>,
}
/// How many blocks are free; it is of no session.
#[derive(Debug, Clone)]
pub struct GetFree;
/// Adds a pointer.
#[derive(Debug, Clone)]
pub struct Create<'a> {
    /// From where.
    pub source: u32,
    /// To where.
    pub target: u32,
    /// What is shown at the source.
    pub cap: Option<&'a Capability>,
}
/// Deletes a pointer; the answer is how many blocks became free.
#[derive(Debug, Clone)]
pub struct Delete<'a> {
    /// From where.
    pub source: u32,
    /// To where.
    pub target: u32,
    /// What is shown at the source.
    pub cap: Option<&'a Capability>,
}
/// Gives a primary block new capabilities; what came from it ends in every session.
#[derive(Debug, Clone)]
pub struct SetCapabilities<'a> {
    /// Which block.
    pub block: u32,
    /// The new one to read.
    pub read: &'a Capability,
    /// The new one to write.
    pub write: &'a Capability,
    /// What is shown.
    pub cap: Option<&'a Capability>,
}
/// Reclaims what no primary block leads to; the answer is how many blocks became free.
#[derive(Debug, Clone)]
pub struct Sweep<'a> {
    /// What is shown at block 0.
    pub cap: Option<&'a Capability>,
}
/// The least 64 targets of a block's pointers that aren't below the start, ascending.
#[derive(Debug, Clone)]
pub struct List64<'a> {
    /// From where the pointers come.
    pub source: u32,
    /// The least target that is told.
    pub start: u32,
    /// What is shown.
    pub cap: Option<&'a Capability>,
}
/// The size of the disk, which a hub tells; `None` from one that doesn't, and from the program.
#[derive(Debug, Clone)]
pub struct GetGeometry;

/// The bytes of a write's body before its data.
const WRITE_HEAD: usize = 26;
/// One byte more than any disk takes: of longer data so much is sent, and refused as it would be.
const MOST_DATA: usize = 4097;

fn number(text: &mut Vec<u8>, value: u32) {
    text.extend_from_slice(&value.to_le_bytes());
}

/// The code, the session and a block: with these most bodies begin.
fn head(text: &mut Vec<u8>, code: u8, session: u32, block: u32) {
    text.push(code);
    number(text, session);
    number(text, block);
}

fn shown(text: &mut Vec<u8>, cap: Option<&Capability>) {
    match cap {
        None => text.push(0),
        Some(cap) => {
            text.push(1);
            text.extend_from_slice(cap.reveal());
        }
    }
}

fn hinted(text: &mut Vec<u8>, hint: Option<u32>) {
    match hint {
        None => text.push(0),
        Some(hint) => {
            text.push(1);
            number(text, hint);
        }
    }
}

/// A request, from its pattern: how its body is put together, the kind of reply that answers it, and what that gives.
macro_rules! request {
    ($name:ty, $answer:ty, |$this:ident, $session:ident, $text:ident| $encode:block, $reply:pat => $value:expr) => {
        impl sealed::Encode for $name {
            fn encode(&self, $session: u32, $text: &mut Vec<u8>) {
                let $this = self;
                $encode
            }
        }

        impl Request for $name {
            type Answer = $answer;

            fn answer(reply: Reply) -> Option<$answer> {
                match reply {
                    $reply => Some($value),
                    _ => None,
                }
            }
        }
    };
}

request!(Begin, (), |_this, session, text| {
    text.push(1);
    number(text, session);
}, Reply::Done => ());

request!(End, (), |_this, session, text| {
    text.push(2);
    number(text, session);
}, Reply::Done => ());

request!(Read<'_>, Vec<u8>, |this, session, text| {
    head(text, 3, session, this.block);
    shown(text, this.cap);
}, Reply::Bytes(bytes) => bytes);

request!(Write<'_>, (), |this, session, text| {
    let data = &this.data[..this.data.len().min(MOST_DATA)];
    // Room for all at once: a text that is moved isn't wiped where it was.
    text.reserve(WRITE_HEAD + data.len());
    head(text, 4, session, this.block);
    shown(text, this.cap);
    text.extend_from_slice(data);
}, Reply::Done => ());

request!(Alloc<'_>, Vec<u32>, |this, session, text| {
    head(text, 5, session, this.source);
    shown(text, this.cap);
    hinted(text, this.hint);
    number(text, this.count);
}, Reply::Blocks(blocks) => blocks);

request!(AllocContiguous<'_>, Vec<u32>, |this, session, text| {
    head(text, 6, session, this.source);
    shown(text, this.cap);
    hinted(text, this.hint);
    number(text, this.count);
}, Reply::Blocks(blocks) => blocks);

request!(GetFree, u32, |_this, _session, text| {
    text.push(7);
}, Reply::Free(count) => count);

request!(Create<'_>, (), |this, session, text| {
    head(text, 8, session, this.source);
    shown(text, this.cap);
    number(text, this.target);
}, Reply::Done => ());

request!(Delete<'_>, u32, |this, session, text| {
    head(text, 9, session, this.source);
    shown(text, this.cap);
    number(text, this.target);
}, Reply::Gone(count) => count);

request!(SetCapabilities<'_>, (), |this, session, text| {
    head(text, 10, session, this.block);
    shown(text, this.cap);
    text.extend_from_slice(this.read.reveal());
    text.extend_from_slice(this.write.reveal());
}, Reply::Done => ());

request!(Sweep<'_>, u32, |this, session, text| {
    text.push(11);
    number(text, session);
    shown(text, this.cap);
}, Reply::Gone(count) => count);

request!(List64<'_>, Vec<u32>, |this, session, text| {
    head(text, 12, session, this.source);
    shown(text, this.cap);
    number(text, this.start);
}, Reply::Targets(targets) => targets);

request!(GetGeometry, Geometry, |_this, _session, text| {
    text.extend_from_slice(&[HUB, GREETING]);
}, Reply::Greeting(geometry) => geometry);
