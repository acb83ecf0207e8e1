//! One node of a claims network in your own process: a pharmacy, a switch or a payer, with its log.
//!
//! A node is its log: one that is opened from the bytes of a log has made every call of it anew. A turn of a host:
//!
//! ```text
//! node.serve(line)?;               // as often as lines are there
//! let records = node.records()?;
//! file.write_all(&records)?;
//! file.sync_data()?;
//! node.synced(records.len())?;     // until then the node tells nothing
//! send(node.written()?);
//! node.clear()?;
//! ```
//!
//! [`FileNode`] does so with the file of its log, and [`Billing`] makes what a pharmacy submits, and
//! [`Answer`] says what came of it.
//!
//! The node is the proved library `libvogrilas`; `include/vogrilas.h` says what is proved of it and what a caller owes.
//! This crate keeps what the caller owes, and is tested, not proved.
#![warn(missing_docs)]

mod error;
#[cfg(unix)]
mod file_node;
mod message;
mod node;
mod payment;
mod reading;
mod said;
mod sys;

pub use error::{Code, Error};
#[cfg(unix)]
pub use file_node::{FileError, FileNode};
pub use message::{Billing, Header, MakingError, Reversal, WrongField};
pub use node::{Node, Opened, Settings};
pub use payment::Payment;
pub use reading::{Answer, Paid, ReadError, Ruling};
pub use said::{Packet, Refused, Said};
#[doc(hidden)]
pub use sys::layout;

/// The version of the library that this crate belongs to.
pub const VERSION: u32 = 8000;

/// The version of the library that is linked.
pub fn version() -> u32 {
    // SAFETY: the call takes nothing.
    unsafe { sys::vogrilas_version() }
}

/// The text that spells bytes in lines.
///
/// # Errors
/// `NoMemory`.
pub fn printed(bytes: &[u8]) -> Result<Vec<u8>, Error> {
    // SAFETY: the pointer leads to as many bytes as are said, and `copied` lends as many as it says.
    copied(bytes.len() + 64, |at, room, size| unsafe {
        sys::vogrilas_print(bytes.as_ptr(), bytes.len(), at, room, size)
    })
}

/// The bytes that a text spells.
///
/// # Errors
/// `BadText`, with the place of the first byte that spells nothing; `NoMemory`.
pub fn unprinted(text: &[u8]) -> Result<Vec<u8>, Error> {
    // SAFETY: the pointer leads to as many bytes as are said, and `copied` lends as many as it says.
    copied(text.len(), |at, room, size| unsafe {
        sys::vogrilas_unprint(text.as_ptr(), text.len(), at, room, size)
    })
}

/// How a message is described.
#[derive(Clone, Copy, Debug, PartialEq, Eq)]
pub enum Style {
    /// Lines for people.
    Lines,
    /// One object of JSON.
    Json,
}

/// What is in a message, and why it is rejected, as `claimdecode` tells it.
///
/// # Errors
/// `NoMemory`.
pub fn described(message: &[u8], style: Style) -> Result<Vec<u8>, Error> {
    let json = u32::from(style == Style::Json);
    // SAFETY: the pointer leads to as many bytes as are said, and `copied` lends as many as it says.
    copied(1 << 14, |at, room, size| unsafe {
        sys::vogrilas_describe(message.as_ptr(), message.len(), json, at, room, size)
    })
}

/// What is told of logs.
#[derive(Clone, Debug, PartialEq, Eq)]
pub struct Audit {
    /// Whether they are those of one legal run.
    pub legal: bool,
    /// What `claimaudit` writes of them.
    pub text: Vec<u8>,
}

/// Whether logs, one of each node of the settings, are those of one legal run, and what it left, or why there is none: lines, or
/// one object of JSON.
///
/// # Errors
/// `Settings`; what is wrong with a log, and which log it is; `NoMemory`.
pub fn audited(settings: &[u8], logs: &[&[u8]], style: Style) -> Result<Audit, Error> {
    let json = u32::from(style == Style::Json);
    let sizes: Vec<usize> = logs.iter().map(|log| log.len()).collect();
    let joined = logs.concat();
    let mut text = vec![0; 1 << 14];
    let mut size = 0;
    loop {
        // SAFETY: each pointer leads to as many bytes, or sizes, as are said; those of slices and vectors are never null.
        let number = unsafe {
            sys::vogrilas_audit(
                settings.as_ptr(),
                settings.len(),
                joined.as_ptr(),
                joined.len(),
                sizes.as_ptr(),
                sizes.len(),
                json,
                text.as_mut_ptr(),
                text.len(),
                &mut size,
            )
        };
        match Code::of(number) {
            None | Some(Code::NoRun) => {
                text.truncate(size);
                return Ok(Audit { legal: number == 0, text });
            }
            Some(Code::ShortBuffer) => text.resize(size, 0),
            Some(code) => return Err(Error::of_log(code, size)),
        }
    }
}

/// The bytes that a call copies into a buffer, which grows once where it is too short.
pub(crate) fn copied(room: usize, mut call: impl FnMut(*mut u8, usize, &mut usize) -> u32) -> Result<Vec<u8>, Error> {
    let mut bytes = vec![0; room];
    let mut size = 0;
    let mut code = call(bytes.as_mut_ptr(), bytes.len(), &mut size);
    if code == Code::ShortBuffer as u32 {
        bytes.resize(size, 0);
        code = call(bytes.as_mut_ptr(), bytes.len(), &mut size);
    }
    Error::of(code, size)?;
    bytes.truncate(size);
    Ok(bytes)
}
