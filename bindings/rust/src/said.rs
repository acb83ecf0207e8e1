//! What a node says of a call.

use crate::{unprinted, Error};
use std::fmt;

/// A packet for a node.
#[derive(Clone, Debug, PartialEq, Eq)]
pub struct Packet {
    /// The node's name, as `sw1`.
    pub to: String,
    /// The bytes.
    pub data: Vec<u8>,
}

/// What a node says of a call that it made: the packets that it sent, and of a submission the number of its entry.
#[derive(Clone, Debug, Default, PartialEq, Eq)]
pub struct Said {
    /// The packets.
    pub sent: Vec<Packet>,
    /// The number of the entry.
    pub number: Option<u64>,
}

/// A call that the node refused, and that changed nothing: the name of the refusal.
#[derive(Clone, Debug, PartialEq, Eq)]
pub struct Refused(pub String);

impl fmt::Display for Refused {
    fn fmt(&self, to: &mut fmt::Formatter<'_>) -> fmt::Result {
        write!(to, "refused: {}", self.0)
    }
}

impl std::error::Error for Refused {}

impl Said {
    /// What a node has written of one call: what it made, or that it refused.
    ///
    /// # Errors
    /// `NoMemory`, or `BadText` where the text of a packet spells none, which no node writes.
    pub fn read(written: &[u8]) -> Result<Result<Said, Refused>, Error> {
        let mut said = Said::default();
        for line in written.split(|byte| *byte == b'\n') {
            let (word, rest) = parted(line);
            match word {
                b"send" => {
                    let (to, text) = parted(rest);
                    said.sent.push(Packet { to: words(to), data: unprinted(text)? });
                }
                b"number" => said.number = words(rest).parse().ok(),
                b"refused" => return Ok(Err(Refused(words(rest)))),
                _ => {}
            }
        }
        Ok(Ok(said))
    }
}

/// A word, and what stands behind its space.
fn parted(line: &[u8]) -> (&[u8], &[u8]) {
    match line.iter().position(|byte| *byte == b' ') {
        Some(place) => (&line[..place], &line[place + 1..]),
        None => (line, b""),
    }
}

/// Bytes of ASCII as text.
fn words(bytes: &[u8]) -> String {
    String::from_utf8_lossy(bytes).into_owned()
}
