//! Why a call was not made.

use std::fmt;

/// What the library says of a call that was not made.
#[derive(Clone, Copy, Debug, PartialEq, Eq, Hash)]
#[non_exhaustive]
#[repr(u32)]
pub enum Code {
    /// Memory was refused. After `serve` the node is closed.
    NoMemory = 1,
    /// There is no node any more.
    Closed = 2,
    /// The handle has a node already.
    Open = 3,
    /// The buffer is too short.
    ShortBuffer = 4,
    /// The name is no node's.
    Name = 5,
    /// The settings are none, or open no world.
    Settings = 6,
    /// The settings have no such node.
    NoSuchNode = 7,
    /// The log is another node's.
    OtherNode = 8,
    /// The bytes do not begin as a log does.
    NotALog = 9,
    /// The log is of another version.
    LogVersion = 10,
    /// The head of the log is damaged.
    DamagedHead = 11,
    /// The log is of no kind of node.
    NoKind = 12,
    /// The log is of other settings.
    OtherSettings = 13,
    /// A record of the log is damaged.
    Damaged = 14,
    /// A record of the log is no call of the node.
    BadRecord = 15,
    /// A text spells no bytes.
    BadText = 16,
    /// The entry is open: it has no answer yet.
    Unanswered = 17,
    /// There is no such entry, slot or row.
    NotFound = 18,
    /// The logs are those of no legal run.
    NoRun = 19,
    /// The host has not said that all is on disk: nothing is told.
    Unsynced = 20,
    /// More bytes are said to be on disk than there are records.
    TooMany = 21,
    /// A field of a message has no byte.
    FieldEmpty = 22,
    /// A field of a message has more bytes, or digits, than it may.
    FieldTooLong = 23,
    /// A separator, or a zero byte, stands in a field of a message.
    FieldSeparator = 24,
    /// A field of a message ends in a space, which would not come back.
    FieldSpace = 25,
    /// A field of a message is not so many digits.
    FieldDigits = 26,
    /// A field of a message is no day of the calendar.
    FieldDay = 27,
    /// What the log's file begins with, after closed logs, is no rest of this node.
    NotARest = 28,
}

/// Each code, at the place of its number less one.
const CODES: [Code; 28] = [
    Code::NoMemory,
    Code::Closed,
    Code::Open,
    Code::ShortBuffer,
    Code::Name,
    Code::Settings,
    Code::NoSuchNode,
    Code::OtherNode,
    Code::NotALog,
    Code::LogVersion,
    Code::DamagedHead,
    Code::NoKind,
    Code::OtherSettings,
    Code::Damaged,
    Code::BadRecord,
    Code::BadText,
    Code::Unanswered,
    Code::NotFound,
    Code::NoRun,
    Code::Unsynced,
    Code::TooMany,
    Code::FieldEmpty,
    Code::FieldTooLong,
    Code::FieldSeparator,
    Code::FieldSpace,
    Code::FieldDigits,
    Code::FieldDay,
    Code::NotARest,
];

/// A call that was not made, and why.
#[derive(Clone, Copy, Debug, PartialEq, Eq)]
pub struct Error {
    /// Why.
    pub code: Code,
    /// Where: the first byte of a faulty record, or of a text that spells nothing.
    pub place: Option<usize>,
    /// Of an audit: which of the logs, from 0.
    pub log: Option<usize>,
}

impl Code {
    /// The code of a number; none of a call that was made.
    pub(crate) fn of(number: u32) -> Option<Code> {
        let at = (number as usize).checked_sub(1)?;
        Some(*CODES.get(at).expect("a library of the version of this crate"))
    }
}

impl Error {
    /// What a code says, and the place where it has one.
    pub(crate) fn of(code: u32, place: usize) -> Result<(), Error> {
        let Some(code) = Code::of(code) else {
            return Ok(());
        };
        let is_placed = matches!(code, Code::Damaged | Code::BadRecord | Code::BadText);
        Err(Error { code, place: is_placed.then_some(place), log: None })
    }

    /// What a code of an audit says, which was not made, and which log it is about.
    pub(crate) fn of_log(code: Code, log: usize) -> Error {
        let is_none = matches!(code, Code::NoMemory | Code::Settings);
        Error { code, place: None, log: (!is_none).then_some(log) }
    }
}

impl fmt::Display for Error {
    fn fmt(&self, to: &mut fmt::Formatter<'_>) -> fmt::Result {
        to.write_str(match self.code {
            Code::NoMemory => "out of memory",
            Code::Closed => "there is no node any more",
            Code::Open => "the handle has a node already",
            Code::ShortBuffer => "the buffer is too short",
            Code::Name => "the name is no node's",
            Code::Settings => "settings refused",
            Code::NoSuchNode => "the settings have no such node",
            Code::OtherNode => "the log is another node's",
            Code::NotALog => "not a log",
            Code::LogVersion => "the log is of another version",
            Code::DamagedHead => "the head of the log is damaged",
            Code::NoKind => "the log is of no kind of node",
            Code::OtherSettings => "the log is of other settings",
            Code::Damaged => "a record of the log is damaged",
            Code::BadRecord => "a record of the log is no call of the node",
            Code::BadText => "the text spells no bytes",
            Code::Unanswered => "the entry has no answer yet",
            Code::NotFound => "there is no such entry",
            Code::NoRun => "no legal run",
            Code::Unsynced => "not all is on disk",
            Code::TooMany => "more bytes than there are records",
            Code::FieldEmpty => "the field is empty",
            Code::FieldTooLong => "the field is too long",
            Code::FieldSeparator => "a separator stands in the field",
            Code::FieldSpace => "the field ends in a space",
            Code::FieldDigits => "the field has to be digits",
            Code::FieldDay => "the field is no day",
            Code::NotARest => "what the log begins with is no rest of this node",
        })?;
        if let Some(place) = self.place {
            write!(to, ", at byte {place}")?;
        }
        match self.log {
            Some(log) => write!(to, ", log {log}"),
            None => Ok(()),
        }
    }
}

impl std::error::Error for Error {}
