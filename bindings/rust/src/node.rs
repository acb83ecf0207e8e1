//! A node without its file.

use crate::copied;
use crate::error::{Code, Error};
use crate::payment::Payment;
use crate::sys;
use std::cell::UnsafeCell;
use std::collections::hash_map::RandomState;
use std::hash::{BuildHasher, Hasher};

/// A node without its file. Behind `serve` come `records`, which are appended to the log's file and synced; `synced`, which says
/// so; `written`, and `clear`. A node that was just opened also wants to hear, by `synced`, that its log is on disk. Until then
/// each call that tells of the node but `heard` is `Unsynced`.
pub struct Node {
    // A call that reads takes the node out of its handle and puts it back.
    handle: UnsafeCell<sys::Handle>,
}

// SAFETY: the library proves that a handle may go to another thread. A node is not `Sync`, so there is one call at a time.
unsafe impl Send for Node {}

/// A node that was opened, and how many bytes of its log's file stay. What stands behind them is a record that a crash has cut off:
/// cut the file there.
pub struct Opened {
    /// The node.
    pub node: Node,
    /// How many bytes of the file stay.
    pub kept: usize,
}

/// Settings that are opened once, for any number of nodes: what nodes under the same settings have in common is in memory once. They may go
/// before the nodes that were opened under them.
pub struct Settings {
    // Opening a node takes the settings out of their handle and puts them back.
    handle: UnsafeCell<sys::SettingsHandle>,
}

// SAFETY: the library proves that a handle may go to another thread, also while nodes under it are elsewhere. Settings are not `Sync`, so
// there is one call at a time.
unsafe impl Send for Settings {}

impl Settings {
    /// Opens the settings that the bytes of a settings file spell.
    ///
    /// # Errors
    /// `Settings`, `NoMemory`.
    pub fn open(text: &[u8]) -> Result<Settings, Error> {
        let settings = Settings { handle: UnsafeCell::new(sys::SettingsHandle::none()) };
        let seed = seed();
        // SAFETY: the handle is none yet, and each pointer leads to as many bytes as are said; slices are never null.
        let code = unsafe {
            sys::vogrilas_open_settings(
                settings.handle.get(),
                text.as_ptr(),
                text.len(),
                seed.as_ptr(),
                seed.len(),
            )
        };
        Error::of(code, 0)?;
        Ok(settings)
    }
}

impl Drop for Settings {
    fn drop(&mut self) {
        // SAFETY: the handle is lent whole. A closed one stays as it is.
        unsafe { sys::vogrilas_close_settings(self.handle.get()) }
    }
}

impl Node {
    /// Opens the node of a name under settings that were opened, from the bytes of its log's file.
    ///
    /// # Errors
    /// Those of `open`, but for `Settings`.
    pub fn open_under(settings: &Settings, name: &str, log: &[u8]) -> Result<Opened, Error> {
        let node = Node { handle: UnsafeCell::new(sys::Handle::none()) };
        let mut kept = 0;
        // SAFETY: the node's handle is none yet, that of the settings is lent whole, and each pointer leads to as many bytes as are said.
        let code = unsafe {
            sys::vogrilas_open_under(
                node.handle.get(),
                settings.handle.get(),
                name.as_ptr(),
                name.len(),
                log.as_ptr(),
                log.len(),
                &mut kept,
            )
        };
        Error::of(code, kept)?;
        Ok(Opened { node, kept })
    }

    /// Opens the node of a name, as `ph1`, from the bytes of a settings file and those of its log's file, which may go on after closed
    /// ones, as `claimnode --turn` leaves it.
    ///
    /// # Errors
    /// What refuses the name, the settings or the log; of a faulty record also its place.
    pub fn open(settings: &[u8], name: &str, log: &[u8]) -> Result<Opened, Error> {
        let node = Node { handle: UnsafeCell::new(sys::Handle::none()) };
        let mut kept = 0;
        let seed = seed();
        // SAFETY: the handle is none yet, and each pointer leads to as many bytes as are said; slices are never null.
        let code = unsafe {
            sys::vogrilas_open(
                node.handle.get(),
                settings.as_ptr(),
                settings.len(),
                name.as_ptr(),
                name.len(),
                log.as_ptr(),
                log.len(),
                seed.as_ptr(),
                seed.len(),
                &mut kept,
            )
        };
        Error::of(code, kept)?;
        Ok(Opened { node, kept })
    }

    /// Does what a line asks, and adds to the records and to what was written.
    ///
    /// # Errors
    /// `NoMemory`: the node is closed, and has to be opened again from its log. `Closed` from then on.
    pub fn serve(&mut self, line: &[u8]) -> Result<(), Error> {
        // SAFETY: the pointer leads to as many bytes as are said.
        let code = unsafe { sys::vogrilas_serve(self.handle.get(), line.as_ptr(), line.len()) };
        Error::of(code, 0)
    }

    /// Enters a request, of a pharmacy: the line `submit` with the text of these bytes.
    ///
    /// # Errors
    /// As of `serve`.
    pub fn submit(&mut self, request: &[u8]) -> Result<(), Error> {
        // SAFETY: the pointer leads to as many bytes as are said.
        let code = unsafe { sys::vogrilas_submit(self.handle.get(), request.as_ptr(), request.len()) };
        Error::of(code, 0)
    }

    /// Takes a packet that has come from the node of this name: the line `take` with the text of these bytes.
    ///
    /// # Errors
    /// As of `serve`, and `Name` where the name is no node's.
    pub fn take(&mut self, from: &str, packet: &[u8]) -> Result<(), Error> {
        // SAFETY: each pointer leads to as many bytes as are said.
        let code = unsafe {
            sys::vogrilas_take(self.handle.get(), from.as_ptr(), from.len(), packet.as_ptr(), packet.len())
        };
        Error::of(code, 0)
    }

    /// Takes a packet that has come from the node of this name together with an advice, the answer that the payer's own system has
    /// given to the request in it: the line `adjudicate` with the texts of these bytes. The payer's settings have to ask.
    ///
    /// # Errors
    /// As of `take`.
    pub fn adjudicate(&mut self, from: &str, packet: &[u8], advice: &[u8]) -> Result<(), Error> {
        let (packet_at, advice_at) = (packet.as_ptr(), advice.as_ptr());
        // SAFETY: each pointer leads to as many bytes as are said.
        let code = unsafe {
            sys::vogrilas_adjudicate(
                self.handle.get(),
                from.as_ptr(),
                from.len(),
                packet_at,
                packet.len(),
                advice_at,
                advice.len(),
            )
        };
        Error::of(code, 0)
    }

    /// What is to be appended to the log, and synced: the records that `synced` has not said to be on disk.
    ///
    /// # Errors
    /// `Closed`.
    pub fn records(&self) -> Result<Vec<u8>, Error> {
        // SAFETY: `copied` lends as many bytes as it says.
        copied(0, |at, room, size| unsafe { sys::vogrilas_records(self.handle.get(), at, room, size) })
    }

    /// What comes after the first `passed` bytes of that: for a host that has appended those, and waits for their sync.
    ///
    /// # Errors
    /// `Closed`.
    pub fn records_after(&self, passed: usize) -> Result<Vec<u8>, Error> {
        // SAFETY: `copied` lends as many bytes as it says.
        copied(0, |at, room, size| unsafe {
            sys::vogrilas_records_after(self.handle.get(), passed, at, room, size)
        })
    }

    /// Says that so many bytes of the records, the first, are on disk: appended, and synced with all that stands in the file before
    /// them.
    ///
    /// # Errors
    /// `TooMany` where the records are fewer; `Closed`. Nothing has changed.
    pub fn synced(&mut self, size: usize) -> Result<(), Error> {
        // SAFETY: the handle is lent whole.
        let code = unsafe { sys::vogrilas_kept(self.handle.get(), size) };
        Error::of(code, 0)
    }

    /// What came of the lines, from the first on, whose records and those before them are on disk: of all of them where all is.
    ///
    /// # Errors
    /// `Unsynced` where nothing may be told yet; `Closed`.
    pub fn written(&self) -> Result<Vec<u8>, Error> {
        // SAFETY: `copied` lends as many bytes as it says.
        copied(0, |at, room, size| unsafe { sys::vogrilas_written(self.handle.get(), at, room, size) })
    }

    /// How many calls the node's log has, those of closed logs before it included.
    ///
    /// # Errors
    /// `Unsynced` until all is on disk; `Closed`.
    pub fn calls(&self) -> Result<u64, Error> {
        let mut calls = 0;
        // SAFETY: both are lent whole.
        let code = unsafe { sys::vogrilas_calls(self.handle.get(), &mut calls) };
        Error::of(code, 0)?;
        Ok(calls)
    }

    /// How many entries a pharmacy's journal has, slots a switch's table, or rows a payer's book.
    ///
    /// # Errors
    /// `Unsynced` until all is on disk; `Closed`, `NoMemory`. The node is as it was.
    pub fn count(&self) -> Result<u64, Error> {
        let mut count = 0;
        // SAFETY: both are lent whole.
        let code = unsafe { sys::vogrilas_count(self.handle.get(), &mut count) };
        Error::of(code, 0)?;
        Ok(count)
    }

    /// The most that `count` can be: the cap of the pharmacy or payer in the settings, or that of the switch, which may change.
    ///
    /// # Errors
    /// `Unsynced` until all is on disk; `Closed`. The node is as it was.
    pub fn most(&self) -> Result<u64, Error> {
        let mut most = 0;
        // SAFETY: both are lent whole.
        let code = unsafe { sys::vogrilas_most(self.handle.get(), &mut most) };
        Error::of(code, 0)?;
        Ok(most)
    }

    /// The request of a pharmacy's entry, by its number from 1.
    ///
    /// # Errors
    /// `NotFound` where there is no such entry; `Unsynced` until all is on disk; `Closed`, `NoMemory`. The node is as it was.
    pub fn request(&self, number: u64) -> Result<Vec<u8>, Error> {
        // SAFETY: `copied` lends as many bytes as it says.
        copied(1 << 10, |at, room, size| unsafe { sys::vogrilas_request(self.handle.get(), number, at, room, size) })
    }

    /// The answer that the node holds for a request, by its pharmacy and its number there: a pharmacy those to its own entries,
    /// a switch those in its table, a payer those of its book. None where it is an open entry of this pharmacy.
    ///
    /// # Errors
    /// `NotFound` where there is nothing; `Unsynced` until all is on disk; `Closed`, `NoMemory`. The node is as it was.
    pub fn answer(&self, pharmacy: u16, number: u64) -> Result<Option<Vec<u8>>, Error> {
        // SAFETY: `copied` lends as many bytes as it says.
        unless_open(copied(1 << 10, |at, room, size| unsafe {
            sys::vogrilas_answer(self.handle.get(), pharmacy, number, at, room, size)
        }))
    }

    /// The answer of a pharmacy's own entry that a payer gave, also before it is on disk: where it is lost the payer gives the same
    /// again. None where the entry is open.
    ///
    /// # Errors
    /// `Unsynced` where the request has no route: `answer` tells it once all is on disk; `NotFound` where there is no such entry;
    /// `Closed`, `NoMemory`. The node is as it was.
    pub fn heard(&self, pharmacy: u16, number: u64) -> Result<Option<Vec<u8>>, Error> {
        // SAFETY: `copied` lends as many bytes as it says.
        unless_open(copied(1 << 10, |at, room, size| unsafe {
            sys::vogrilas_heard(self.handle.get(), pharmacy, number, at, room, size)
        }))
    }

    /// The payments that a pharmacy counts, or those of a payer's book with what reversed them, in the order in which they were
    /// made. The list is made by one walk over the journal or the book.
    ///
    /// # Errors
    /// `Unsynced` until all is on disk; `Closed`, `NoMemory`. The node is as it was.
    pub fn payments(&self) -> Result<Vec<Payment>, Error> {
        let mut payments = Vec::new();
        let mut count = 0;
        loop {
            // SAFETY: the list is lent whole, and the handle too.
            let code = unsafe {
                sys::vogrilas_payments(self.handle.get(), payments.as_mut_ptr(), payments.len(), &mut count)
            };
            if code != Code::ShortBuffer as u32 {
                Error::of(code, 0)?;
                payments.truncate(count);
                return Ok(payments);
            }
            payments.resize(count, Payment::default());
        }
    }

    /// Notes that what was written was used.
    ///
    /// # Errors
    /// `Unsynced` where nothing may be told yet; `Closed`. Nothing has changed.
    pub fn clear(&mut self) -> Result<(), Error> {
        // SAFETY: the handle is lent whole.
        let code = unsafe { sys::vogrilas_clear(self.handle.get()) };
        Error::of(code, 0)
    }
}

impl Drop for Node {
    fn drop(&mut self) {
        // SAFETY: the handle is lent whole. A closed one stays as it is.
        unsafe { sys::vogrilas_close(self.handle.get()) }
    }
}

/// Sixteen bytes that nobody can guess, of which the standard library makes the keys of its own maps.
fn seed() -> [u8; 16] {
    let half = || RandomState::new().build_hasher().finish().to_ne_bytes();
    let mut seed = [0; 16];
    seed[..8].copy_from_slice(&half());
    seed[8..].copy_from_slice(&half());
    seed
}

/// An answer; none where the entry is open.
fn unless_open(answer: Result<Vec<u8>, Error>) -> Result<Option<Vec<u8>>, Error> {
    match answer {
        Ok(bytes) => Ok(Some(bytes)),
        Err(Error { code: Code::Unanswered, .. }) => Ok(None),
        Err(error) => Err(error),
    }
}
