//! A node with the file of its log.

use crate::{printed, Code, Error, Node, Opened, Payment, Refused, Said, Settings};
use std::ffi::OsString;
use std::fmt;
use std::fs::{self, File, OpenOptions};
use std::io::{self, Read, Seek, SeekFrom, Write};
use std::os::fd::AsRawFd;
use std::os::unix::fs::{MetadataExt, OpenOptionsExt};
use std::path::{Path, PathBuf};

/// A node with the file of its log, which is locked for this process.
///
/// Each call is on disk before it returns, so what it gives may be used at once. Where a call fails in the middle, by want of
/// memory or of the disk, the node is closed; what the file has then decides, when it is opened again. Where a sync fails a file
/// `LOG.sync-failed` stays beside the log, and the log is not opened again until people have removed it: what the kernel shows of
/// a file whose sync failed may be on no disk. What is cut off a log, a record that a crash has torn, stays beside it as
/// `LOG.cut-PLACE`. A node belongs to the process that opened it: behind a fork the child must not use it.
pub struct FileNode {
    name: String,
    path: PathBuf,
    cut: Option<PathBuf>,
    open: Option<OpenNode>,
}

struct OpenNode {
    node: Node,
    file: File,
}

/// Why a call of a `FileNode` gave nothing.
#[derive(Debug)]
#[non_exhaustive]
pub enum FileError {
    /// The node refused the call, and nothing has changed.
    Refused(Refused),
    /// The library made no call. After `NoMemory` the node is closed.
    Library(Error),
    /// The file could not be read or written. The node is closed.
    Disk(io::Error),
    /// The node was closed by an earlier failure.
    Closed,
}

impl FileNode {
    /// Opens the node of a name, as `ph1`, from the bytes of a settings file and the file of its log, which is made where there
    /// is none.
    ///
    /// # Errors
    /// `Disk` where the file cannot be read, is locked by another process, or a sync of it has failed; `Library` with what
    /// refuses the name, the settings or the log.
    pub fn open(settings: &[u8], name: &str, path: impl AsRef<Path>) -> Result<FileNode, FileError> {
        FileNode::open_by(name, path.as_ref(), |log| Node::open(settings, name, log))
    }

    /// Opens the node of a name under settings that were opened, and the file of its log.
    ///
    /// # Errors
    /// Those of `open`, but for the settings'.
    pub fn open_under(settings: &Settings, name: &str, path: impl AsRef<Path>) -> Result<FileNode, FileError> {
        FileNode::open_by(name, path.as_ref(), |log| Node::open_under(settings, name, log))
    }

    /// Opens the file of a log, and the node over its bytes.
    fn open_by(name: &str, path: &Path, open: impl FnOnce(&[u8]) -> Result<Opened, Error>) -> Result<FileNode, FileError> {
        let path = path.to_path_buf();
        let mark = beside(&path, "sync-failed");
        if mark.exists() {
            return Err(other(format!("a sync of the log failed: look at it, and remove {}", mark.display())));
        }
        let mut file = opened(&path)?;
        // Who closed the log in between has put another file in its place, and nothing may be appended to this one.
        if !has_name(&file, &path)? {
            return Err(other(format!("{}: the log was replaced while it was opened; open it again", path.display())));
        }
        let mut log = Vec::new();
        file.read_to_end(&mut log)?;
        let Opened { node, kept } = open(&log)?;
        let mut opened = FileNode { name: name.into(), path, cut: None, open: None };
        if kept < log.len() {
            opened.cut = Some(write_new(&beside(&opened.path, &format!("cut-{kept}")), &log[kept..])?);
            file.set_len(kept as u64)?;
        }
        opened.begin(node, file)?;
        Ok(opened)
    }

    /// Where what was cut off the log at its opening is kept; none where nothing was.
    pub fn cut(&self) -> Option<&Path> {
        self.cut.as_deref()
    }

    /// Enters a request and sends it; the number of its entry is in what is said. Of a pharmacy.
    ///
    /// # Errors
    /// Those of `FileError`; so of each call.
    pub fn submit(&mut self, request: &[u8]) -> Result<Said, FileError> {
        self.turn(|node| node.submit(request))
    }

    /// Time goes on, and what is due is sent again. Of a pharmacy.
    pub fn tick(&mut self) -> Result<Said, FileError> {
        self.turn(|node| node.serve(b"tick"))
    }

    /// A packet has come from the node of this name.
    pub fn take(&mut self, from: &str, packet: &[u8]) -> Result<Said, FileError> {
        self.turn(|node| node.take(from, packet))
    }

    /// A packet has come from the node of this name, and the payer's own system has given this answer to the request in it. Of a
    /// payer whose settings ask.
    pub fn adjudicate(&mut self, from: &str, packet: &[u8], advice: &[u8]) -> Result<Said, FileError> {
        self.turn(|node| node.adjudicate(from, packet, advice))
    }

    /// Another price for a product, in ten-thousandths of a dollar a unit, or none. Of a payer.
    pub fn plan(&mut self, product: &[u8], price: Option<u64>) -> Result<Said, FileError> {
        let text = String::from_utf8_lossy(&printed(product)?).replace(' ', "\\x20");
        let price = price.map_or("none".into(), |price| price.to_string());
        self.turn(|node| node.serve(format!("plan {text} {price}").as_bytes()))
    }

    /// Another fee and another copay, in cents. Of a payer.
    pub fn terms(&mut self, fee: u32, copay: u32) -> Result<Said, FileError> {
        self.turn(|node| node.serve(format!("terms {fee} {copay}").as_bytes()))
    }

    /// Another rule of retries: the numbers of the switches that are tried in turn, after how many ticks an entry is sent again, and
    /// how often to one switch. Of a pharmacy.
    pub fn retry(&mut self, switches: &[u16], again: u32, tries: u32) -> Result<Said, FileError> {
        let names: Vec<String> = switches.iter().map(|number| format!("sw{number}")).collect();
        self.turn(|node| node.serve(format!("retry {} {again} {tries}", names.join(",")).as_bytes()))
    }

    /// Another cap: how many requests the table has at most, from the next start on. Of a switch that is stopped.
    pub fn cap(&mut self, entries: u32) -> Result<Said, FileError> {
        self.turn(|node| node.serve(format!("cap {entries}").as_bytes()))
    }

    /// The node stops: it refuses calls until it starts.
    pub fn stop(&mut self) -> Result<Said, FileError> {
        self.turn(|node| node.serve(b"stop"))
    }

    /// The node starts again, from what it keeps.
    pub fn start(&mut self) -> Result<Said, FileError> {
        self.turn(|node| node.serve(b"start"))
    }

    /// The answer to an entry of this pharmacy, or none where there is none yet.
    pub fn answer(&self, number: u64) -> Result<Option<Vec<u8>>, FileError> {
        let pharmacy = self.name.strip_prefix("ph").and_then(|number| number.parse().ok());
        let missing = Error { code: Code::NotFound, place: None, log: None };
        self.held(pharmacy.ok_or(missing)?, number)
    }

    /// The answer that the node holds for a request, by its pharmacy and its number there; none where it is an open entry of this
    /// pharmacy.
    pub fn held(&self, pharmacy: u16, number: u64) -> Result<Option<Vec<u8>>, FileError> {
        Ok(self.node()?.answer(pharmacy, number)?)
    }

    /// The request of an entry of this pharmacy.
    pub fn request(&self, number: u64) -> Result<Vec<u8>, FileError> {
        Ok(self.node()?.request(number)?)
    }

    /// The payments that a pharmacy counts, or those of a payer's book with what reversed them.
    pub fn payments(&self) -> Result<Vec<Payment>, FileError> {
        Ok(self.node()?.payments()?)
    }

    /// How many entries a pharmacy's journal has, slots a switch's table, or rows a payer's book.
    pub fn count(&self) -> Result<u64, FileError> {
        Ok(self.node()?.count()?)
    }

    /// The most that `count` can be: the cap in the settings, or of a switch that which `cap` gave it.
    pub fn most(&self) -> Result<u64, FileError> {
        Ok(self.node()?.most()?)
    }

    /// How many calls the log has, those of closed logs before it included.
    pub fn calls(&self) -> Result<u64, FileError> {
        Ok(self.node()?.calls()?)
    }

    fn node(&self) -> Result<&Node, FileError> {
        Ok(&self.open.as_ref().ok_or(FileError::Closed)?.node)
    }

    /// Has on disk what the log has, with the head of one that begins. An earlier process may have ended between a write and its
    /// sync, or before its folder was synced.
    fn begin(&mut self, mut node: Node, mut file: File) -> Result<(), FileError> {
        let head = node.records()?;
        file.write_all(&head)?;
        self.sync(&file)?;
        sync_folder(&self.path)?;
        node.synced(head.len())?;
        self.open = Some(OpenNode { node, file });
        Ok(())
    }

    /// Makes a call, has its record on disk, and only then gives what was written. The node stays open where the library has made
    /// no call, and where all is on disk.
    fn turn(&mut self, call: impl FnOnce(&mut Node) -> Result<(), Error>) -> Result<Said, FileError> {
        let mut open = self.open.take().ok_or(FileError::Closed)?;
        if let Err(error) = call(&mut open.node) {
            if error.code != Code::NoMemory {
                self.open = Some(open);
            }
            return Err(error.into());
        }
        let said = Said::read(&self.settle(&mut open)?)?;
        self.open = Some(open);
        said.map_err(FileError::Refused)
    }

    fn settle(&self, open: &mut OpenNode) -> Result<Vec<u8>, FileError> {
        let records = open.node.records()?;
        if !records.is_empty() {
            open.file.write_all(&records)?;
            self.sync(&open.file)?;
            self.check_name(&mut open.file)?;
            open.node.synced(records.len())?;
        }
        let written = open.node.written()?;
        open.node.clear()?;
        Ok(written)
    }

    /// Has on disk what was written, or leaves a mark that it may not be.
    fn sync(&self, file: &File) -> Result<(), FileError> {
        file.sync_all().map_err(|fault| {
            let _ = write_new(&beside(&self.path, "sync-failed"), format!("{fault}\n").as_bytes());
            FileError::Disk(fault)
        })
    }

    /// That the log still has its name. Where it has lost it what it has is kept beside its place: nobody would find it again.
    fn check_name(&self, file: &mut File) -> Result<(), FileError> {
        if has_name(file, &self.path)? {
            return Ok(());
        }
        let mut bytes = Vec::new();
        file.seek(SeekFrom::Start(0))?;
        file.read_to_end(&mut bytes)?;
        let kept = write_new(&beside(&self.path, "removed"), &bytes)?;
        Err(other(format!("the log was removed or replaced while its node was open; what it had is kept in {}", kept.display())))
    }
}

/// Whether a file still has its name.
fn has_name(file: &File, path: &Path) -> io::Result<bool> {
    let (here, there) = (file.metadata()?, fs::metadata(path));
    Ok(there.is_ok_and(|there| (here.dev(), here.ino()) == (there.dev(), there.ino())))
}

/// The file of a log, which nobody else may read or write meanwhile. It is none of the standard ones: where those are closed, what
/// a program prints would go into the log.
fn opened(path: &Path) -> Result<File, FileError> {
    let mut file = OpenOptions::new().read(true).append(true).create(true).mode(0o600).open(path)?;
    if !file.metadata()?.is_file() {
        return Err(other(format!("{}: no file that keeps what is written", path.display())));
    }
    if file.as_raw_fd() <= 2 {
        file = file.try_clone()?;
    }
    // SAFETY: the descriptor is open, and the call takes no memory.
    if unsafe { flock(file.as_raw_fd(), LOCK_EX | LOCK_NB) } != 0 {
        return Err(FileError::Disk(io::Error::last_os_error()));
    }
    Ok(file)
}

extern "C" {
    fn flock(file: i32, operation: i32) -> i32;
}

const LOCK_EX: i32 = 2;
const LOCK_NB: i32 = 4;

/// A name beside the log.
fn beside(path: &Path, ending: &str) -> PathBuf {
    let mut name: OsString = path.as_os_str().to_owned();
    name.push(format!(".{ending}"));
    name.into()
}

/// Writes a file under this name, or one with a number behind it where there is one already, and has it on disk; its name.
fn write_new(path: &Path, bytes: &[u8]) -> io::Result<PathBuf> {
    let mut name = path.to_path_buf();
    for number in 2.. {
        match OpenOptions::new().write(true).create_new(true).mode(0o600).open(&name) {
            Ok(mut file) => {
                file.write_all(bytes)?;
                file.sync_all()?;
                break;
            }
            Err(fault) if fault.kind() == io::ErrorKind::AlreadyExists => {
                name = path.as_os_str().to_owned().into();
                name.as_mut_os_string().push(format!("-{number}"));
            }
            Err(fault) => return Err(fault),
        }
    }
    sync_folder(&name)?;
    Ok(name)
}

/// Has the name of a file on disk.
fn sync_folder(path: &Path) -> io::Result<()> {
    let folder = path.parent().filter(|folder| !folder.as_os_str().is_empty()).unwrap_or(Path::new("."));
    File::open(folder)?.sync_all()
}

fn other(words: String) -> FileError {
    FileError::Disk(io::Error::new(io::ErrorKind::Other, words))
}

impl From<Error> for FileError {
    fn from(error: Error) -> FileError {
        FileError::Library(error)
    }
}

impl From<io::Error> for FileError {
    fn from(error: io::Error) -> FileError {
        FileError::Disk(error)
    }
}

impl fmt::Display for FileError {
    fn fmt(&self, to: &mut fmt::Formatter<'_>) -> fmt::Result {
        match self {
            FileError::Refused(refused) => refused.fmt(to),
            FileError::Library(error) => error.fmt(to),
            FileError::Disk(error) => error.fmt(to),
            FileError::Closed => to.write_str("the node was closed by an earlier failure"),
        }
    }
}

impl std::error::Error for FileError {}
