//! Trials of a node with the file of its log.
#![cfg(unix)]

use std::fs;
use std::path::PathBuf;
use vogrilas::{unprinted, Code, Error, FileError, FileNode, Node, Refused, Said};

const SETTINGS: &[u8] = include_bytes!("../../../examples/embed/settings.toml");
const REQUEST: &[u8] = include_bytes!("../../../examples/embed/request");

/// A folder that is removed behind the trial.
struct Folder(PathBuf);

impl Folder {
    fn new(name: &str) -> Folder {
        let path = std::env::temp_dir().join(format!("vogrilas-{}-{name}", std::process::id()));
        fs::create_dir(&path).unwrap();
        Folder(path)
    }

    fn open(&self, name: &str) -> Result<FileNode, FileError> {
        FileNode::open(SETTINGS, name, self.log(name))
    }

    fn log(&self, name: &str) -> PathBuf {
        self.0.join(format!("{name}.log"))
    }
}

impl Drop for Folder {
    fn drop(&mut self) {
        fs::remove_dir_all(&self.0).unwrap();
    }
}

fn request() -> Vec<u8> {
    unprinted(REQUEST.strip_suffix(b"\n").unwrap()).unwrap()
}

#[test]
fn calls_are_on_disk() {
    let folder = Folder::new("calls");
    let mut pharmacy = folder.open("ph1").unwrap();
    let said = pharmacy.submit(&request()).unwrap();
    assert_eq!((said.number, said.sent.len(), said.sent[0].to.as_str()), (Some(1), 1, "sw1"));
    assert_eq!((pharmacy.calls().unwrap(), pharmacy.count().unwrap(), pharmacy.answer(1).unwrap()), (1, 1, None));
    assert_eq!(pharmacy.most().unwrap(), 100);
    assert_eq!(pharmacy.request(1).unwrap(), request());
    assert!(pharmacy.payments().unwrap().is_empty() && pharmacy.cut().is_none());
    let Err(FileError::Refused(Refused(name))) = pharmacy.submit(b"") else { panic!("an empty request is taken") };
    assert_eq!(name, "Unreadable");
    let Err(FileError::Library(Error { code, .. })) = pharmacy.take("sw1 ", b"") else { panic!("nobody sends") };
    let again = pharmacy.tick().unwrap();
    assert_eq!((code, again.number, again.sent), (Code::Name, None, said.sent));
    let Err(FileError::Disk(_)) = folder.open("ph1") else { panic!("two have the log") };
    drop(pharmacy);
    let again = folder.open("ph1").unwrap();
    assert_eq!((again.calls().unwrap(), again.answer(1).unwrap()), (2, None));
    let mut payer = folder.open("pr1").unwrap();
    assert_eq!(payer.plan(b"a b", Some(20_000)).unwrap(), Said::default());
    assert_eq!(payer.terms(150, 1_000).unwrap(), Said::default());
    assert_eq!((payer.plan(b"a b", None).unwrap(), payer.stop().unwrap(), payer.start().unwrap()), Default::default());
    let Err(FileError::Library(Error { code, .. })) = payer.answer(1) else { panic!("a payer has no entries") };
    assert_eq!(code, Code::NotFound);
}

#[test]
fn rules_of_retries_change() {
    let folder = Folder::new("rules");
    let mut pharmacy = folder.open("ph1").unwrap();
    let said = pharmacy.submit(&request()).unwrap();
    assert_eq!(pharmacy.retry(&[1, 1], 2, 3).unwrap(), Said::default());
    let others: [(&[u16], u32, u32, &str); 5] = [
        (&[2], 1, 1, "BadRule"),
        (&[1, 0], 1, 1, "BadRule"),
        (&[1], 0, 1, "BadRule"),
        (&[1], 1, 1_001, "BadRule"),
        (&[], 1, 1, "Line"),
    ];
    for (switches, again, tries, refusal) in others {
        let Err(FileError::Refused(Refused(name))) = pharmacy.retry(switches, again, tries) else { panic!("no rule") };
        assert_eq!(name, refusal);
    }
    // The entry waits for two ticks, as after a start.
    assert_eq!(pharmacy.tick().unwrap(), Said::default());
    drop(pharmacy);
    let mut again = folder.open("ph1").unwrap();
    assert_eq!((again.tick().unwrap().sent, again.calls().unwrap()), (said.sent, 4));
    again.stop().unwrap();
    let Err(FileError::Refused(Refused(name))) = again.retry(&[1], 1, 1) else { panic!("a pharmacy that is stopped") };
    assert_eq!(name, "Down");
    let Err(FileError::Refused(Refused(name))) = folder.open("pr1").unwrap().retry(&[1], 1, 1) else { panic!("a payer") };
    assert_eq!(name, "NoSuchNode");
}

#[test]
fn caps_of_switches_change() {
    let folder = Folder::new("caps");
    let mut pharmacy = folder.open("ph1").unwrap();
    let asked: Vec<Vec<u8>> = (0..2).map(|_| pharmacy.submit(&request()).unwrap().sent.remove(0).data).collect();
    let mut switch = folder.open("sw1").unwrap();
    let Err(FileError::Refused(Refused(name))) = switch.cap(1) else { panic!("a switch that is up") };
    assert_eq!((name.as_str(), switch.most().unwrap()), ("AlreadyUp", 64));
    switch.stop().unwrap();
    for entries in [0, 16_777_217, u32::MAX] {
        let Err(FileError::Refused(Refused(name))) = switch.cap(entries) else { panic!("no cap") };
        assert_eq!(name, "Line");
    }
    assert_eq!((switch.cap(16_777_216).unwrap(), switch.cap(1).unwrap()), Default::default());
    switch.start().unwrap();
    for packet in &asked {
        assert_eq!(switch.take("ph1", packet).unwrap().sent[0].to, "pr1");
    }
    // A table of one slot has forgotten the older request.
    assert_eq!((switch.count().unwrap(), switch.most().unwrap()), (1, 1));
    drop(switch);
    let mut again = folder.open("sw1").unwrap();
    // A stop, two caps, a start and two packets.
    assert_eq!((again.count().unwrap(), again.most().unwrap(), again.calls().unwrap()), (1, 1, 6));
    assert_eq!((again.stop().unwrap(), again.start().unwrap()), Default::default());
    for packet in &asked {
        again.take("ph1", packet).unwrap();
    }
    assert_eq!(again.count().unwrap(), 1);
    for mut node in [pharmacy, folder.open("pr1").unwrap()] {
        let Err(FileError::Refused(Refused(name))) = node.cap(1) else { panic!("no switch") };
        assert_eq!(name, "NoSuchNode");
        node.stop().unwrap();
        let Err(FileError::Refused(Refused(name))) = node.cap(1) else { panic!("no switch that is stopped") };
        assert_eq!(name, "NoSuchNode");
    }
}

#[test]
fn torn_and_removed_logs_are_kept() {
    let folder = Folder::new("torn");
    folder.open("ph1").unwrap().submit(&request()).unwrap();
    let path = folder.log("ph1");
    let whole = fs::read(&path).unwrap();
    fs::write(&path, &whole[..whole.len() - 1]).unwrap();
    let mut pharmacy = folder.open("ph1").unwrap();
    let cut = pharmacy.cut().unwrap().to_path_buf();
    assert_eq!((pharmacy.calls().unwrap(), cut.file_name().unwrap()), (0, "ph1.log.cut-46".as_ref()));
    assert_eq!((fs::read(&cut).unwrap(), fs::read(&path).unwrap()), (whole[46..whole.len() - 1].to_vec(), whole[..46].to_vec()));
    fs::remove_file(&path).unwrap();
    let Err(FileError::Disk(_)) = pharmacy.submit(&request()) else { panic!("a log without a name") };
    let Err(FileError::Closed) = pharmacy.tick() else { panic!("a closed node") };
    assert_eq!(fs::read(folder.0.join("ph1.log.removed")).unwrap(), whole);
    fs::write(folder.0.join("ph1.log.sync-failed"), "").unwrap();
    let Err(FileError::Disk(fault)) = folder.open("ph1") else { panic!("a failed sync") };
    assert!(fault.to_string().starts_with("a sync of the log failed"), "{fault}");
}

/// VOGRILAS_TRIAL_TURNED names a log of ph1 that claimnode has closed, and that has a call since: its second submission.
#[test]
fn logs_that_go_on_are_opened() {
    let Some(turned) = std::env::var_os("VOGRILAS_TRIAL_TURNED") else { return };
    let mut file = fs::read(turned).unwrap();
    let front = 11 + u64::from_be_bytes(file[3..11].try_into().unwrap()) as usize;
    let closed = u64::from_be_bytes(file[17..25].try_into().unwrap());
    let folder = Folder::new("turned");
    fs::write(folder.log("ph1"), &file).unwrap();
    let mut pharmacy = folder.open("ph1").unwrap();
    assert_eq!((pharmacy.calls().unwrap(), pharmacy.count().unwrap()), (closed + 1, 2));
    assert!(pharmacy.answer(1).unwrap().is_some() && pharmacy.answer(2).unwrap().is_none() && pharmacy.cut().is_none());
    pharmacy.stop().unwrap();
    drop(pharmacy);
    assert!(fs::read(folder.log("ph1")).unwrap().starts_with(&file));
    assert_eq!(folder.open("ph1").unwrap().calls().unwrap(), closed + 2);
    let code = |name: &str, file: &[u8]| Node::open(SETTINGS, name, file).err().map(|fault| (fault.code, fault.place));
    assert_eq!(code("pr1", &file), Some((Code::NotARest, None)));
    assert_eq!(code("ph1", &file[..front - 1]), Some((Code::NotALog, None)));
    file[front - 1] ^= 1;
    assert_eq!(code("ph1", &file), Some((Code::NotARest, None)));
    file[front - 1] ^= 1;
    *file.last_mut().unwrap() ^= 1;
    assert_eq!(code("ph1", &file), Some((Code::Damaged, Some(front + 46))));
    assert_eq!(Code::NotARest as u32, 28);
}
