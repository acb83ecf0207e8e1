//! Trials of a node, with the settings and the request of examples/embed.

use vogrilas::{audited, described, printed, unprinted, Code, Error, Node, Opened, Settings, Style};

const SETTINGS: &[u8] = include_bytes!("../../../examples/embed/settings.toml");
const REQUEST: &[u8] = include_bytes!("../../../examples/embed/request");

/// A node with the bytes of its log.
struct Kept {
    node: Node,
    log: Vec<u8>,
}

impl Kept {
    fn open(name: &str, mut log: Vec<u8>) -> Kept {
        let Opened { node, kept } = Node::open(SETTINGS, name, &log).unwrap();
        log.truncate(kept);
        let mut kept = Kept { node, log };
        kept.settle();
        kept
    }

    fn settle(&mut self) -> String {
        let records = self.node.records().unwrap();
        self.node.synced(records.len()).unwrap();
        self.log.extend(records);
        let written = self.node.written().unwrap();
        self.node.clear().unwrap();
        String::from_utf8(written).unwrap()
    }

    fn serve(&mut self, line: &[u8]) -> String {
        self.node.serve(line).unwrap();
        self.settle()
    }
}

fn submission() -> Vec<u8> {
    [b"submit ", REQUEST.strip_suffix(b"\n").unwrap()].concat()
}

fn code_of(settings: &[u8], name: &str, log: &[u8]) -> Error {
    Node::open(settings, name, log).err().unwrap()
}

#[test]
fn a_claim_goes_there_and_back() {
    let mut nodes = ["ph1", "sw1", "pr1"].map(|name| (name, Kept::open(name, Vec::new())));
    let mut at = "ph1".to_string();
    let mut line = submission();
    for _ in 0..4 {
        let (_, node) = nodes.iter_mut().find(|(name, _)| *name == at).unwrap();
        let said = node.serve(&line);
        let (to, text) = said.strip_prefix("send ").unwrap().split_once('\n').unwrap().0.split_once(' ').unwrap();
        line = format!("take {at} {text}").into_bytes();
        at = to.to_string();
    }
    let pharmacy = &mut nodes[0].1;
    assert_eq!(pharmacy.serve(&line), "ok\n");
    let answer = pharmacy.serve(b"answer 1");
    assert!(answer.starts_with("answer ") && answer.contains("ANP"), "{answer}");
    assert_eq!((pharmacy.node.calls(), pharmacy.node.most()), (Ok(2), Ok(100)));
    let mut again = Kept::open("ph1", pharmacy.log.clone());
    assert_eq!(again.serve(b"answer 1"), answer);
}

/// Carries what a node has said until nobody sends.
fn carry(nodes: &mut [(&str, Kept)], from: &str, said: &str) {
    let (mut from, mut said) = (from.to_string(), said.to_string());
    while let Some(sent) = said.strip_prefix("send ") {
        let (to, text) = sent.split_once('\n').unwrap().0.split_once(' ').unwrap();
        let (_, node) = nodes.iter_mut().find(|(name, _)| *name == to).unwrap();
        let next = node.serve(format!("take {from} {text}").as_bytes());
        from = to.to_string();
        said = next;
    }
}

#[test]
fn what_nodes_have_is_read() {
    let mut nodes = ["ph1", "sw1", "pr1"].map(|name| (name, Kept::open(name, Vec::new())));
    let missing = Error { code: Code::NotFound, place: None, log: None };
    let said = nodes[0].1.serve(&submission());
    let request = unprinted(REQUEST.strip_suffix(b"\n").unwrap()).unwrap();
    assert_eq!(nodes[0].1.node.request(1), Ok(request.clone()));
    assert_eq!(nodes[0].1.node.request(2), Err(missing));
    assert_eq!(nodes[0].1.node.answer(1, 1), Ok(None));
    assert_eq!(nodes[0].1.node.answer(2, 1), Err(missing));
    assert_eq!(nodes[2].1.node.answer(1, 1), Err(missing));
    carry(&mut nodes, "ph1", &said);
    let answer = nodes[0].1.node.answer(1, 1).unwrap().unwrap();
    let line = format!("answer {}\n", String::from_utf8(printed(&answer).unwrap()).unwrap());
    assert_eq!(nodes[0].1.serve(b"answer 1"), line);
    for (_, node) in &mut nodes {
        assert_eq!((node.node.count(), node.node.answer(1, 1)), (Ok(1), Ok(Some(answer.clone()))));
    }
    let counted = nodes[0].1.node.payments().unwrap();
    assert_eq!(nodes[2].1.node.payments(), Ok(counted.clone()));
    assert_eq!(nodes[1].1.node.payments(), Ok(Vec::new()));
    let [paid] = counted[..] else { panic!("{counted:?}") };
    assert_eq!((paid.authorization().as_str(), paid.total, paid.reversed_by()), ("0001000000000001", 4720, None));
    assert_eq!((&paid.bin, &paid.pcn, &paid.provider), (b"610455", b"A1        ", b"1234567893     "));
    let reversal = [&request[..8], b"B2", &request[10..56], b"\x1d\x1e\x1cAM07\x1cEM1\x1cD2123456\x1cD30"].concat();
    nodes[0].1.node.submit(&reversal).unwrap();
    let said = nodes[0].1.settle();
    carry(&mut nodes, "ph1", &said);
    assert_eq!(nodes[0].1.node.payments(), Ok(Vec::new()));
    assert_eq!(nodes[2].1.node.payments().unwrap()[0].reversed_by(), Some((1, 2)));
    let mut logs: Vec<&[u8]> = nodes.iter().map(|(_, node)| &node.log[..]).collect();
    let told = audited(SETTINGS, &logs, Style::Lines).unwrap();
    assert!(told.legal && String::from_utf8(told.text).unwrap().contains("\none legal run of "));
    assert!(audited(SETTINGS, &logs, Style::Json).unwrap().text.starts_with(b"{"));
    assert!(!audited(SETTINGS, &logs[..2], Style::Lines).unwrap().legal);
    let mut damaged = logs[1].to_vec();
    *damaged.last_mut().unwrap() ^= 1;
    logs[1] = &damaged;
    let fault = audited(SETTINGS, &logs, Style::Lines).unwrap_err();
    assert_eq!(fault, Error { code: Code::Damaged, place: None, log: Some(1) });
    assert_eq!(fault.to_string(), "a record of the log is damaged, log 1");
}

#[test]
fn nothing_is_told_before_it_is_synced() {
    let Opened { mut node, .. } = Node::open(SETTINGS, "ph1", b"").unwrap();
    let unsynced = Error { code: Code::Unsynced, place: None, log: None };
    let too_many = Error { code: Code::TooMany, place: None, log: None };
    assert_eq!(unsynced.to_string(), "not all is on disk");
    let silent = |node: &mut Node| {
        assert_eq!((node.written(), node.clear()), (Err(unsynced), Err(unsynced)));
        assert_eq!((node.calls(), node.count(), node.most()), (Err(unsynced), Err(unsynced), Err(unsynced)));
        assert_eq!((node.request(1), node.answer(1, 1)), (Err(unsynced), Err(unsynced)));
        assert_eq!(node.payments(), Err(unsynced));
    };
    silent(&mut node);
    let head = node.records().unwrap();
    assert_eq!((node.synced(head.len() + 1), node.synced(usize::MAX)), (Err(too_many), Err(too_many)));
    node.synced(head.len() - 1).unwrap();
    assert_eq!(node.records().unwrap(), head[head.len() - 1..]);
    assert_eq!(node.records_after(0).unwrap(), head[head.len() - 1..]);
    assert!(node.records_after(1).unwrap().is_empty());
    silent(&mut node);
    node.synced(1).unwrap();
    assert_eq!((node.written(), node.calls()), (Ok(Vec::new()), Ok(0)));
    node.serve(&submission()).unwrap();
    silent(&mut node);
    let record = node.records().unwrap();
    node.synced(record.len()).unwrap();
    assert_eq!((node.calls(), node.answer(1, 1), node.heard(1, 1)), (Ok(1), Ok(None), Ok(None)));
    assert!(node.written().unwrap().ends_with(b"number 1\n"));
    let mut again = Node::open(SETTINGS, "ph1", &[head, record].concat()).unwrap().node;
    assert_eq!(again.count(), Err(unsynced));
    again.synced(0).unwrap();
    assert_eq!(again.count(), Ok(1));
}

#[test]
fn bytes_are_as_lines() {
    let (mut by_line, mut by_bytes) = (Kept::open("ph1", Vec::new()), Kept::open("ph1", Vec::new()));
    let said = by_line.serve(&submission());
    by_bytes.node.submit(&unprinted(REQUEST.strip_suffix(b"\n").unwrap()).unwrap()).unwrap();
    assert_eq!(by_bytes.settle(), said);
    by_bytes.node.take("sw1", b"\0 \xff").unwrap();
    assert_eq!(by_bytes.settle(), by_line.serve(b"take sw1 \\x00 \\xff"));
    assert_eq!(by_bytes.log, by_line.log);
    assert_eq!(by_bytes.node.take("sw1 ", b""), Err(Error { code: Code::Name, place: None, log: None }));
    assert_eq!(by_bytes.node.adjudicate("sw1 ", b"", b""), Err(Error { code: Code::Name, place: None, log: None }));
    by_bytes.node.adjudicate("sw1", b"\0", b"an advice").unwrap();
    assert_eq!(by_bytes.settle(), by_line.serve(b"adjudicate sw1 an\\x20advice \\x00"));
}

#[test]
fn logs_are_refused() {
    let mut pharmacy = Kept::open("ph1", Vec::new());
    pharmacy.serve(&submission());
    let log = &pharmacy.log;
    assert_eq!(Node::open(SETTINGS, "ph1", &log[..log.len() - 1]).unwrap().kept, 46);
    let mut damaged = log.clone();
    *damaged.last_mut().unwrap() ^= 1;
    let fault = code_of(SETTINGS, "ph1", &damaged);
    assert_eq!(fault, Error { code: Code::Damaged, place: Some(46), log: None });
    assert_eq!(fault.to_string(), "a record of the log is damaged, at byte 46");
    assert_eq!(code_of(SETTINGS, "pr1", log).code, Code::OtherNode);
    assert_eq!(code_of(b"", "ph1", b"").code, Code::Settings);
    assert_eq!(code_of(SETTINGS, "ph2", b"").code, Code::NoSuchNode);
    assert_eq!(code_of(SETTINGS, "", b"").code, Code::Name);
}

#[test]
fn texts_spell_every_byte() {
    let every: Vec<u8> = (0..=255).collect();
    assert_eq!(unprinted(&printed(&every).unwrap()).unwrap(), every);
    assert_eq!(unprinted(b"ab\\q"), Err(Error { code: Code::BadText, place: Some(2), log: None }));
    assert_eq!(printed(b""), Ok(Vec::new()));
}

#[test]
fn messages_are_described() {
    let request = unprinted(REQUEST.strip_suffix(b"\n").unwrap()).unwrap();
    let lines = String::from_utf8(described(&request, Style::Lines).unwrap()).unwrap();
    assert!(lines.starts_with("line 1: request of ") && lines.contains("101-A1  BIN number"), "{lines}");
    assert!(described(&request, Style::Json).unwrap().starts_with(b"{\"line\":1,\"kind\":\"request\""));
}

#[test]
fn nodes_go_to_other_threads() {
    let mut pharmacy = Kept::open("ph1", Vec::new());
    let there = std::thread::spawn(move || {
        let said = pharmacy.serve(&submission());
        (said, pharmacy)
    });
    let (said, mut pharmacy) = there.join().unwrap();
    assert!(said.ends_with("number 1\n"));
    assert_eq!(pharmacy.serve(b"answer 1"), "open\n");
    assert_eq!(vogrilas::version(), vogrilas::VERSION);
}

#[test]
fn nodes_share_settings() {
    let settings = Settings::open(SETTINGS).unwrap();
    let under = |name: &str| Node::open_under(&settings, name, &[]);
    let mut nodes: Vec<Node> = ["ph1", "sw1", "pr1"].iter().map(|name| under(name).unwrap().node).collect();
    assert_eq!(under("ph").err().unwrap().code, Code::Name);
    assert_eq!(under("ph7").err().unwrap().code, Code::NoSuchNode);
    assert_eq!(Node::open_under(&settings, "ph1", b"no log, and long enough").err().unwrap().code, code_of(SETTINGS, "ph1", b"no log, and long enough").code);
    assert_eq!(Settings::open(b"again").err().unwrap().code, Code::Settings);
    let alone = Node::open(SETTINGS, "ph1", &[]).unwrap().node;
    assert_eq!(nodes[0].records().unwrap(), alone.records().unwrap());
    drop(settings);
    let other = nodes.pop().unwrap();
    let thread = std::thread::spawn(move || other.records().unwrap().len());
    for node in &mut nodes {
        let size = node.records().unwrap().len();
        node.synced(size).unwrap();
        assert_eq!(node.calls().unwrap(), 0);
    }
    assert!(thread.join().unwrap() > 0);
}
