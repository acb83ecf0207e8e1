//! A pharmacy, a switch and a payer in one process: a claim goes there, and its answer comes back.
//!
//!     cargo run --example embed -- SETTINGS FOLDER REQUEST
//!
//! It prints what examples/embed/embed.c prints, and leaves the same logs.

use std::collections::VecDeque;
use std::error::Error;
use std::fs;
use std::path::Path;
use vogrilas::{printed, unprinted, FileNode, Packet};

fn main() -> Result<(), Box<dyn Error>> {
    let words: Vec<String> = std::env::args().skip(1).collect();
    let [settings, folder, request] = &words[..] else {
        return Err("usage: embed SETTINGS FOLDER REQUEST".into());
    };
    let settings = fs::read(settings)?;
    let request = unprinted(fs::read(request)?.strip_suffix(b"\n").unwrap_or_default())?;
    let mut nodes = Vec::new();
    for name in ["ph1", "sw1", "pr1"] {
        let path = Path::new(folder).join(name).with_extension("log");
        nodes.push((name, FileNode::open(&settings, name, path)?));
    }
    let said = nodes[0].1.submit(&request)?;
    let number = said.number.ok_or("a submission has a number")?;
    println!("number {number}");
    let mut packets: VecDeque<(&str, Packet)> = said.sent.into_iter().map(|packet| ("ph1", packet)).collect();
    while let Some((from, packet)) = packets.pop_front() {
        if let Some((name, node)) = nodes.iter_mut().find(|(name, _)| *name == packet.to) {
            packets.extend(node.take(from, &packet.data)?.sent.into_iter().map(|packet| (*name, packet)));
        }
    }
    let pharmacy = &nodes[0].1;
    match pharmacy.answer(number)? {
        Some(answer) => println!("answer {}", String::from_utf8(printed(&answer)?)?),
        None => println!("open"),
    }
    for paid in pharmacy.payments()? {
        println!("paid {} {}", paid.authorization(), paid.total);
    }
    Ok(())
}
