//! The desk's program over the static library, for scripts of up to 10,000 bytes: reads lines of hexadecimal, kind byte first, and
//! writes document 01's listing for each, and where it is accepted a line `= ` with the bytes that the encoder writes for the tree that
//! was read. It is the reader's side of oracle/compare.
//!
//! Each script is read in tables of just the sizes that `room` answers, and once more in 01's ample ones by bytes, full of junk before:
//! the program stops if the two don't tell the same. The encoder too has just the room that it needs, full of junk before: the program
//! stops if work isn't zero afterwards, or if more of the output is written than was told.

use std::fmt::Write as _;
use std::io::{self, BufRead, Write as _};

use phagdrulis::ffi::{self, Answer};
use phagdrulis::{Room, NODE_NUMBERS, TOKEN_NUMBERS};

/// Tables that grow as scripts ask for it.
#[derive(Default)]
struct Held {
    tokens: Vec<u32>,
    nodes: Vec<u32>,
    keys: Vec<u32>,
    work: Vec<u64>,
}

/// An answer with the nodes and keys that fill the front of their tables.
type Told = (Answer, Vec<u32>, Vec<u32>);

impl Held {
    /// Reads a script in tables of these sizes, whatever is in them.
    fn read(&mut self, kind: u32, script: &[u8], room: &Room) -> Told {
        let Held { tokens, nodes, keys, work } = self;
        let tokens = front(tokens, TOKEN_NUMBERS * room.tokens);
        let nodes = front(nodes, NODE_NUMBERS * room.nodes);
        let keys = front(keys, room.keys);
        let work = front(work, room.work);
        let a = ffi::read(kind, script, tokens, nodes, keys, work);
        let told = (a, nodes[..NODE_NUMBERS * a.nodes].to_vec(), keys[..a.keys].to_vec());
        for junk in [tokens, nodes, keys] {
            junk.fill(0xa5a5_a5a5);
        }
        work.fill(0xa5a5);
        told
    }
}

/// What the encoder writes for a tree that was read from this script; its number in place of the bytes if it refuses.
fn encode(kind: u32, script: &[u8], nodes: &[u32], keys: &[u32]) -> String {
    let mut work = vec![0xa5a5; phagdrulis::encoding_work(nodes.len() / NODE_NUMBERS)];
    let mut out = vec![0xa5; script.len()];
    let e = ffi::encode(kind, nodes, keys, script, &mut work, &mut out);
    assert!(work.iter().all(|entry| *entry == 0), "work isn't zero after encoding");
    assert!(out[e.bytes..].iter().all(|byte| *byte == 0xa5), "more is written than told");
    if e.number != 0 {
        return format!("refused with {} reason {}", e.number, e.reason);
    }
    let mut text = String::with_capacity(2 * e.bytes);
    for byte in &out[..e.bytes] {
        write!(text, "{byte:02x}").expect("a string takes what is written to it");
    }
    text
}

fn front<T: Clone + Default>(table: &mut Vec<T>, length: usize) -> &mut [T] {
    if table.len() < length {
        table.resize(length, T::default());
    }
    &mut table[..length]
}

fn answer(held: &mut Held, kind: u32, script: &[u8]) -> Told {
    let ample = held.read(kind, script, &Room::for_bytes(script.len()));
    match phagdrulis::room(script) {
        Ok(room) => assert_eq!(held.read(kind, script, &room), ample, "other sizes, another answer"),
        Err(e) => assert!(kind > 1 || (ample.0.number, ample.0.place) == (e.number, e.place), "room refuses otherwise"),
    }
    ample
}

fn refused(number: u32) -> Told {
    (Answer { number, reason: 0, place: 0, tokens: 0, steps: 0, nodes: 0, keys: 0 }, Vec::new(), Vec::new())
}

/// Even-length hexadecimal, either case.
fn unhex(text: &[u8]) -> Option<Vec<u8>> {
    let digit = |c: u8| (c as char).to_digit(16).map(|d| d as u8);
    if text.len() % 2 != 0 {
        return None;
    }
    text.chunks(2).map(|two| Some(digit(two[0])? << 4 | digit(two[1])?)).collect()
}

fn list(out: &mut String, (a, nodes, keys): &Told) -> std::fmt::Result {
    writeln!(out, "{:02x} {:02x} {:08x} {:08x} {:08x} {:08x} {:08x}", a.number, a.reason, a.place, a.tokens, a.steps, a.nodes, a.keys)?;
    for n in nodes.chunks(NODE_NUMBERS) {
        writeln!(out, "{:02x} {:08x} {:08x} {:08x} {:08x} {}{}{}{}", n[0], n[1], n[2], n[3], n[4], n[5], n[6], n[7], n[8])?;
    }
    keys.iter().try_for_each(|offset| writeln!(out, "{offset:08x}"))
}

fn main() -> io::Result<()> {
    let mut held = Held::default();
    let mut input = io::stdin().lock();
    let mut output = io::BufWriter::with_capacity(1 << 16, io::stdout().lock());
    let (mut line, mut text) = (Vec::new(), String::new());
    while input.read_until(b'\n', &mut line)? != 0 {
        if line.last() == Some(&b'\n') {
            line.pop();
        }
        let bytes = unhex(&line).unwrap_or_default();
        let told = match bytes.split_first() {
            Some((kind, script)) => answer(&mut held, *kind as u32, script),
            None => refused(23),
        };
        list(&mut text, &told).expect("a string takes what is written to it");
        if told.0.number == 0 {
            writeln!(text, "= {}", encode(bytes[0] as u32, &bytes[1..], &told.1, &told.2)).expect("a string takes what is written to it");
        }
        output.write_all(text.as_bytes())?;
        text.clear();
        line.clear();
    }
    output.flush()
}
