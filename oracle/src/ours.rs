//! The other side's answer: document 01's listing as a program writes it, turned into the oracle's form, so that equal answers are
//! equal texts. Places are looked up in the script and the bytes found there take their stead; they are not compared themselves.

use std::io::{self, BufRead};

use crate::hex_into;

/// An answer in the oracle's form, or what is wrong with its form.
pub struct Ours {
    pub listing: Result<String, String>,
    /// The encoder's bytes in hexadecimal, if they were asked for and there.
    pub encoded: Option<String>,
}

fn line(from: &mut impl BufRead) -> io::Result<String> {
    let mut text = String::new();
    if from.read_line(&mut text)? == 0 || text.pop() != Some('\n') {
        return Err(io::Error::new(io::ErrorKind::UnexpectedEof, "the program's answers end too soon"));
    }
    Ok(text)
}

/// The fields of a line if they have just these widths, in lowercase hexadecimal.
fn fields<const N: usize>(text: &str, widths: [usize; N]) -> Option<[usize; N]> {
    let mut found = [0; N];
    let mut parts = text.split(' ');
    for (field, width) in found.iter_mut().zip(widths) {
        let part = parts.next()?;
        if part.len() != width || !part.bytes().all(|c| matches!(c, b'0'..=b'9' | b'a'..=b'f')) {
            return None;
        }
        *field = usize::from_str_radix(part, 16).ok()?;
    }
    parts.next().is_none().then_some(found)
}

/// Reads one answer. An error is the end of the program's answers; an answer of the wrong form is a difference like any other, as
/// long as its header tells how many lines it has.
pub fn read(from: &mut impl BufRead, kind: u8, script: &[u8], encodes: bool) -> io::Result<Ours> {
    let head = line(from)?;
    let Some([number, reason, _, tokens, steps, nodes, keys]) = fields(&head, [2, 2, 8, 8, 8, 8, 8]) else {
        return Err(io::Error::new(io::ErrorKind::InvalidData, format!("no header of an answer: {head}")));
    };
    let mut node_lines = Vec::new();
    for _ in 0..nodes {
        node_lines.push(line(from)?);
    }
    let mut offsets = Vec::new();
    let mut wrong = None;
    for _ in 0..keys {
        let text = line(from)?;
        match fields(&text, [8]) {
            Some([offset]) => offsets.push(offset),
            None => wrong = Some(format!("no key offset: {text}")),
        }
    }
    let encoded = if number == 0 && encodes {
        let text = line(from)?;
        match text.strip_prefix("= ") {
            Some(hex) => Some(hex.to_string()),
            None => return Err(io::Error::new(io::ErrorKind::InvalidData, format!("not the encoder's line: {text}"))),
        }
    } else {
        None
    };
    let mut listing = format!("{number:02x} {reason:02x} -------- {tokens:08x} {steps:08x} {nodes:08x} {keys:08x}\n");
    for text in &node_lines {
        if let Err(e) = add_node(&mut listing, text, kind, script, &offsets) {
            wrong = wrong.or(Some(e));
        }
    }
    Ok(Ours { listing: wrong.map_or(Ok(listing), Err), encoded })
}

fn add_node(listing: &mut String, text: &str, kind: u8, script: &[u8], offsets: &[usize]) -> Result<(), String> {
    let bad = |what: &str| format!("{what}: {text}");
    let [node, number, count, place, size, types] = fields(text, [2, 8, 8, 8, 8, 4]).ok_or_else(|| bad("no node line"))?;
    listing.push_str(&format!("{node:02x} {number:08x} {count:08x} -------- {size:08x} {types:04x}"));
    let key = if kind == 0 { 33 } else { 32 };
    let length = match node {
        3 => key,
        5 | 10 | 11 => 20,
        8 | 9 => 32,
        27 | 28 => {
            let table = place.checked_add(count).and_then(|end| offsets.get(place..end)).ok_or_else(|| bad("keys out of range"))?;
            for (i, offset) in table.iter().enumerate() {
                listing.push(if i == 0 { ' ' } else { ',' });
                hex_into(listing, script.get(*offset..offset + key).ok_or_else(|| bad("key out of range"))?);
            }
            listing.push('\n');
            return Ok(());
        }
        _ if place != 0 => return Err(bad("a place where none is used")),
        _ => {
            listing.push('\n');
            return Ok(());
        }
    };
    listing.push(' ');
    hex_into(listing, script.get(place..place + length).ok_or_else(|| bad("place out of range"))?);
    listing.push('\n');
    Ok(())
}
