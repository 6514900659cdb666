//! The oracle's answers: a script is handed to the crate's own text, and what comes back is written in document 01's numbers.
//!
//! Nothing here decides anything about a script but its length (01's number 1) and its kind (20). The rest is a table from the
//! crate's errors to 01's numbers, and a walk over the tree.

pub mod generate;
pub mod ours;
pub mod sample;

use std::panic::{catch_unwind, AssertUnwindSafe};

use bitcoin::hashes::Hash as _;
use bitcoin::script::Error as ScriptError;
use miniscript::miniscript::context::{Segwitv0, Tap};
use miniscript::miniscript::types::{Base, ErrorKind, Input, Type};
use miniscript::miniscript::{lex, read};
use miniscript::{Error, Miniscript, MiniscriptKey, ScriptContext, Terminal, ToPublicKey};

/// 01's limit on a script.
pub const LONGEST: usize = 10_000;

/// Trees of 10,000 bytes can be that deep, and the crate's encoder and the release of a tree call themselves. The crate is
/// protected by its depth check, which the oracle doesn't apply; so whatever calls it runs in a thread with room.
pub fn with_room<T: Send>(work: impl FnOnce() -> T + Send) -> T {
    std::thread::scope(|s| {
        let thread = std::thread::Builder::new().stack_size(1 << 30).spawn_scoped(s, work);
        thread.expect("a thread with a large stack").join().unwrap_or_else(|e| std::panic::resume_unwind(e))
    })
}

/// The oracle's whole answer to one script, as README.md's "The oracle's listing" has it. Call it inside `with_room`.
pub struct Answer {
    pub number: u8,
    pub reason: u8,
    pub listing: String,
    /// What the encoder wrote, if the script was accepted.
    pub encoded: Vec<u8>,
    /// One bit for each kind of node in the tree.
    pub kinds: u32,
    /// The most entries that the work list had at once.
    pub most_work: usize,
}

pub fn judge(kind: u8, script: &[u8]) -> Answer {
    match kind {
        0 | 1 if script.len() > LONGEST => refusal(1, 0, 0, 0),
        0 => judge_as::<Segwitv0>(script),
        1 => judge_as::<Tap>(script),
        _ => refusal(20, 0, 0, 0),
    }
}

/// The answer to a line of hexadecimal, kind byte first. A line that is none gets 01's 23.
pub fn judge_line(line: &[u8]) -> Answer {
    match unhex(line) {
        Some(bytes) if !bytes.is_empty() => judge(bytes[0], &bytes[1..]),
        _ => refusal(23, 0, 0, 0),
    }
}

fn refusal(number: u8, reason: u8, tokens: usize, steps: u64) -> Answer {
    Answer { number, reason, listing: header(number, reason, tokens, steps, 0, 0), encoded: Vec::new(), kinds: 0, most_work: alloc::take_most() }
}

fn header(number: u8, reason: u8, tokens: usize, steps: u64, nodes: usize, keys: usize) -> String {
    format!("{number:02x} {reason:02x} -------- {tokens:08x} {steps:08x} {nodes:08x} {keys:08x}\n")
}

fn judge_as<Ctx: ScriptContext>(script: &[u8]) -> Answer
where
    Ctx::Key: ToPublicKey + Bytes,
{
    // What a panic may have left behind.
    alloc::take_steps();
    alloc::take_most();
    let outcome = catch_unwind(AssertUnwindSafe(|| {
        let (tokens, answer) = read::<Ctx>(script);
        let steps = alloc::take_steps();
        match answer {
            Ok(top) => listed(&top, tokens, steps),
            Err(e) => {
                let (number, reason) = number_of(&e);
                refusal(number, reason, tokens, steps)
            }
        }
    }));
    // The crate's text should never panic. If it does, that is a finding of its own, with a number that 01 doesn't have.
    outcome.unwrap_or_else(|_| refusal(0xff, 0, 0, 0))
}

/// 01's number and reason for each error of the crate.
fn number_of(e: &Error) -> (u8, u8) {
    match e {
        Error::Lex(e) => match e {
            lex::Error::Script(ScriptError::EarlyEndOfScript) => (2, 0),
            lex::Error::Script(_) => (3, 0),
            lex::Error::InvalidInt { .. } => (4, 0),
            lex::Error::NegativeInt { .. } => (5, 0),
            lex::Error::InvalidOpcode(_) => (6, 0),
            lex::Error::NonMinimalVerify(_) => (7, 0),
        },
        Error::UnexpectedStart => (9, 0),
        Error::Unexpected(_) => (10, 0),
        Error::PubKeyCtxError(..) => (11, 0),
        Error::AbsoluteLockTime(_) | Error::RelativeLockTime(_) => (12, 0),
        Error::Threshold(_) => (13, 0),
        Error::TypeCheck(e) => (
            14,
            match e.error {
                ErrorKind::ChildBase1(..) => 1,
                ErrorKind::ChildBase2(..) => 2,
                ErrorKind::SwapNonOne => 3,
                ErrorKind::NonZeroDupIf => 4,
                ErrorKind::NonZeroZero => 5,
                ErrorKind::LeftNotDissatisfiable => 6,
                ErrorKind::RightNotDissatisfiable => 7,
                ErrorKind::LeftNotUnit => 8,
                ErrorKind::ThresholdBase(..) => 9,
                ErrorKind::ThresholdNonUnit(..) => 10,
                ErrorKind::ThresholdDissat(..) => 11,
                ErrorKind::ChildBase3(..) => 12,
            },
        ),
        Error::Trailing(_) => (18, 0),
        Error::NonTopLevel(_) => (19, 0),
        Error::NonStandardBareScript | Error::MultipathDescLenMismatch => unreachable!("no context check"),
    }
}

/// A key's bytes as they stand in a script.
pub trait Bytes {
    fn bytes(&self) -> Vec<u8>;
}

impl Bytes for bitcoin::PublicKey {
    fn bytes(&self) -> Vec<u8> { self.as_bytes().to_vec() }
}

impl Bytes for bitcoin::secp256k1::XOnlyPublicKey {
    fn bytes(&self) -> Vec<u8> { self.serialize().to_vec() }
}

fn listed<Ctx: ScriptContext>(top: &Miniscript<Ctx::Key, Ctx>, tokens: usize, steps: u64) -> Answer
where
    Ctx::Key: ToPublicKey + Bytes,
{
    // Each node, then its children in script order; turned round, this is 01's order of completion.
    let mut waiting = vec![top];
    let mut order: Vec<&Miniscript<Ctx::Key, Ctx>> = Vec::new();
    while let Some(node) = waiting.pop() {
        order.push(node);
        waiting.extend(children(&node.node).into_iter().rev());
    }
    order.reverse();

    let mut sizes: Vec<usize> = Vec::with_capacity(order.len());
    let mut keys = 0;
    let mut kinds = 0;
    let mut lines = String::new();
    for node in &order {
        // The children's subtrees are the last ones finished, so walking back by their sizes finds each.
        let mut size = 1;
        for _ in children(&node.node) {
            size += sizes[sizes.len() - size];
        }
        sizes.push(size);
        let (kind, number, count, data) = fields(&node.node);
        if kind >= 27 {
            keys += count;
        }
        kinds |= 1 << kind;
        lines.push_str(&format!("{kind:02x} {number:08x} {count:08x} -------- {size:08x} {}", digits(&node.ty)));
        for (i, d) in data.iter().enumerate() {
            lines.push(if i == 0 { ' ' } else { ',' });
            hex_into(&mut lines, d);
        }
        lines.push('\n');
    }
    let encoded = top.encode().as_bytes().to_vec();
    let mut listing = header(0, 0, tokens, steps, order.len(), keys);
    listing.push_str(&lines);
    Answer { number: 0, reason: 0, listing, encoded, kinds, most_work: alloc::take_most() }
}

/// In script order: and_or's third stands before its second.
fn children<Pk: MiniscriptKey, Ctx: ScriptContext>(node: &Terminal<Pk, Ctx>) -> Vec<&Miniscript<Pk, Ctx>> {
    use Terminal::*;
    match node {
        True | False | PkK(_) | PkH(_) | RawPkH(_) | After(_) | Older(_) | Sha256(_) | Hash256(_) | Ripemd160(_) | Hash160(_)
        | Multi(_) | MultiA(_) => vec![],
        Alt(x) | Swap(x) | Check(x) | DupIf(x) | Verify(x) | NonZero(x) | ZeroNotEqual(x) => vec![x],
        AndV(x, y) | AndB(x, y) | OrB(x, y) | OrD(x, y) | OrC(x, y) | OrI(x, y) => vec![x, y],
        AndOr(x, y, z) => vec![x, z, y],
        Thresh(t) => t.iter().map(|x| &**x).collect(),
    }
}

/// Kind by the order of `Terminal`, number, count, key or hash bytes.
fn fields<Pk: MiniscriptKey + ToPublicKey + Bytes, Ctx: ScriptContext>(node: &Terminal<Pk, Ctx>) -> (u8, u32, usize, Vec<Vec<u8>>) {
    use Terminal::*;
    let kind = |k| (k, 0, 0, vec![]);
    let data = |k, bytes: &[u8]| (k, 0, 0, vec![bytes.to_vec()]);
    match node {
        True => kind(1),
        False => kind(2),
        PkK(key) => data(3, &key.bytes()),
        PkH(key) => data(4, &key.bytes()),
        RawPkH(hash) => data(5, &hash.to_byte_array()),
        After(t) => (6, t.to_consensus_u32(), 0, vec![]),
        Older(t) => (7, t.to_consensus_u32(), 0, vec![]),
        Sha256(h) => data(8, &Pk::to_sha256(h).to_byte_array()),
        Hash256(h) => data(9, &Pk::to_hash256(h).to_byte_array()),
        Ripemd160(h) => data(10, &Pk::to_ripemd160(h).to_byte_array()),
        Hash160(h) => data(11, &Pk::to_hash160(h).to_byte_array()),
        Alt(_) => kind(12),
        Swap(_) => kind(13),
        Check(_) => kind(14),
        DupIf(_) => kind(15),
        Verify(_) => kind(16),
        NonZero(_) => kind(17),
        ZeroNotEqual(_) => kind(18),
        AndV(..) => kind(19),
        AndB(..) => kind(20),
        AndOr(..) => kind(21),
        OrB(..) => kind(22),
        OrD(..) => kind(23),
        OrC(..) => kind(24),
        OrI(..) => kind(25),
        Thresh(t) => (26, t.k() as u32, t.n(), vec![]),
        Multi(t) => (27, t.k() as u32, t.n(), t.iter().map(Bytes::bytes).collect()),
        MultiA(t) => (28, t.k() as u32, t.n(), t.iter().map(Bytes::bytes).collect()),
    }
}

/// Base, input, dissatisfiable, unit, as 01 numbers them.
fn digits(ty: &Type) -> String {
    let base = match ty.corr.base {
        Base::B => 1,
        Base::K => 2,
        Base::V => 3,
        Base::W => 4,
    };
    let input = match ty.corr.input {
        Input::Zero => 1,
        Input::One => 2,
        Input::Any => 3,
        Input::OneNonZero => 4,
        Input::AnyNonZero => 5,
    };
    format!("{base}{input}{}{}", ty.corr.dissatisfiable as u8, ty.corr.unit as u8)
}

/// An accepted script's listing in 01's own form, places and key offsets and all. The crate knows no places; but a tree's keys and hashes
/// are just the pushes of 20, 32 and 33 bytes of its script, in their order, so 01's text settles them.
pub fn placed(listing: &str, script: &[u8]) -> String {
    let mut pushes = Vec::new();
    let mut at = 0;
    while at < script.len() {
        let n = if script[at] <= 75 { script[at] as usize } else { 0 };
        if matches!(n, 20 | 32 | 33) {
            pushes.push(at + 1);
        }
        at += 1 + n;
    }
    // Last node first: taking the pushes from the front then walks the script forwards.
    let nodes: Vec<&str> = listing.lines().skip(1).collect();
    let mut next = 0;
    let mut held: Vec<&[usize]> = Vec::new();
    for line in nodes.iter().rev() {
        let data = line.split(' ').nth(6).map_or(0, |data| data.split(',').count());
        held.push(&pushes[next..next + data]);
        next += data;
    }
    assert_eq!(next, pushes.len(), "each push belongs to one node");
    let mut text = listing.lines().next().unwrap_or_default().replace("--------", "00000000") + "\n";
    let mut keys = String::new();
    for (line, offsets) in nodes.iter().zip(held.iter().rev()) {
        let place = match (&line[..2], offsets.first()) {
            ("1b" | "1c", Some(_)) => {
                let first = keys.lines().count();
                offsets.iter().for_each(|offset| keys.push_str(&format!("{offset:08x}\n")));
                first
            }
            (_, Some(offset)) => *offset,
            (_, None) => 0,
        };
        let bare: Vec<&str> = line.split(' ').take(6).collect();
        text.push_str(&bare.join(" ").replace("--------", &format!("{place:08x}")));
        text.push('\n');
    }
    text + &keys
}

pub fn hex_into(out: &mut String, bytes: &[u8]) {
    const DIGITS: &[u8; 16] = b"0123456789abcdef";
    for b in bytes {
        out.push(DIGITS[(b >> 4) as usize] as char);
        out.push(DIGITS[(b & 15) as usize] as char);
    }
}

pub fn hex(bytes: &[u8]) -> String {
    let mut out = String::with_capacity(2 * bytes.len());
    hex_into(&mut out, bytes);
    out
}

/// Even-length hexadecimal, either case.
pub fn unhex(text: &[u8]) -> Option<Vec<u8>> {
    let digit = |c: u8| (c as char).to_digit(16).map(|d| d as u8);
    if text.len() % 2 != 0 {
        return None;
    }
    text.chunks(2).map(|two| Some(digit(two[0])? << 4 | digit(two[1])?)).collect()
}
