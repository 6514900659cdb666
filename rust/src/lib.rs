//! Reads the Bitcoin scripts that lock deposits into the rule that releases them (BIP 379's miniscript), and refuses a script that it
//! can't vouch for; and writes the script of such a rule. Reader and encoder are proved: this crate calls them in a static library and
//! gives them Rust's types.
//!
//! ```
//! use phagdrulis::{read, Node, ScriptKind};
//!
//! // Whoever holds the key, after 1,008 blocks.
//! let mut script = vec![33];
//! script.extend([2; 33]);
//! script.extend([0xad, 0x02, 0xf0, 0x03, 0xb2]);
//!
//! let tree = read(ScriptKind::Segwit, &script)?;
//! let Node::AndV(first, second) = tree.root().node() else { panic!("an and_v") };
//! assert!(matches!(first.node(), Node::Verify(_)));
//! assert!(matches!(second.node(), Node::Older(1008)));
//! assert_eq!(tree.keys().collect::<Vec<_>>(), [[2; 33]]);
//! assert_eq!(tree.encode()?, script);
//! # Ok::<(), phagdrulis::Refusal>(())
//! ```
//!
//! [`read`] allocates the tables that the reader works on, of just the sizes that [`room`] answers for the script. [`read_in`] works on
//! tables that the caller lends, and allocates nothing:
//!
//! ```
//! use phagdrulis::{read_in, room, ScriptKind, Tables};
//!
//! let script = [0x63, 0x51, 0x67, 0x00, 0x68];
//! let (mut tokens, mut nodes, mut keys, mut work) = ([0; 30], [0; 180], [0; 10], [0; 82]);
//! let needed = room(&script)?;
//! let lent = Tables { tokens: &mut tokens, nodes: &mut nodes, keys: &mut keys, work: &mut work };
//! // Only what is lent is cleared, so lend no more than is needed.
//! let tree = read_in(ScriptKind::Segwit, &script, lent.fitted(&needed))?;
//! assert_eq!((tree.node_count(), tree.steps()), (3, 8));
//!
//! // And back, over lent tables too.
//! let (mut work, mut out) = ([0; 26], [0; 5]);
//! assert_eq!(tree.encode_in(&mut work, &mut out)?, script);
//! # Ok::<(), phagdrulis::Refusal>(())
//! ```
#![no_std]
#![deny(missing_debug_implementations)]

#[cfg(feature = "alloc")]
extern crate alloc;

pub mod ffi;
mod refusal;
mod tree;

pub use refusal::Refusal;
pub use tree::{Base, Children, Expression, Input, Keys, Node, TreeRef, Type, NODE_NUMBERS, TOKEN_NUMBERS};

/// The most bytes that a script may have.
pub const LONGEST_SCRIPT: usize = 10_000;

/// The two kinds of script. A number becomes a kind by `try_from`, which refuses any other with 20.
///
/// ```
/// use phagdrulis::ScriptKind;
/// assert_eq!(ScriptKind::try_from(1), Ok(ScriptKind::Tapscript));
/// assert_eq!(ScriptKind::try_from(2).unwrap_err().number, 20);
/// ```
#[derive(Clone, Copy, Debug, PartialEq, Eq, Hash)]
pub enum ScriptKind {
    Segwit = 0,
    Tapscript = 1,
}

impl TryFrom<u32> for ScriptKind {
    type Error = Refusal;

    fn try_from(number: u32) -> Result<ScriptKind, Refusal> {
        match number {
            0 => Ok(ScriptKind::Segwit),
            1 => Ok(ScriptKind::Tapscript),
            _ => Err(Refusal { number: 20, reason: 0, place: 0, tokens: 0, steps: 0 }),
        }
    }
}

/// The sizes of tables that are ample for a script, in entries: with them no table is ever too small.
#[derive(Clone, Copy, Debug, PartialEq, Eq, Hash)]
pub struct Room {
    pub tokens: usize,
    pub nodes: usize,
    pub keys: usize,
    pub work: usize,
}

impl Room {
    /// Ample for every script of so many bytes, whatever it holds.
    pub const fn for_bytes(bytes: usize) -> Room {
        Room { tokens: 2 * bytes, nodes: 4 * bytes, keys: bytes, work: 16 * bytes + 2 }
    }
}

/// Goes over a script once, with no table: the sizes that are ample for it, or what [`read`] would refuse it with before it reads a token.
///
/// ```
/// assert_eq!(phagdrulis::room(&[0x51, 0x69, 0x51])?, phagdrulis::Room { tokens: 3, nodes: 6, keys: 3, work: 26 });
/// assert_eq!(phagdrulis::room(&[0x87, 0x69]).unwrap_err().number, 7);
/// # Ok::<(), phagdrulis::Refusal>(())
/// ```
pub fn room(script: &[u8]) -> Result<Room, Refusal> {
    let ffi::Room { number, place, tokens, nodes, keys, work } = ffi::room(script);
    match number {
        0 => Ok(Room { tokens, nodes, keys, work }),
        _ => Err(Refusal { number, reason: 0, place, tokens: 0, steps: 0 }),
    }
}

/// Tables that a caller lends. A token takes three numbers, a node nine, a key and an entry of work one each.
#[derive(Debug)]
pub struct Tables<'t> {
    pub tokens: &'t mut [u32],
    pub nodes: &'t mut [u32],
    pub keys: &'t mut [u32],
    pub work: &'t mut [u64],
}

impl<'t> Tables<'t> {
    /// The fronts of the tables that have this room, or the whole of a table that has less.
    pub fn fitted(self, room: &Room) -> Tables<'t> {
        fn front<T>(table: &mut [T], length: usize) -> &mut [T] {
            let length = length.min(table.len());
            &mut table[..length]
        }
        Tables {
            tokens: front(self.tokens, TOKEN_NUMBERS * room.tokens),
            nodes: front(self.nodes, NODE_NUMBERS * room.nodes),
            keys: front(self.keys, room.keys),
            work: front(self.work, room.work),
        }
    }
}

/// Reads a script over lent tables, and allocates nothing. What the tables held before doesn't matter; a refusal leaves them zero.
pub fn read_in<'t>(kind: ScriptKind, script: &'t [u8], tables: Tables<'t>) -> Result<TreeRef<'t>, Refusal> {
    let Tables { tokens, nodes, keys, work } = tables;
    let a = ffi::read(kind as u32, script, tokens, nodes, keys, work);
    told(&a)?;
    Ok(TreeRef {
        kind,
        script,
        tokens: &tokens[..TOKEN_NUMBERS * a.tokens],
        nodes: &nodes[..NODE_NUMBERS * a.nodes],
        keys: &keys[..a.keys],
        steps: a.steps,
    })
}

fn told(a: &ffi::Answer) -> Result<(), Refusal> {
    match a.number {
        0 => Ok(()),
        number => Err(Refusal { number, reason: a.reason, place: a.place, tokens: a.tokens, steps: a.steps }),
    }
}

/// A token of a script: its code (1 BoolAnd to 32 Bytes65), its number, and the place of its instruction.
#[derive(Clone, Copy, Debug, PartialEq, Eq, Hash)]
pub struct Token {
    pub code: u32,
    pub number: u32,
    pub place: usize,
}

/// Cuts a script into tokens over a lent table of three numbers a token.
///
/// ```
/// let mut table = [0; 6];
/// let codes: Vec<u32> = phagdrulis::lex(&[0x88], &mut table)?.map(|token| token.code).collect();
/// assert_eq!(codes.len(), 2);
/// # Ok::<(), phagdrulis::Refusal>(())
/// ```
pub fn lex<'t>(script: &[u8], table: &'t mut [u32]) -> Result<impl ExactSizeIterator<Item = Token> + 't, Refusal> {
    let a = ffi::lex(script, table);
    match a.number {
        0 => Ok(table[..TOKEN_NUMBERS * a.tokens].chunks_exact(TOKEN_NUMBERS).map(|t| Token { code: t[0], number: t[1], place: t[2] as usize })),
        number => Err(Refusal { number, reason: 0, place: a.place, tokens: 0, steps: 0 }),
    }
}

/// How many entries of work encoding so many nodes asks for.
///
/// ```
/// assert_eq!(phagdrulis::encoding_work(3), 26);
/// ```
pub const fn encoding_work(nodes: usize) -> usize {
    8 * nodes + 2
}

/// Writes the script of the tree that a node table holds to the front of a lent output, and allocates nothing. The table is checked whole
/// first, whoever made it: a refusal leaves the output as it was. `material` holds the bytes of keys and hashes, where the nodes' places
/// and the key table's offsets say. What the work table held before doesn't matter; it has to have [`encoding_work`]'s room.
///
/// ```
/// use phagdrulis::{encode_in, encoding_work, ScriptKind};
///
/// // The number 1, of base B, taking nothing from the stack, never unsatisfied, leaving exactly 1.
/// let node = [1, 0, 0, 0, 1, 1, 1, 0, 1];
/// let (mut work, mut out) = ([0; encoding_work(1)], [0; 520]);
/// assert_eq!(encode_in(ScriptKind::Segwit, &node, &[], &[], &mut work, &mut out)?, [0x51]);
///
/// // A type that isn't the node's.
/// let node = [1, 0, 0, 0, 1, 1, 1, 1, 1];
/// let refusal = encode_in(ScriptKind::Segwit, &node, &[], &[], &mut work, &mut out).unwrap_err();
/// assert_eq!((refusal.number, refusal.reason), (14, 13));
/// # Ok::<(), phagdrulis::Refusal>(())
/// ```
pub fn encode_in<'o>(
    kind: ScriptKind,
    nodes: &[u32],
    keys: &[u32],
    material: &[u8],
    work: &mut [u64],
    out: &'o mut [u8],
) -> Result<&'o [u8], Refusal> {
    let a = ffi::encode(kind as u32, nodes, keys, material, work, out);
    match a.number {
        0 => Ok(&out[..a.bytes]),
        number => Err(Refusal { number, reason: a.reason, place: a.place, tokens: 0, steps: 0 }),
    }
}

/// The key or hash of a leaf, as the very part of the script: by the leaf's kind (3, 5, 8 to 11) and place. Empty where there is none in
/// range.
///
/// ```
/// use phagdrulis::{leaf_part, ScriptKind};
/// let script = [[0x20; 1].as_slice(), &[7; 32], &[0xac]].concat();
/// assert_eq!(leaf_part(ScriptKind::Tapscript, &script, 3, 1), [7; 32]);
/// assert!(leaf_part(ScriptKind::Tapscript, &script, 3, 3).is_empty());
/// ```
pub fn leaf_part(kind: ScriptKind, script: &[u8], node: u32, place: u32) -> &[u8] {
    let part = ffi::leaf_part(kind as u32, script, node, place);
    &script[part.start..part.start + part.bytes]
}

/// A script that was read, with the tables that hold it.
#[cfg(feature = "alloc")]
#[derive(Clone)]
pub struct Tree<'s> {
    kind: ScriptKind,
    script: &'s [u8],
    tokens: alloc::vec::Vec<u32>,
    nodes: alloc::vec::Vec<u32>,
    keys: alloc::vec::Vec<u32>,
    steps: usize,
}

/// Reads a script into a tree, in tables that it makes itself, of the sizes that [`room`] answers.
///
/// ```
/// use phagdrulis::{read, ScriptKind};
/// assert_eq!(read(ScriptKind::Segwit, &[0x51])?.node_count(), 1);
/// let refusal = read(ScriptKind::Segwit, &[]).unwrap_err();
/// assert_eq!(refusal.to_string(), "refused with 9 at byte 0: the script begins too late: a part that must stand in front is missing");
/// # Ok::<(), phagdrulis::Refusal>(())
/// ```
#[cfg(feature = "alloc")]
pub fn read(kind: ScriptKind, script: &[u8]) -> Result<Tree<'_>, Refusal> {
    use alloc::vec;
    let room = room(script)?;
    let mut tokens = vec![0; TOKEN_NUMBERS * room.tokens];
    let mut nodes = vec![0; NODE_NUMBERS * room.nodes];
    let mut keys = vec![0; room.keys];
    let mut work = vec![0; room.work];
    let a = ffi::read(kind as u32, script, &mut tokens, &mut nodes, &mut keys, &mut work);
    told(&a)?;
    nodes.truncate(NODE_NUMBERS * a.nodes);
    keys.truncate(a.keys);
    Ok(Tree { kind, script, tokens, nodes, keys, steps: a.steps })
}

#[cfg(feature = "alloc")]
impl<'s> Tree<'s> {
    /// The tree, by reference: what [`read_in`] answers too.
    pub fn view(&self) -> TreeRef<'_> {
        TreeRef { kind: self.kind, script: self.script, tokens: &self.tokens, nodes: &self.nodes, keys: &self.keys, steps: self.steps }
    }

    /// The script that it was read from.
    pub fn script(&self) -> &'s [u8] {
        self.script
    }

    /// The whole rule.
    pub fn root(&self) -> Expression<'_> {
        self.view().root()
    }

    /// Every part, each before the parts that it is made of, in the order of the script.
    pub fn parts(&self) -> impl DoubleEndedIterator<Item = Expression<'_>> + ExactSizeIterator {
        self.view().parts()
    }

    /// Every key that the script holds, in its order.
    ///
    /// ```
    /// let mut script = vec![0x51, 33];
    /// script.extend([2; 33]);
    /// script.push(33);
    /// script.extend([3; 33]);
    /// script.extend([0x52, 0xae]);
    /// let tree = phagdrulis::read(phagdrulis::ScriptKind::Segwit, &script)?;
    /// assert_eq!(tree.keys().collect::<Vec<_>>(), [[2; 33], [3; 33]]);
    /// # Ok::<(), phagdrulis::Refusal>(())
    /// ```
    pub fn keys(&self) -> impl Iterator<Item = &[u8]> {
        self.view().keys()
    }

    /// Writes the script of the tree anew: the script that it was read from, byte for byte, but that NUMEQUAL VERIFY comes back as the one
    /// opcode NUMEQUALVERIFY. It makes its tables itself.
    ///
    /// ```
    /// use phagdrulis::{read, ScriptKind};
    /// let script = [0x63, 0x51, 0x67, 0x00, 0x68];
    /// assert_eq!(read(ScriptKind::Segwit, &script)?.encode()?, script);
    /// # Ok::<(), phagdrulis::Refusal>(())
    /// ```
    pub fn encode(&self) -> Result<alloc::vec::Vec<u8>, Refusal> {
        use alloc::vec;
        let mut work = vec![0; encoding_work(self.node_count())];
        let mut out = vec![0; self.script.len()];
        let bytes = self.view().encode_in(&mut work, &mut out)?.len();
        out.truncate(bytes);
        Ok(out)
    }

    /// How many nodes it has.
    pub fn node_count(&self) -> usize {
        self.view().node_count()
    }

    /// How many tokens the script has.
    pub fn token_count(&self) -> usize {
        self.view().token_count()
    }

    /// How many steps reading it took.
    pub fn steps(&self) -> usize {
        self.steps
    }
}

#[cfg(feature = "alloc")]
impl core::fmt::Debug for Tree<'_> {
    fn fmt(&self, f: &mut core::fmt::Formatter<'_>) -> core::fmt::Result {
        core::fmt::Debug::fmt(&self.view(), f)
    }
}

/// The same tree, whatever the offsets.
#[cfg(feature = "alloc")]
impl PartialEq for Tree<'_> {
    fn eq(&self, other: &Tree<'_>) -> bool {
        self.view() == other.view()
    }
}

#[cfg(feature = "alloc")]
impl Eq for Tree<'_> {}
