//! What was read: nodes by kind, their types, and the keys.

use core::fmt;

use crate::{encode_in, leaf_part, Refusal, ScriptKind};

/// How many numbers a node takes in a node table.
pub const NODE_NUMBERS: usize = 9;
/// How many numbers a token takes in a token table.
pub const TOKEN_NUMBERS: usize = 3;

/// The kind of a pk_k.
const PK_K: u32 = 3;

/// BIP 379's basic types.
#[derive(Clone, Copy, Debug, PartialEq, Eq, Hash)]
pub enum Base {
    B,
    K,
    V,
    W,
}

/// What a part takes from the stack.
#[derive(Clone, Copy, Debug, PartialEq, Eq, Hash)]
pub enum Input {
    Zero,
    One,
    Any,
    OneNonZero,
    AnyNonZero,
}

/// The type of a part.
#[derive(Clone, Copy, Debug, PartialEq, Eq, Hash)]
pub struct Type {
    pub base: Base,
    pub input: Input,
    pub dissatisfiable: bool,
    pub unit: bool,
}

/// A script that was read, over tables that someone holds: either a [`Tree`](crate::Tree) or a caller who lent them to
/// [`read_in`](crate::read_in).
#[derive(Clone, Copy)]
pub struct TreeRef<'t> {
    pub(crate) kind: ScriptKind,
    pub(crate) script: &'t [u8],
    /// Just the tokens, nodes and keys that were found.
    pub(crate) tokens: &'t [u32],
    pub(crate) nodes: &'t [u32],
    pub(crate) keys: &'t [u32],
    pub(crate) steps: usize,
}

impl<'t> TreeRef<'t> {
    /// The kind of script that it was read as.
    pub fn kind(&self) -> ScriptKind {
        self.kind
    }

    /// The script that it was read from.
    pub fn script(&self) -> &'t [u8] {
        self.script
    }

    /// How many tokens the script has.
    pub fn token_count(&self) -> usize {
        self.tokens.len() / TOKEN_NUMBERS
    }

    /// How many steps reading it took.
    pub fn steps(&self) -> usize {
        self.steps
    }

    /// How many nodes the tree has.
    pub fn node_count(&self) -> usize {
        self.nodes.len() / NODE_NUMBERS
    }

    /// The whole rule.
    pub fn root(&self) -> Expression<'t> {
        Expression { tree: *self, at: self.node_count() - 1 }
    }

    /// Every part, each before the parts that it is made of, in the order of the script.
    pub fn parts(&self) -> impl DoubleEndedIterator<Item = Expression<'t>> + ExactSizeIterator + 't {
        let tree = *self;
        (0..self.node_count()).rev().map(move |at| Expression { tree, at })
    }

    /// Every key that the script holds, in its order: those of pk_k, multi and multi_a. (A key hash is no key.)
    pub fn keys(&self) -> impl Iterator<Item = &'t [u8]> + 't {
        self.parts().flat_map(|part| match part.node() {
            Node::PkK(key) => Keys::one(key),
            Node::Multi(_, keys) | Node::MultiA(_, keys) => keys,
            _ => Keys::none(),
        })
    }

    /// Writes the script of the tree anew to the front of a lent output, and allocates nothing: the script that it was read from, byte for
    /// byte, but that NUMEQUAL VERIFY comes back as the one opcode NUMEQUALVERIFY. `work` has to have the room that
    /// [`encoding_work`](crate::encoding_work) answers for the nodes, `out` the bytes of the script.
    pub fn encode_in<'o>(&self, work: &mut [u64], out: &'o mut [u8]) -> Result<&'o [u8], Refusal> {
        encode_in(self.kind, self.nodes, self.keys, self.script, work, out)
    }

    /// The node table: nine numbers a node, the whole rule last.
    pub fn node_table(&self) -> &'t [u32] {
        self.nodes
    }

    /// The key table: offsets into the script.
    pub fn key_table(&self) -> &'t [u32] {
        self.keys
    }

    /// The token table: code, number and place of each token.
    pub fn token_table(&self) -> &'t [u32] {
        self.tokens
    }
}

impl fmt::Debug for TreeRef<'_> {
    fn fmt(&self, f: &mut fmt::Formatter<'_>) -> fmt::Result {
        self.root().fmt(f)
    }
}

/// Two trees are the same when kinds of nodes, numbers, counts, shape and key and hash bytes agree, whatever the offsets.
impl PartialEq for TreeRef<'_> {
    fn eq(&self, other: &TreeRef<'_>) -> bool {
        self.kind == other.kind
            && self.node_count() == other.node_count()
            && self.parts().zip(other.parts()).all(|(one, two)| one.size() == two.size() && one.node().same_label(&two.node()))
    }
}

impl Eq for TreeRef<'_> {}

/// A part of a tree: a node with all that is below it.
#[derive(Clone, Copy)]
pub struct Expression<'t> {
    tree: TreeRef<'t>,
    at: usize,
}

impl<'t> Expression<'t> {
    /// One of the node's nine numbers.
    fn field(&self, i: usize) -> u32 {
        self.tree.nodes[NODE_NUMBERS * self.at + i]
    }

    /// How many nodes it has, its own included.
    pub fn size(&self) -> usize {
        self.field(4) as usize
    }

    /// Its type.
    pub fn ty(&self) -> Type {
        Type {
            base: match self.field(5) {
                1 => Base::B,
                2 => Base::K,
                3 => Base::V,
                _ => Base::W,
            },
            input: match self.field(6) {
                1 => Input::Zero,
                2 => Input::One,
                3 => Input::Any,
                4 => Input::OneNonZero,
                _ => Input::AnyNonZero,
            },
            dissatisfiable: self.field(7) == 1,
            unit: self.field(8) == 1,
        }
    }

    /// The parts that it is made of, in the order of the script: and_or's are X, Z, Y there.
    pub fn children(&self) -> Children<'t> {
        let left = match self.field(0) {
            1..=11 | 27 | 28 => 0,
            12..=18 => 1,
            21 => 3,
            26 => self.field(2) as usize,
            _ => 2,
        };
        Children { tree: self.tree, end: self.at, left }
    }

    /// The key or the hash of this node.
    fn data(&self) -> &'t [u8] {
        leaf_part(self.tree.kind, self.tree.script, self.field(0), self.field(3))
    }

    fn multi_keys(&self) -> Keys<'t> {
        let first = self.field(3) as usize;
        let offsets = &self.tree.keys[first..first + self.field(2) as usize];
        Keys { single: None, kind: self.tree.kind, script: self.tree.script, offsets: offsets.iter() }
    }

    /// What stands here, with its parts.
    pub fn node(&self) -> Node<'t> {
        let mut children = self.children();
        let mut child = || children.next().expect("a node has its children");
        match self.field(0) {
            1 => Node::True,
            2 => Node::False,
            3 => Node::PkK(self.data()),
            5 => Node::RawPkH(self.data()),
            6 => Node::After(self.field(1)),
            7 => Node::Older(self.field(1)),
            8 => Node::Sha256(self.data()),
            9 => Node::Hash256(self.data()),
            10 => Node::Ripemd160(self.data()),
            11 => Node::Hash160(self.data()),
            12 => Node::Alt(child()),
            13 => Node::Swap(child()),
            14 => Node::Check(child()),
            15 => Node::DupIf(child()),
            16 => Node::Verify(child()),
            17 => Node::NonZero(child()),
            18 => Node::ZeroNotEqual(child()),
            19 => Node::AndV(child(), child()),
            20 => Node::AndB(child(), child()),
            21 => {
                let (x, z, y) = (child(), child(), child());
                Node::AndOr(x, y, z)
            }
            22 => Node::OrB(child(), child()),
            23 => Node::OrD(child(), child()),
            24 => Node::OrC(child(), child()),
            25 => Node::OrI(child(), child()),
            26 => Node::Thresh(self.field(1), self.children()),
            27 => Node::Multi(self.field(1), self.multi_keys()),
            _ => Node::MultiA(self.field(1), self.multi_keys()),
        }
    }
}

impl fmt::Debug for Expression<'_> {
    fn fmt(&self, f: &mut fmt::Formatter<'_>) -> fmt::Result {
        self.node().fmt(f)
    }
}

/// A node by its kind, with what it holds. Keys and hashes are parts of the script that was read.
#[derive(Clone, Debug)]
#[non_exhaustive]
pub enum Node<'t> {
    True,
    False,
    /// A key: 33 bytes in segwit, 32 in tapscript.
    PkK(&'t [u8]),
    /// A key's hash, 20 bytes.
    RawPkH(&'t [u8]),
    /// A time that must have come.
    After(u32),
    /// A time that the deposit must have lain.
    Older(u32),
    Sha256(&'t [u8]),
    Hash256(&'t [u8]),
    Ripemd160(&'t [u8]),
    Hash160(&'t [u8]),
    Alt(Expression<'t>),
    Swap(Expression<'t>),
    Check(Expression<'t>),
    DupIf(Expression<'t>),
    Verify(Expression<'t>),
    NonZero(Expression<'t>),
    ZeroNotEqual(Expression<'t>),
    AndV(Expression<'t>, Expression<'t>),
    AndB(Expression<'t>, Expression<'t>),
    /// X, Y, Z: if X then Y, else Z.
    AndOr(Expression<'t>, Expression<'t>, Expression<'t>),
    OrB(Expression<'t>, Expression<'t>),
    OrD(Expression<'t>, Expression<'t>),
    OrC(Expression<'t>, Expression<'t>),
    OrI(Expression<'t>, Expression<'t>),
    /// So many of the parts.
    Thresh(u32, Children<'t>),
    /// So many of the keys, segwit's.
    Multi(u32, Keys<'t>),
    /// So many of the keys, tapscript's.
    MultiA(u32, Keys<'t>),
}

impl Node<'_> {
    /// Whether two nodes agree in all but their parts: kind, numbers, counts, bytes.
    fn same_label(&self, other: &Node<'_>) -> bool {
        if core::mem::discriminant(self) != core::mem::discriminant(other) {
            return false;
        }
        match (self, other) {
            (Node::PkK(a), Node::PkK(b))
            | (Node::RawPkH(a), Node::RawPkH(b))
            | (Node::Sha256(a), Node::Sha256(b))
            | (Node::Hash256(a), Node::Hash256(b))
            | (Node::Ripemd160(a), Node::Ripemd160(b))
            | (Node::Hash160(a), Node::Hash160(b)) => a == b,
            (Node::After(a), Node::After(b)) | (Node::Older(a), Node::Older(b)) => a == b,
            (Node::Thresh(k, a), Node::Thresh(m, b)) => k == m && a.len() == b.len(),
            (Node::Multi(k, a), Node::Multi(m, b)) | (Node::MultiA(k, a), Node::MultiA(m, b)) => k == m && a.clone().eq(b.clone()),
            _ => true,
        }
    }
}

/// The parts of a node, in the order of the script.
#[derive(Clone)]
pub struct Children<'t> {
    tree: TreeRef<'t>,
    /// The next child is the node before this one.
    end: usize,
    left: usize,
}

impl<'t> Iterator for Children<'t> {
    type Item = Expression<'t>;

    fn next(&mut self) -> Option<Expression<'t>> {
        self.left = self.left.checked_sub(1)?;
        let child = Expression { tree: self.tree, at: self.end - 1 };
        self.end -= child.size();
        Some(child)
    }

    fn size_hint(&self) -> (usize, Option<usize>) {
        (self.left, Some(self.left))
    }
}

impl ExactSizeIterator for Children<'_> {}

impl fmt::Debug for Children<'_> {
    fn fmt(&self, f: &mut fmt::Formatter<'_>) -> fmt::Result {
        f.debug_list().entries(self.clone()).finish()
    }
}

/// Keys, as parts of the script, in its order.
#[derive(Clone)]
pub struct Keys<'t> {
    single: Option<&'t [u8]>,
    kind: ScriptKind,
    script: &'t [u8],
    offsets: core::slice::Iter<'t, u32>,
}

impl<'t> Keys<'t> {
    fn one(key: &'t [u8]) -> Keys<'t> {
        Keys { single: Some(key), ..Keys::none() }
    }

    fn none() -> Keys<'t> {
        Keys { single: None, kind: ScriptKind::Segwit, script: &[], offsets: [].iter() }
    }
}

impl<'t> Iterator for Keys<'t> {
    type Item = &'t [u8];

    fn next(&mut self) -> Option<&'t [u8]> {
        if let Some(key) = self.single.take() {
            return Some(key);
        }
        // A key of multi and of multi_a is as long as a pk_k's in its kind of script.
        Some(leaf_part(self.kind, self.script, PK_K, *self.offsets.next()?))
    }

    fn size_hint(&self) -> (usize, Option<usize>) {
        let left = self.offsets.len() + self.single.is_some() as usize;
        (left, Some(left))
    }
}

impl ExactSizeIterator for Keys<'_> {}

impl fmt::Debug for Keys<'_> {
    fn fmt(&self, f: &mut fmt::Formatter<'_>) -> fmt::Result {
        f.debug_list().entries(self.clone()).finish()
    }
}
