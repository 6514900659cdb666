//! Stands in for: src/miniscript/mod.rs of miniscript 13.2.0: the `Miniscript` that the supplied text builds and reads, and the
//! way from a script to one.
//!
//! What rests on it: that a node is typed by the supplied types/mod.rs and by nothing else, and that a script is lexed, decoded,
//! then tested for tokens left over and for base B. The crate also applies context checks to nodes (keys and fragments that don't
//! suit the kind of script, limits of size), a limit on a tree's depth, and sanity checks to the whole; none of them is applied here.
//! Tokens left over are tested before base B: that is document 01's order (18, then 19), and no verdict depends on it.

#[path = "../../../../crate-text/src/miniscript/astelem.rs"]
pub mod astelem;
#[path = "../../../../crate-text/src/miniscript/context.rs"]
pub mod context;
#[path = "../../../../crate-text/src/miniscript/decode.rs"]
pub mod decode;
#[path = "../../../../crate-text/src/miniscript/lex.rs"]
pub mod lex;
#[path = "../../../../crate-text/src/miniscript/limits.rs"]
pub mod limits;
pub mod satisfy;
#[path = "../../../../crate-text/src/miniscript/types/mod.rs"]
pub mod types;

use core::fmt;
use core::marker::PhantomData;

use bitcoin::hashes::hash160;
use bitcoin::script;

use self::lex::TokenIter;
use self::limits::{MAX_PUBKEYS_IN_CHECKSIGADD, MAX_PUBKEYS_PER_MULTISIG};
use self::types::{Base, ExtData, Type};
pub use crate::miniscript::context::ScriptContext;
use crate::prelude::*;
use crate::{AbsLockTime, Error, ForEachKey, MiniscriptKey, RelLockTime, Terminal, Threshold, ToPublicKey};

pub struct Miniscript<Pk: MiniscriptKey, Ctx: ScriptContext> {
    pub node: Terminal<Pk, Ctx>,
    pub ty: Type,
    pub ext: ExtData,
    phantom: PhantomData<Ctx>,
}

impl<Pk: MiniscriptKey, Ctx: ScriptContext> Miniscript<Pk, Ctx> {
    pub const TRUE: Self = Self::leaf(Terminal::True, Type::TRUE, ExtData::TRUE);
    pub const FALSE: Self = Self::leaf(Terminal::False, Type::FALSE, ExtData::FALSE);

    const fn leaf(node: Terminal<Pk, Ctx>, ty: Type, ext: ExtData) -> Self { Miniscript { node, ty, ext, phantom: PhantomData } }

    pub fn pk_k(pk: Pk) -> Self {
        let ext = ExtData::pk_k::<_, Ctx>(&pk);
        Self::leaf(Terminal::PkK(pk), Type::pk_k(), ext)
    }

    pub fn expr_raw_pkh(hash: hash160::Hash) -> Self { Self::leaf(Terminal::RawPkH(hash), Type::pk_h(), ExtData::pk_h::<Pk, Ctx>(None)) }
    pub fn after(t: AbsLockTime) -> Self { Self::leaf(Terminal::After(t), Type::time(), ExtData::after(t)) }
    pub fn older(t: RelLockTime) -> Self { Self::leaf(Terminal::Older(t), Type::time(), ExtData::older(t)) }
    pub fn sha256(h: Pk::Sha256) -> Self { Self::leaf(Terminal::Sha256(h), Type::hash(), ExtData::sha256()) }
    pub fn hash256(h: Pk::Hash256) -> Self { Self::leaf(Terminal::Hash256(h), Type::hash(), ExtData::hash256()) }
    pub fn ripemd160(h: Pk::Ripemd160) -> Self { Self::leaf(Terminal::Ripemd160(h), Type::hash(), ExtData::ripemd160()) }
    pub fn hash160(h: Pk::Hash160) -> Self { Self::leaf(Terminal::Hash160(h), Type::hash(), ExtData::hash160()) }

    pub fn multi(thresh: Threshold<Pk, MAX_PUBKEYS_PER_MULTISIG>) -> Self {
        let ext = ExtData::multi(&thresh);
        Self::leaf(Terminal::Multi(thresh), Type::multi(), ext)
    }

    pub fn multi_a(thresh: Threshold<Pk, MAX_PUBKEYS_IN_CHECKSIGADD>) -> Self {
        let ext = ExtData::multi_a(thresh.k(), thresh.n());
        Self::leaf(Terminal::MultiA(thresh), Type::multi_a(), ext)
    }

    pub fn from_ast(node: Terminal<Pk, Ctx>) -> Result<Self, Error> {
        let ty = Type::type_check(&node)?;
        let ext = ExtData::type_check(&node);
        Ok(Self::leaf(node, ty, ext))
    }

    pub fn as_inner(&self) -> &Terminal<Pk, Ctx> { &self.node }

    /// The bytes that astelem.rs writes.
    pub fn encode(&self) -> script::ScriptBuf
    where
        Pk: ToPublicKey,
    {
        self.node.encode(script::Builder::new()).into_script()
    }

    /// Named by context.rs, in checks that the oracle doesn't apply.
    pub fn max_satisfaction_witness_elements(&self) -> Result<usize, Error> { unreachable!("no context check") }

    /// Named by context.rs, in checks that the oracle doesn't apply.
    pub fn max_satisfaction_size(&self) -> Result<usize, Error> { unreachable!("no context check") }
}

/// How many tokens the script gave (0 if lexing failed), and the tree or the refusal.
pub fn read<Ctx: ScriptContext>(bytes: &[u8]) -> (usize, Result<Miniscript<Ctx::Key, Ctx>, Error>) {
    let tokens = match lex::lex(&script::Script::from_bytes(bytes)) {
        Ok(tokens) => tokens,
        Err(e) => return (0, Err(Error::Lex(e))),
    };
    let count = tokens.len();
    let mut tokens = TokenIter::new(tokens);
    let answer = decode::decode(&mut tokens).and_then(|top: Miniscript<Ctx::Key, Ctx>| match tokens.next() {
        Some(left_over) => Err(Error::Trailing(left_over.to_string())),
        None if top.ty.corr.base != Base::B => Err(Error::NonTopLevel(String::new())),
        None => Ok(top),
    });
    (count, answer)
}

impl<Pk: MiniscriptKey, Ctx: ScriptContext> Clone for Miniscript<Pk, Ctx> {
    fn clone(&self) -> Self { Self::leaf(self.node.clone(), self.ty, self.ext) }
}

impl<Pk: MiniscriptKey, Ctx: ScriptContext> ForEachKey<Pk> for Miniscript<Pk, Ctx> {
    fn for_each_key<'a, F: FnMut(&'a Pk) -> bool>(&'a self, _: F) -> bool
    where
        Pk: 'a,
    {
        unreachable!("no context check")
    }
}

// The crate's text forms (its display.rs isn't supplied). They go into error messages, which no answer of the oracle reads.

impl<Pk: MiniscriptKey, Ctx: ScriptContext> fmt::Display for Terminal<Pk, Ctx> {
    fn fmt(&self, f: &mut fmt::Formatter<'_>) -> fmt::Result { f.write_str("a fragment") }
}

impl<Pk: MiniscriptKey, Ctx: ScriptContext> fmt::Debug for Miniscript<Pk, Ctx> {
    fn fmt(&self, f: &mut fmt::Formatter<'_>) -> fmt::Result { f.write_str("a tree") }
}
