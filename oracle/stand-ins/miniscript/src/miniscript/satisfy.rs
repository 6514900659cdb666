//! Stands in for: the one name that util.rs takes from satisfy.rs, which would need much more of `bitcoin` to compile.
//!
//! What rests on it: nothing. util.rs works out witness sizes from it, and the oracle makes no witness.

use bitcoin::hashes::hash160;

use crate::MiniscriptKey;

pub enum Placeholder<Pk: MiniscriptKey> {
    Pubkey(Pk, usize),
    PubkeyHash(hash160::Hash, usize),
    EcdsaSigPk(Pk),
    EcdsaSigPkHash(hash160::Hash),
    SchnorrSigPk(Pk, (), usize),
    SchnorrSigPkHash(hash160::Hash, (), usize),
    Sha256Preimage(Pk::Sha256),
    Hash256Preimage(Pk::Hash256),
    Ripemd160Preimage(Pk::Ripemd160),
    Hash160Preimage(Pk::Hash160),
    HashDissatisfaction,
    PushOne,
    PushZero,
    TapScript(bitcoin::ScriptBuf),
    TapControlBlock(ControlBlock),
}

pub struct ControlBlock;

impl ControlBlock {
    pub fn serialize(&self) -> [u8; 0] { unreachable!("no witness") }
}
