//! Stands in for: src/lib.rs of miniscript 13.2.0: the names that its modules take from the crate's root, and the two key traits.
//! The modules under `crate-text` are the supplied files themselves, compiled from where they stand, but for `iter/mod.rs`.
//!
//! What rests on it: next to nothing. The traits carry keys and hashes through unchanged, and `Error` keeps apart what the supplied
//! text keeps apart, so that a refusal can be given document 01's number.

// The supplied files name and define more than the oracle uses.
#![allow(dead_code, unused_imports, unused_macros)]

#[path = "../../../crate-text/src/primitives"]
mod primitives {
    pub mod absolute_locktime;
    pub mod relative_locktime;
    pub mod threshold;
}

// `iter/mod.rs` here is a copy of the supplied file, which a test holds to it: it asks for `tree` beside itself, and that one is a stand-in.
mod iter;

pub mod miniscript;

#[path = "../../../crate-text/src/util.rs"]
mod util;

use core::{fmt, hash};

use bitcoin::hashes::{hash160, ripemd160, sha256, Hash};
use bitcoin::secp256k1::XOnlyPublicKey;

pub use crate::miniscript::context::{ScriptContext, SigType};
pub use crate::miniscript::decode::Terminal;
pub use crate::miniscript::Miniscript;
use crate::prelude::*;
pub use crate::primitives::absolute_locktime::{AbsLockTime, AbsLockTimeError};
pub use crate::primitives::relative_locktime::{RelLockTime, RelLockTimeError};
pub use crate::primitives::threshold::{Threshold, ThresholdError};

/// What the supplied text takes from `alloc`, or from `std`: here always from the counting `alloc`.
mod prelude {
    pub use alloc::string::{String, ToString};
    pub use alloc::vec::Vec;
    pub use std::sync;
}

bitcoin::hash_of_bytes!(hash256, 32);

/// What a refusal says. `TypeCheck` keeps the crate's own error, where the crate keeps its text.
#[derive(Debug)]
pub enum Error {
    Lex(crate::miniscript::lex::Error),
    Unexpected(String),
    UnexpectedStart,
    PubKeyCtxError(crate::miniscript::decode::KeyError, &'static str),
    AbsoluteLockTime(AbsLockTimeError),
    RelativeLockTime(RelLockTimeError),
    Threshold(ThresholdError),
    TypeCheck(crate::miniscript::types::Error),
    Trailing(String),
    NonTopLevel(String),
    // Named by context.rs, in checks that the oracle doesn't apply.
    NonStandardBareScript,
    MultipathDescLenMismatch,
}

impl From<crate::miniscript::types::Error> for Error {
    fn from(e: crate::miniscript::types::Error) -> Self { Error::TypeCheck(e) }
}

pub trait MiniscriptKey: Clone + Eq + Ord + fmt::Debug + fmt::Display + hash::Hash {
    type Sha256: Clone + Eq + Ord + fmt::Display + fmt::Debug + hash::Hash;
    type Hash256: Clone + Eq + Ord + fmt::Display + fmt::Debug + hash::Hash;
    type Ripemd160: Clone + Eq + Ord + fmt::Display + fmt::Debug + hash::Hash;
    type Hash160: Clone + Eq + Ord + fmt::Display + fmt::Debug + hash::Hash;

    fn is_uncompressed(&self) -> bool { false }
    fn is_x_only_key(&self) -> bool { false }
    fn num_der_paths(&self) -> usize { 0 }
}

pub trait ToPublicKey: MiniscriptKey {
    fn to_public_key(&self) -> bitcoin::PublicKey;
    fn to_x_only_pubkey(&self) -> XOnlyPublicKey;
    fn to_sha256(hash: &Self::Sha256) -> sha256::Hash;
    fn to_hash256(hash: &Self::Hash256) -> hash256::Hash;
    fn to_ripemd160(hash: &Self::Ripemd160) -> ripemd160::Hash;
    fn to_hash160(hash: &Self::Hash160) -> hash160::Hash;
}

macro_rules! key {
    ($key:ty, $x_only:expr, $full:expr, $short:expr) => {
        impl MiniscriptKey for $key {
            type Sha256 = sha256::Hash;
            type Hash256 = hash256::Hash;
            type Ripemd160 = ripemd160::Hash;
            type Hash160 = hash160::Hash;
            fn is_x_only_key(&self) -> bool { $x_only }
        }

        impl ToPublicKey for $key {
            fn to_public_key(&self) -> bitcoin::PublicKey { $full(self) }
            fn to_x_only_pubkey(&self) -> XOnlyPublicKey { $short(self) }
            fn to_sha256(hash: &sha256::Hash) -> sha256::Hash { *hash }
            fn to_hash256(hash: &hash256::Hash) -> hash256::Hash { *hash }
            fn to_ripemd160(hash: &ripemd160::Hash) -> ripemd160::Hash { *hash }
            fn to_hash160(hash: &hash160::Hash) -> hash160::Hash { *hash }
        }
    };
}

key!(bitcoin::PublicKey, false, |k: &bitcoin::PublicKey| *k, bitcoin::PublicKey::to_x_only);
key!(XOnlyPublicKey, true, XOnlyPublicKey::to_full, |k: &XOnlyPublicKey| *k);

/// Asked for by context.rs, in checks that the oracle doesn't apply.
pub trait ForEachKey<Pk: MiniscriptKey> {
    fn for_each_key<'a, F: FnMut(&'a Pk) -> bool>(&'a self, pred: F) -> bool
    where
        Pk: 'a;
}

/// Bytes of a number in a script. extra_props.rs adds them up; no answer of the oracle reads the sum.
fn script_num_size(n: usize) -> usize {
    match n {
        0..=0x10 => 1,
        0x11..=0x7f => 2,
        0x80..=0x7fff => 3,
        0x8000..=0x7f_ffff => 4,
        0x80_0000..=0x7fff_ffff => 5,
        _ => 6,
    }
}
