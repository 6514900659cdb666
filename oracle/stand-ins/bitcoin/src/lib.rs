//! Stands in for: the crate `bitcoin` 0.32, as much of it as the supplied text names.
//!
//! What rests on it, file by file: see the first lines of each. In short: `script` decides how bytes fall into instructions and
//! how the encoder's calls become bytes; `opcodes` decides which byte each name is; `key` decides which pushes are keys;
//! `locktime` decides which sequence numbers are relative locktimes. `hashes` only carries bytes.

pub mod hashes;
pub mod key;
pub mod locktime;
pub mod opcodes;
pub mod script;

pub use key::{secp256k1, PubkeyHash, PublicKey};
pub use locktime::{absolute, relative, Sequence};
pub use opcodes::Opcode;
pub use script::ScriptBuf;

pub mod blockdata {
    pub use crate::{opcodes, script};
}

pub mod constants {
    /// Read by util.rs for witnesses alone, which the oracle doesn't make.
    pub const MAX_SCRIPT_ELEMENT_SIZE: usize = 520;
}

pub mod hex {
    use core::fmt;

    /// Bytes as text in the crate's error messages. No answer of the oracle reads them.
    pub trait DisplayHex {
        fn as_hex(&self) -> Hex<'_>;
    }

    pub struct Hex<'a>(&'a [u8]);

    impl DisplayHex for [u8] {
        fn as_hex(&self) -> Hex<'_> { Hex(self) }
    }

    impl fmt::Display for Hex<'_> {
        fn fmt(&self, f: &mut fmt::Formatter<'_>) -> fmt::Result { self.0.iter().try_for_each(|b| write!(f, "{:02x}", b)) }
    }
}

/// Read by context.rs in checks that the oracle doesn't apply.
pub struct Weight(u64);

impl Weight {
    pub const MAX_BLOCK: Weight = Weight(4_000_000);
    pub fn to_wu(self) -> u64 { self.0 }
}

/// Read by util.rs for witness sizes alone, which the oracle doesn't work out.
pub struct VarInt(pub u64);

impl VarInt {
    pub fn size(&self) -> usize {
        match self.0 {
            0..=0xfc => 1,
            0xfd..=0xffff => 3,
            0x1_0000..=0xffff_ffff => 5,
            _ => 9,
        }
    }
}
