//! Stands in for: `bitcoin::PublicKey`, `secp256k1::XOnlyPublicKey` and the key errors. No curve: a key is tested by its form alone.
//!
//! What rests on it: document 01's key form. Segwit: 33 bytes that start with 02 or 03. Tapscript: any 32 bytes. Anything else is
//! refused, and that is 01's number 11.
//! - bitcoin would take a 65-byte key here, and a context check would then refuse it in segwit. That check isn't applied in the
//!   oracle, and 01 calls such a key 11, so it is refused here. Only the place of the refusal moves, never the verdict.
//! - bitcoin would also refuse a key of the right form that is no point of the curve. 01's domain of comparison leaves those out.

use core::fmt;

#[derive(Copy, Clone, PartialEq, Eq, PartialOrd, Ord, Hash)]
pub struct PublicKey([u8; 33]);

impl PublicKey {
    pub fn from_slice(data: &[u8]) -> Result<Self, FromSliceError> {
        match <[u8; 33]>::try_from(data) {
            Ok(key) if matches!(key[0], 2 | 3) => Ok(PublicKey(key)),
            _ => Err(FromSliceError),
        }
    }

    pub fn as_bytes(&self) -> &[u8; 33] { &self.0 }

    /// Asked for by the PkH fragment alone, which the decoder never makes: it gives RawPkH.
    pub fn pubkey_hash(&self) -> PubkeyHash { unreachable!("no key is hashed") }

    /// The key with its first byte left out. Asked for in tapscript alone, where no key is a `PublicKey`.
    pub fn to_x_only(&self) -> secp256k1::XOnlyPublicKey { unreachable!("no 33-byte key in tapscript") }
}

#[derive(Copy, Clone, PartialEq, Eq, Debug)]
pub struct FromSliceError;

impl fmt::Display for FromSliceError {
    fn fmt(&self, f: &mut fmt::Formatter<'_>) -> fmt::Result { f.write_str("not a key by its form") }
}

pub struct PubkeyHash(pub(crate) [u8; 20]);

impl crate::hashes::Hash for PubkeyHash {
    type Bytes = [u8; 20];
    fn from_byte_array(bytes: [u8; 20]) -> Self { PubkeyHash(bytes) }
    fn to_byte_array(self) -> [u8; 20] { self.0 }
}

pub mod secp256k1 {
    use core::fmt;

    #[derive(Copy, Clone, PartialEq, Eq, PartialOrd, Ord, Hash)]
    pub struct XOnlyPublicKey([u8; 32]);

    impl XOnlyPublicKey {
        pub fn from_slice(data: &[u8]) -> Result<Self, Error> { data.try_into().map(XOnlyPublicKey).map_err(|_| Error) }

        pub fn serialize(&self) -> [u8; 32] { self.0 }

        /// Asked for in segwit alone, where no key is an `XOnlyPublicKey`.
        pub fn to_full(&self) -> super::PublicKey { unreachable!("no 32-byte key in segwit") }
    }

    #[derive(Copy, Clone, PartialEq, Eq, Debug)]
    pub struct Error;

    impl fmt::Display for Error {
        fn fmt(&self, f: &mut fmt::Formatter<'_>) -> fmt::Result { f.write_str("not 32 bytes") }
    }

    macro_rules! shown {
        ($key:ty) => {
            impl fmt::Display for $key {
                fn fmt(&self, f: &mut fmt::Formatter<'_>) -> fmt::Result { self.0.iter().try_for_each(|b| write!(f, "{:02x}", b)) }
            }
            impl fmt::Debug for $key {
                fn fmt(&self, f: &mut fmt::Formatter<'_>) -> fmt::Result { fmt::Display::fmt(self, f) }
            }
        };
    }
    shown!(XOnlyPublicKey);
    shown!(super::PublicKey);
}
