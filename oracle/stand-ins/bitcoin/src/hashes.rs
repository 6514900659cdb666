//! Stands in for: `bitcoin::hashes`. A hash is so many bytes; none is ever worked out.
//!
//! What rests on it: that the bytes of a hash come out as they went in.

use core::fmt;

pub trait Hash: Sized {
    type Bytes;
    fn from_byte_array(bytes: Self::Bytes) -> Self;
    fn to_byte_array(self) -> Self::Bytes;
    /// Named by util.rs for the PkH fragment, which the decoder never makes.
    fn hash(_: &[u8]) -> Self { unreachable!("nothing is hashed") }
}

#[macro_export]
macro_rules! hash_of_bytes {
    ($name:ident, $len:expr) => {
        pub mod $name {
            use core::fmt;

            #[derive(Copy, Clone, PartialEq, Eq, PartialOrd, Ord, Hash)]
            pub struct Hash([u8; $len]);

            impl $crate::hashes::Hash for Hash {
                type Bytes = [u8; $len];
                fn from_byte_array(bytes: [u8; $len]) -> Self { Hash(bytes) }
                fn to_byte_array(self) -> [u8; $len] { self.0 }
            }

            impl fmt::Display for Hash {
                fn fmt(&self, f: &mut fmt::Formatter<'_>) -> fmt::Result { $crate::hashes::show(&self.0, f) }
            }

            impl fmt::Debug for Hash {
                fn fmt(&self, f: &mut fmt::Formatter<'_>) -> fmt::Result { $crate::hashes::show(&self.0, f) }
            }
        }
    };
}

#[doc(hidden)]
pub fn show(bytes: &[u8], f: &mut fmt::Formatter<'_>) -> fmt::Result { bytes.iter().try_for_each(|b| write!(f, "{:02x}", b)) }

hash_of_bytes!(hash160, 20);
hash_of_bytes!(ripemd160, 20);
hash_of_bytes!(sha256, 32);
