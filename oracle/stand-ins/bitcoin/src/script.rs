//! Stands in for: `bitcoin::script`: `Script`, `instructions_minimal`, `read_scriptint` and `Builder`, as bitcoin 0.32 has them.
//!
//! That crate's source isn't supplied. What is written here is Bitcoin's minimal rule, which 01's "Bytes to tokens" spells out in the
//! same order; the tests below go through its cases.
//!
//! What rests on it: how bytes fall into instructions, which pushes are refused as not minimal (document 01's 2 and 3), which
//! number a push of up to four bytes is and which is refused (its 4 and 5, through lex.rs), and which bytes the encoder's calls
//! write, the four fused VERIFY forms included. This is the stand-in with the most behaviour of its own.

use core::fmt;

use crate::key::{PubkeyHash, PublicKey};
use crate::opcodes::{self, all::*, Opcode};

#[derive(Copy, Clone, PartialEq, Eq, Debug)]
pub enum Error {
    /// A push, or a push of up to four bytes read as a number, is longer than it has to be.
    NonMinimalPush,
    /// The script ends inside an instruction.
    EarlyEndOfScript,
    /// A number of more than four bytes.
    NumericOverflow,
}

impl fmt::Display for Error {
    fn fmt(&self, f: &mut fmt::Formatter<'_>) -> fmt::Result { write!(f, "{:?}", self) }
}

/// The bytes of one push. bitcoin bounds their number by 2^32, which no script here comes near.
#[derive(PartialEq, Eq, Debug)]
#[repr(transparent)]
pub struct PushBytes([u8]);

impl PushBytes {
    fn of(bytes: &[u8]) -> &PushBytes {
        // The attribute above makes the two the same in memory.
        unsafe { &*(bytes as *const [u8] as *const PushBytes) }
    }

    pub fn as_bytes(&self) -> &[u8] { &self.0 }
}

#[derive(Clone, PartialEq, Eq, Debug)]
pub struct PushBytesBuf(Vec<u8>);

impl PushBytesBuf {
    pub fn as_bytes(&self) -> &[u8] { &self.0 }
    pub fn len(&self) -> usize { self.0.len() }
    pub fn is_empty(&self) -> bool { self.0.is_empty() }
}

impl core::borrow::Borrow<PushBytes> for PushBytesBuf {
    fn borrow(&self) -> &PushBytes { PushBytes::of(&self.0) }
}

impl ToOwned for PushBytes {
    type Owned = PushBytesBuf;
    fn to_owned(&self) -> PushBytesBuf { PushBytesBuf(self.0.to_vec()) }
}

impl<'a> TryFrom<&'a [u8]> for &'a PushBytes {
    type Error = Error;
    fn try_from(bytes: &'a [u8]) -> Result<Self, Error> { Ok(PushBytes::of(bytes)) }
}

impl AsRef<PushBytes> for PushBytes {
    fn as_ref(&self) -> &PushBytes { self }
}

impl<const N: usize> AsRef<PushBytes> for [u8; N] {
    fn as_ref(&self) -> &PushBytes { PushBytes::of(self) }
}

impl AsRef<PushBytes> for PubkeyHash {
    fn as_ref(&self) -> &PushBytes { PushBytes::of(&self.0) }
}

pub struct Script<'a>(&'a [u8]);

impl<'a> Script<'a> {
    pub fn from_bytes(bytes: &'a [u8]) -> Self { Script(bytes) }
    pub fn len(&self) -> usize { self.0.len() }
    pub fn is_empty(&self) -> bool { self.0.is_empty() }

    /// The instructions in order. The first error is the last item.
    pub fn instructions_minimal(&self) -> Instructions<'a> { Instructions { data: self.0 } }
}

pub enum Instruction<'a> {
    PushBytes(&'a PushBytes),
    Op(Opcode),
}

pub struct Instructions<'a> {
    data: &'a [u8],
}

impl<'a> Instructions<'a> {
    fn stop(&mut self, e: Error) -> Option<Result<Instruction<'a>, Error>> {
        self.data = &[];
        Some(Err(e))
    }

    fn take(&mut self, n: usize) -> Option<Result<Instruction<'a>, Error>> {
        if self.data.len() < n {
            return self.stop(Error::EarlyEndOfScript);
        }
        let (push, rest) = self.data.split_at(n);
        self.data = rest;
        Some(Ok(Instruction::PushBytes(PushBytes::of(push))))
    }

    /// A push whose length stands in `width` bytes, little-endian. Whether the form is too wide is tested before the data is looked for.
    fn take_long(&mut self, width: usize, least: usize) -> Option<Result<Instruction<'a>, Error>> {
        if self.data.len() < width {
            return self.stop(Error::EarlyEndOfScript);
        }
        let (length, rest) = self.data.split_at(width);
        self.data = rest;
        let n = length.iter().rev().fold(0usize, |n, b| n << 8 | *b as usize);
        if n < least {
            return self.stop(Error::NonMinimalPush);
        }
        self.take(n)
    }
}

impl<'a> Iterator for Instructions<'a> {
    type Item = Result<Instruction<'a>, Error>;

    fn next(&mut self) -> Option<Self::Item> {
        let (&byte, rest) = self.data.split_first()?;
        self.data = rest;
        match byte {
            // One byte that has an opcode of its own: 1 to 16, and -1.
            0x01 if matches!(rest.first(), Some(0x01..=0x10) | Some(0x81)) => self.stop(Error::NonMinimalPush),
            0x00..=0x4b => self.take(byte as usize),
            0x4c => self.take_long(1, 76),
            0x4d => self.take_long(2, 0x100),
            0x4e => self.take_long(4, 0x1_0000),
            _ => Some(Ok(Instruction::Op(Opcode::from(byte)))),
        }
    }
}

/// A script number of up to four bytes: little-endian, the top bit of the last byte is the sign, no byte too many.
pub fn read_scriptint(v: &[u8]) -> Result<i64, Error> {
    let Some(last) = v.last() else { return Ok(0) };
    if v.len() > 4 {
        return Err(Error::NumericOverflow);
    }
    // The last byte may be nothing but a sign only where the byte before it needs its own top bit.
    if last & 0x7f == 0 && (v.len() == 1 || v[v.len() - 2] & 0x80 == 0) {
        return Err(Error::NonMinimalPush);
    }
    let size = v.iter().rev().fold(0i64, |n, b| n << 8 | *b as i64);
    let sign = 0x80i64 << (8 * (v.len() - 1));
    Ok(if size & sign == 0 { size } else { -(size & (sign - 1)) })
}

/// The bytes of a script number that is not 0, as `read_scriptint` reads them but of any length.
fn write_scriptint(n: i64) -> Vec<u8> {
    let mut left = n.unsigned_abs();
    let mut bytes = Vec::new();
    while left > 0 {
        bytes.push((left & 0xff) as u8);
        left >>= 8;
    }
    let sign = if n < 0 { 0x80 } else { 0 };
    match bytes.last_mut() {
        Some(last) if *last & 0x80 == 0 => *last |= sign,
        _ => bytes.push(sign),
    }
    bytes
}

#[derive(Clone, PartialEq, Eq, Debug)]
pub struct ScriptBuf(Vec<u8>);

impl ScriptBuf {
    pub fn as_bytes(&self) -> &[u8] { &self.0 }
    pub fn len(&self) -> usize { self.0.len() }
    pub fn is_empty(&self) -> bool { self.0.is_empty() }
}

/// Writes a script, remembering the last opcode so that VERIFY can be joined to it. A push clears that memory.
pub struct Builder {
    bytes: Vec<u8>,
    last: Option<Opcode>,
}

impl Default for Builder {
    fn default() -> Self { Self::new() }
}

impl Builder {
    pub fn new() -> Self { Builder { bytes: Vec::new(), last: None } }

    pub fn into_script(self) -> ScriptBuf { ScriptBuf(self.bytes) }

    pub fn push_opcode(mut self, op: Opcode) -> Self {
        self.bytes.push(op.to_u8());
        self.last = Some(op);
        self
    }

    pub fn push_int(self, n: i64) -> Self {
        match n {
            0 => self.push_opcode(opcodes::OP_0),
            -1 | 1..=16 => self.push_opcode(Opcode::from((n - 1 + OP_PUSHNUM_1.to_u8() as i64) as u8)),
            _ => self.push_bytes(&write_scriptint(n)),
        }
    }

    pub fn push_slice<T: AsRef<PushBytes>>(self, data: T) -> Self { self.push_bytes(data.as_ref().as_bytes()) }

    pub fn push_key(self, key: &PublicKey) -> Self { self.push_bytes(key.as_bytes()) }

    fn push_bytes(mut self, data: &[u8]) -> Self {
        let n = data.len();
        match n {
            0..=0x4b => self.bytes.push(n as u8),
            0x4c..=0xff => self.bytes.extend([OP_PUSHDATA1.to_u8(), n as u8]),
            0x100..=0xffff => self.bytes.extend([OP_PUSHDATA2.to_u8(), n as u8, (n >> 8) as u8]),
            _ => {
                self.bytes.push(OP_PUSHDATA4.to_u8());
                self.bytes.extend((n as u32).to_le_bytes());
            }
        }
        self.bytes.extend(data);
        self.last = None;
        self
    }

    pub fn push_verify(mut self) -> Self {
        let joined = match self.last {
            Some(OP_EQUAL) => OP_EQUALVERIFY,
            Some(OP_NUMEQUAL) => OP_NUMEQUALVERIFY,
            Some(OP_CHECKSIG) => OP_CHECKSIGVERIFY,
            Some(OP_CHECKMULTISIG) => OP_CHECKMULTISIGVERIFY,
            _ => return self.push_opcode(OP_VERIFY),
        };
        self.bytes.pop();
        self.push_opcode(joined)
    }
}

#[cfg(test)]
mod tests {
    use super::*;

    /// Each instruction as its push length or opcode, and the error that ended the script, if one did.
    fn cut(bytes: &[u8]) -> (Vec<Result<usize, u8>>, Option<Error>) {
        let mut found = Vec::new();
        for i in Script::from_bytes(bytes).instructions_minimal() {
            match i {
                Ok(Instruction::PushBytes(p)) => found.push(Ok(p.as_bytes().len())),
                Ok(Instruction::Op(op)) => found.push(Err(op.to_u8())),
                Err(e) => return (found, Some(e)),
            }
        }
        (found, None)
    }

    #[test]
    fn pushes_are_minimal() {
        use Error::*;
        assert_eq!(cut(&[0x00, 0x51, 0x4f]), (vec![Ok(0), Err(0x51), Err(0x4f)], None));
        for b in 0..=255u8 {
            let wanted = if (1..=16).contains(&b) || b == 0x81 { (vec![], Some(NonMinimalPush)) } else { (vec![Ok(1)], None) };
            assert_eq!(cut(&[1, b]), wanted);
        }
        // Data missing, length bytes missing, and the too wide form before the missing data.
        assert_eq!(cut(&[1]).1, Some(EarlyEndOfScript));
        assert_eq!(cut(&[2, 0]).1, Some(EarlyEndOfScript));
        assert_eq!(cut(&[0x4c]).1, Some(EarlyEndOfScript));
        assert_eq!(cut(&[0x4d, 1]).1, Some(EarlyEndOfScript));
        assert_eq!(cut(&[0x4e, 1, 1, 1]).1, Some(EarlyEndOfScript));
        assert_eq!(cut(&[0x4c, 75]).1, Some(NonMinimalPush));
        assert_eq!(cut(&[0x4d, 255, 0]).1, Some(NonMinimalPush));
        assert_eq!(cut(&[0x4e, 255, 255, 0, 0]).1, Some(NonMinimalPush));
        for (n, head) in [(76, &[0x4c, 76][..]), (255, &[0x4c, 255]), (256, &[0x4d, 0, 1]), (65_536, &[0x4e, 0, 0, 1, 0])] {
            let mut whole = head.to_vec();
            whole.resize(head.len() + n, 7);
            assert_eq!(cut(&whole), (vec![Ok(n)], None));
            whole.pop();
            assert_eq!(cut(&whole).1, Some(EarlyEndOfScript));
        }
    }

    #[test]
    fn numbers_are_minimal() {
        use Error::*;
        for (bytes, n) in [
            (&[][..], Ok(0)), (&[0], Err(NonMinimalPush)), (&[0x80], Err(NonMinimalPush)), (&[1], Ok(1)), (&[0x81], Ok(-1)),
            (&[0x7f], Ok(127)), (&[0xff], Ok(-127)), (&[0x80, 0], Ok(128)), (&[0x80, 0x80], Ok(-128)), (&[0x7f, 0], Err(NonMinimalPush)),
            (&[0xff, 0], Ok(255)), (&[0, 0x80], Err(NonMinimalPush)), (&[0, 1], Ok(256)), (&[0xff, 0xff, 0xff, 0x7f], Ok(0x7fff_ffff)),
            (&[0xff, 0xff, 0xff, 0xff], Ok(-0x7fff_ffff)), (&[0, 0, 0, 0x80], Err(NonMinimalPush)), (&[0, 0, 0x80, 0x80], Ok(-0x80_0000)),
            (&[0, 0, 0, 0x80, 0], Err(NumericOverflow)), (&[1, 0, 0, 0, 0], Err(NumericOverflow)),
        ] {
            assert_eq!(read_scriptint(bytes), n, "{bytes:?}");
        }
    }

    #[test]
    fn numbers_written_are_read_back() {
        for n in (-70_000i64..70_000).chain([0x7f_ffff, 0x80_0000, 0x7fff_ffff, -0x7fff_ffff]) {
            let bytes = Builder::new().push_int(n).into_script().0;
            match n {
                0 => assert_eq!(bytes, [0]),
                -1 => assert_eq!(bytes, [0x4f]),
                1..=16 => assert_eq!(bytes, [0x50 + n as u8]),
                _ => assert_eq!(read_scriptint(&bytes[1..]), Ok(n)),
            }
        }
    }

    #[test]
    fn verify_is_joined_to_four_opcodes_and_to_no_data() {
        for op in 0..=255u8 {
            let bytes = Builder::new().push_opcode(Opcode::from(op)).push_verify().into_script().0;
            match op {
                0x87 | 0x9c | 0xac | 0xae => assert_eq!(bytes, [op + 1]),
                _ => assert_eq!(bytes, [op, 0x69]),
            }
        }
        assert_eq!(Builder::new().push_slice([0x87]).push_verify().into_script().0, [1, 0x87, 0x69]);
    }
}
