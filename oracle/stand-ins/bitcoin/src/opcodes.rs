//! Stands in for: `bitcoin::opcodes`, the names that lex.rs, astelem.rs and the script builder use.
//!
//! What rests on it: which byte each name is. A wrong byte here would be wrong in the lexer and the encoder at once, so the bytes
//! are Bitcoin's own table, in its order.

use core::fmt;

/// One opcode byte. Compared in patterns, so its equality is the derived one.
#[derive(Copy, Clone, PartialEq, Eq, Debug)]
pub struct Opcode {
    code: u8,
}

impl Opcode {
    pub const fn to_u8(self) -> u8 { self.code }
}

impl From<u8> for Opcode {
    fn from(code: u8) -> Self { Opcode { code } }
}

impl fmt::Display for Opcode {
    fn fmt(&self, f: &mut fmt::Formatter<'_>) -> fmt::Result { write!(f, "opcode {:02x}", self.code) }
}

pub static OP_0: Opcode = all::OP_PUSHBYTES_0;
pub static OP_FALSE: Opcode = all::OP_PUSHBYTES_0;
pub static OP_TRUE: Opcode = all::OP_PUSHNUM_1;

pub mod all {
    use super::Opcode;

    macro_rules! opcodes {
        ($($name:ident = $code:expr;)*) => { $(pub const $name: Opcode = Opcode { code: $code };)* };
    }

    opcodes! {
        OP_PUSHBYTES_0 = 0x00;
        OP_PUSHDATA1 = 0x4c;
        OP_PUSHDATA2 = 0x4d;
        OP_PUSHDATA4 = 0x4e;
        OP_PUSHNUM_1 = 0x51;
        OP_PUSHNUM_2 = 0x52;
        OP_PUSHNUM_3 = 0x53;
        OP_PUSHNUM_4 = 0x54;
        OP_PUSHNUM_5 = 0x55;
        OP_PUSHNUM_6 = 0x56;
        OP_PUSHNUM_7 = 0x57;
        OP_PUSHNUM_8 = 0x58;
        OP_PUSHNUM_9 = 0x59;
        OP_PUSHNUM_10 = 0x5a;
        OP_PUSHNUM_11 = 0x5b;
        OP_PUSHNUM_12 = 0x5c;
        OP_PUSHNUM_13 = 0x5d;
        OP_PUSHNUM_14 = 0x5e;
        OP_PUSHNUM_15 = 0x5f;
        OP_PUSHNUM_16 = 0x60;
        OP_IF = 0x63;
        OP_NOTIF = 0x64;
        OP_ELSE = 0x67;
        OP_ENDIF = 0x68;
        OP_VERIFY = 0x69;
        OP_TOALTSTACK = 0x6b;
        OP_FROMALTSTACK = 0x6c;
        OP_IFDUP = 0x73;
        OP_DROP = 0x75;
        OP_DUP = 0x76;
        OP_SWAP = 0x7c;
        OP_SIZE = 0x82;
        OP_EQUAL = 0x87;
        OP_EQUALVERIFY = 0x88;
        OP_0NOTEQUAL = 0x92;
        OP_ADD = 0x93;
        OP_BOOLAND = 0x9a;
        OP_BOOLOR = 0x9b;
        OP_NUMEQUAL = 0x9c;
        OP_NUMEQUALVERIFY = 0x9d;
        OP_RIPEMD160 = 0xa6;
        OP_SHA256 = 0xa8;
        OP_HASH160 = 0xa9;
        OP_HASH256 = 0xaa;
        OP_CHECKSIG = 0xac;
        OP_CHECKSIGVERIFY = 0xad;
        OP_CHECKMULTISIG = 0xae;
        OP_CHECKMULTISIGVERIFY = 0xaf;
        OP_CLTV = 0xb1;
        OP_CSV = 0xb2;
        OP_CHECKSIGADD = 0xba;
    }
}
