//! Why a script was refused, or a tree that was to be encoded, in numbers and in plain words (docs/REFUSALS.md has them with what a desk does about each).

use core::fmt;

/// A refusal: its number, where it applies a reason, and the byte of the script that it is about.
///
/// ```
/// let refusal = phagdrulis::read(phagdrulis::ScriptKind::Segwit, &[0x51, 0x7c, 0x51, 0x9b]).unwrap_err();
/// assert_eq!((refusal.number, refusal.reason, refusal.place), (14, 3, 1));
/// assert_eq!(
///     refusal.to_string(),
///     "refused with 14, reason 3, at byte 1: the parts don't fit together: s: around a part that doesn't take exactly one item"
/// );
/// ```
#[derive(Clone, Copy, Debug, PartialEq, Eq, Hash)]
pub struct Refusal {
    /// 1 to 20; 21 and 22 are the encoder's alone.
    pub number: u32,
    /// Of number 14, 1 to 12, and 13 from the encoder; else 0.
    pub reason: u32,
    /// Which byte of the script, from 0. The encoder's is always 0.
    pub place: usize,
    /// The tokens of the script, 0 if it could not be cut into tokens. The encoder's is 0.
    pub tokens: usize,
    /// The steps taken until it was refused. The encoder's are 0.
    pub steps: usize,
}

impl Refusal {
    /// What the number says, in plain words.
    pub fn words(&self) -> &'static str {
        match self.number {
            1 => "the script is longer than 10,000 bytes",
            2 => "the script ends in the middle of a push",
            3 => "a push is written in a longer form than it needs, or pushes a small number that has an opcode of its own",
            4 => "a push is no key, no hash and no number of at most four bytes in its shortest form",
            5 => "a negative number",
            6 => "an opcode that no release rule uses",
            7 => "VERIFY is written apart where one opcode does both",
            8 => "more tokens than the token table holds",
            9 => "the script begins too late: a part that must stand in front is missing",
            10 => "something stands where no release rule has it",
            11 => "a key of the wrong form, or a multi or multi_a in the wrong kind of script",
            12 => "a waiting time of 0",
            13 => "a threshold that can't be",
            14 => "the parts don't fit together",
            15 => "more nodes than the node table holds",
            16 => "more keys than the key table holds",
            17 => "more work entries than the work table holds",
            18 => "a whole rule was read, and something is left over in front of it",
            19 => "a whole part was read, but not one that can stand alone",
            20 => "the kind is neither 0 (segwit) nor 1 (tapscript)",
            21 => "the node table is not one tree, or a field of it can't be",
            22 => "the script has more bytes than the output holds",
            _ => "an unknown refusal",
        }
    }

    /// What doesn't fit, for number 14; else nothing.
    pub fn reason_words(&self) -> Option<&'static str> {
        Some(match self.reason {
            1 => "a wrapper around a part of the wrong base",
            2 => "two parts of the wrong bases",
            3 => "s: around a part that doesn't take exactly one item",
            4 => "d: around a part that takes items",
            5 => "j: around a part whose first item may be zero, or that has none",
            6 => "the first part can't be left unsatisfied",
            7 => "the second part of or_b can't be left unsatisfied",
            8 => "the first part doesn't leave exactly 1",
            9 => "a part of a threshold has the wrong base",
            10 => "a part of a threshold doesn't leave exactly 1",
            11 => "a part of a threshold can't be left unsatisfied",
            12 => "the three parts of andor have the wrong bases",
            13 => "a stored type is not the one that the node has",
            _ => return None,
        })
    }

    /// Whether larger tables would have helped: 8, 15, 16, 17 or 22. Never with the sizes that [`room`](crate::room) answers.
    pub fn is_for_room(&self) -> bool {
        matches!(self.number, 8 | 15 | 16 | 17 | 22)
    }
}

impl fmt::Display for Refusal {
    fn fmt(&self, f: &mut fmt::Formatter<'_>) -> fmt::Result {
        write!(f, "refused with {}", self.number)?;
        if self.reason != 0 {
            write!(f, ", reason {},", self.reason)?;
        }
        write!(f, " at byte {}: {}", self.place, self.words())?;
        match self.reason_words() {
            Some(words) => write!(f, ": {words}"),
            None => Ok(()),
        }
    }
}

impl core::error::Error for Refusal {}
