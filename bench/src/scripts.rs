//! The five groups of scripts, and scripts of a given length. All are made from a seed, so that a run can be repeated.

/// A script and its kind.
pub struct Case {
    pub kind: u32,
    pub script: Vec<u8>,
}

/// Numbers from a seed (splitmix64).
pub struct Random(pub u64);

impl Random {
    pub fn bits(&mut self) -> u64 {
        self.0 = self.0.wrapping_add(0x9e37_79b9_7f4a_7c15);
        let mut z = self.0;
        z = (z ^ (z >> 30)).wrapping_mul(0xbf58_476d_1ce4_e5b9);
        z = (z ^ (z >> 27)).wrapping_mul(0x94d0_49bb_1331_11eb);
        z ^ (z >> 31)
    }

    pub fn below(&mut self, n: usize) -> usize {
        (self.bits() % n as u64) as usize
    }

    fn bytes(&mut self, n: usize) -> Vec<u8> {
        (0..n).map(|_| self.bits() as u8).collect()
    }
}

/// A push of random bytes.
fn push(r: &mut Random, n: usize) -> Vec<u8> {
    [vec![n as u8], r.bytes(n)].concat()
}

/// The push of a key of the form that the kind asks for.
fn key(r: &mut Random, kind: u32) -> Vec<u8> {
    match kind {
        0 => [vec![33, 2 + r.below(2) as u8], r.bytes(32)].concat(),
        _ => push(r, 32),
    }
}

/// pk(key), in either kind.
fn single_key(r: &mut Random, i: usize) -> Case {
    let kind = (i % 2) as u32;
    Case { kind, script: [key(r, kind), vec![0xac]].concat() }
}

/// multi(k, 15 keys), 513 bytes.
fn multi(r: &mut Random, _: usize) -> Case {
    let mut script = vec![0x51 + r.below(15) as u8];
    for _ in 0..15 {
        script.extend(key(r, 0));
    }
    script.extend([0x5f, 0xae]);
    Case { kind: 0, script }
}

/// One link of an and_v chain: v:pk(key), v:older(n) or v:1.
fn link(r: &mut Random, kind: u32) -> Vec<u8> {
    match r.below(3) {
        0 => [key(r, kind), vec![0xad]].concat(),
        1 => vec![0x51 + r.below(16) as u8, 0xb2, 0x69],
        _ => vec![0x51, 0x69],
    }
}

/// An and_v chain of 40 to 60 links, then 1.
fn chain(r: &mut Random, i: usize) -> Case {
    let kind = (i % 2) as u32;
    let mut script = Vec::new();
    for _ in 0..40 + r.below(21) {
        script.extend(link(r, kind));
    }
    script.push(0x51);
    Case { kind, script }
}

/// The lock on a hash's preimage, each of the four hashes in turn.
fn preimage(r: &mut Random, which: usize) -> Vec<u8> {
    let (opcode, length) = [(0xa8, 32), (0xaa, 32), (0xa6, 20), (0xa9, 20)][which % 4];
    [vec![0x82, 0x01, 0x20, 0x88, opcode], push(r, length), vec![0x87]].concat()
}

/// and_v(v:pk(key), a hash lock).
fn hash_lock(r: &mut Random, i: usize) -> Case {
    let kind = (i / 4 % 2) as u32;
    Case { kind, script: [key(r, kind), vec![0xad], preimage(r, i)].concat() }
}

/// A script of one of the other groups with one to three bytes changed, left out or put in.
fn damaged(r: &mut Random, i: usize) -> Case {
    let make = [single_key, multi, chain, hash_lock][i % 4];
    let mut case = make(r, i / 4);
    for _ in 0..1 + r.below(3) {
        let at = r.below(case.script.len());
        match r.below(3) {
            0 => case.script[at] = r.bits() as u8,
            1 => case.script.insert(at, r.bits() as u8),
            _ => drop(case.script.remove(at)),
        }
    }
    case
}

/// The groups by name.
pub const GROUPS: [(&str, fn(&mut Random, usize) -> Case); 5] =
    [("single keys", single_key), ("15-key multis", multi), ("and_v chains", chain), ("hash locks", hash_lock), ("damaged", damaged)];

/// So many scripts of a group.
pub fn group(make: fn(&mut Random, usize) -> Case, count: usize) -> Vec<Case> {
    let mut r = Random(379);
    (0..count).map(|i| make(&mut r, i)).collect()
}

/// Shapes that can be as long as one likes, from 100 bytes on: the longest script of so many bytes or a few less.
pub const SHAPES: [(&str, fn(usize) -> Case); 5] = [
    ("and_v chain of keys", |n| Case { kind: 0, script: [[[33, 2].as_slice(), &[7; 32], &[0xad]].concat().repeat((n - 1) / 35), vec![0x51]].concat() }),
    ("and_v chain of 1s", |n| Case { kind: 0, script: [[0x51, 0x69].repeat((n - 1) / 2), vec![0x51]].concat() }),
    ("nested or_i", |n| Case { kind: 0, script: [[0x63, 0x51, 0x67].repeat((n - 1) / 4), vec![0x51], vec![0x68; (n - 1) / 4]].concat() }),
    ("wrapper n: over itself", |n| Case { kind: 0, script: [vec![0x51], vec![0x92; n - 1]].concat() }),
    ("thresh of many", |n| {
        // Each part but the first is s:pk(key).
        let part = [&[33, 2], [7; 32].as_slice(), &[0xac]].concat();
        let added = [&[0x7c], part.as_slice(), &[0x93]].concat();
        Case { kind: 0, script: [part, added.repeat((n - 37) / 37), vec![0x51, 0x87]].concat() }
    }),
];
