//! Scripts to compare on, from a seed: the same seed and counts give the same scripts, in the same order, on any machine.
//!
//! A generator decides only what is asked, never what is right. The crate's type rules are used here to pick children that fit, so
//! that large accepted trees come up at all; were a rule wrong, the scripts would be other ones and the answers just as judged.

use miniscript::miniscript::types::{Base, Correctness, ErrorKind};

use crate::LONGEST;

/// A script of one kind, and which generator made it.
#[derive(Clone, PartialEq, Eq, Debug)]
pub struct Case {
    pub generator: &'static str,
    pub kind: u8,
    pub script: Vec<u8>,
}

/// Every string of up to so many bytes is asked for, whatever the plan.
const BYTES: u32 = 2;

/// How much to generate.
#[derive(Clone, Copy, Debug)]
pub struct Plan {
    pub seed: u64,
    /// Scripts of the random generators, all together.
    pub count: u64,
    /// Every string of up to so many short tokens.
    pub tokens: u32,
    /// Every string of up to so many fragments.
    pub fragments: u32,
}

impl Plan {
    pub fn new(seed: u64, count: u64) -> Self { Plan { seed, count, tokens: 3, fragments: 4 } }

    /// How many scripts `cases` gives.
    pub fn total(&self) -> u64 {
        let strings = |alphabet: u64, bound: u32| (0..=bound).map(|n| alphabet.pow(n)).sum::<u64>();
        limits().len() as u64
            + 2 * strings(256, BYTES)
            + 2 * strings(short_tokens().len() as u64, self.tokens)
            + 2 * strings(short_fragments().len() as u64, self.fragments)
            + self.count
    }

    /// The neighbours of each limit, the exhaustive lists, then the random ones, mixed.
    pub fn cases(&self) -> impl Iterator<Item = Case> {
        let Plan { seed, count, tokens, fragments } = *self;
        let mut random = Shuffled::new(seed);
        limits()
            .into_iter()
            .chain(every_string("bytes", (0..=255).map(|b| vec![b]).collect(), BYTES))
            .chain(every_string("tokens", short_tokens(), tokens))
            .chain(every_string("fragments", short_fragments(), fragments))
            .chain((0..count).map(move |_| random.next_case()))
    }
}

/// SplitMix64: small, and good enough to pick with.
pub struct Random(u64);

impl Random {
    pub fn new(seed: u64) -> Self { Random(seed) }

    pub fn bits(&mut self) -> u64 {
        self.0 = self.0.wrapping_add(0x9e37_79b9_7f4a_7c15);
        let mut z = self.0;
        z = (z ^ (z >> 30)).wrapping_mul(0xbf58_476d_1ce4_e5b9);
        z = (z ^ (z >> 27)).wrapping_mul(0x94d0_49bb_1331_11eb);
        z ^ (z >> 31)
    }

    /// From 0 to n - 1.
    pub fn below(&mut self, n: usize) -> usize { ((self.bits() >> 32) * n as u64 >> 32) as usize }

    pub fn one_in(&mut self, n: usize) -> bool { self.below(n) == 0 }

    pub fn pick<'a, T>(&mut self, from: &'a [T]) -> &'a T { &from[self.below(from.len())] }

    fn bytes(&mut self, n: usize) -> Vec<u8> { (0..n).map(|_| self.bits() as u8).collect() }
}

// Opcode bytes, by Bitcoin's names.
const IF: u8 = 0x63;
const NOTIF: u8 = 0x64;
const ELSE: u8 = 0x67;
const ENDIF: u8 = 0x68;
const VERIFY: u8 = 0x69;
const TOALTSTACK: u8 = 0x6b;
const FROMALTSTACK: u8 = 0x6c;
const IFDUP: u8 = 0x73;
const DROP: u8 = 0x75;
const DUP: u8 = 0x76;
const SWAP: u8 = 0x7c;
const SIZE: u8 = 0x82;
const EQUAL: u8 = 0x87;
const EQUALVERIFY: u8 = 0x88;
const ZERONOTEQUAL: u8 = 0x92;
const ADD: u8 = 0x93;
const BOOLAND: u8 = 0x9a;
const BOOLOR: u8 = 0x9b;
const NUMEQUAL: u8 = 0x9c;
const NUMEQUALVERIFY: u8 = 0x9d;
const RIPEMD160: u8 = 0xa6;
const SHA256: u8 = 0xa8;
const HASH160: u8 = 0xa9;
const HASH256: u8 = 0xaa;
const CHECKSIG: u8 = 0xac;
const CHECKSIGVERIFY: u8 = 0xad;
const CHECKMULTISIG: u8 = 0xae;
const CHECKMULTISIGVERIFY: u8 = 0xaf;
const CLTV: u8 = 0xb1;
const CSV: u8 = 0xb2;
const CHECKSIGADD: u8 = 0xba;

/// Every opcode that gives a token or two, pushed numbers apart.
const OPCODES: [u8; 31] = [
    IF, NOTIF, ELSE, ENDIF, VERIFY, TOALTSTACK, FROMALTSTACK, IFDUP, DROP, DUP, SWAP, SIZE, EQUAL, EQUALVERIFY, ZERONOTEQUAL, ADD,
    BOOLAND, BOOLOR, NUMEQUAL, NUMEQUALVERIFY, RIPEMD160, SHA256, HASH160, HASH256, CHECKSIG, CHECKSIGVERIFY, CHECKMULTISIG,
    CHECKMULTISIGVERIFY, CLTV, CSV, CHECKSIGADD,
];

fn push(data: &[u8]) -> Vec<u8> { [&[data.len() as u8], data].concat() }

/// A number as a script has it, in as few bytes as can be.
fn number(n: u64) -> Vec<u8> {
    match n {
        0 => vec![0],
        1..=16 => vec![0x50 + n as u8],
        _ => {
            let mut bytes: Vec<u8> = n.to_le_bytes().into_iter().collect();
            while bytes.last() == Some(&0) {
                bytes.pop();
            }
            if bytes.last().is_some_and(|b| b & 0x80 != 0) {
                bytes.push(0);
            }
            push(&bytes)
        }
    }
}

/// Each token once (each length of push once, and a 33-byte one that is no key), numbers 0, 1, 2 and 32.
fn short_tokens() -> Vec<Vec<u8>> {
    let mut tokens: Vec<Vec<u8>> = OPCODES.iter().map(|op| vec![*op]).collect();
    tokens.extend([0, 1, 2, 32].map(number));
    tokens.extend([&[7; 20][..], &[7; 32], &[2; 33], &[7; 33], &[4; 65]].map(push));
    tokens
}

/// Whole leaves, and what stands between them in a well-formed script: strings of these are often trees.
fn short_fragments() -> Vec<Vec<u8>> {
    let key = push(&[2; 33]);
    let hash = |op, n: usize, end: &[u8]| [&[SIZE, 1, 32, EQUALVERIFY, op][..], &push(&[7; 32][..n]), end].concat();
    vec![
        vec![0x00],
        vec![0x51],
        key.clone(),
        push(&[3; 32]),
        [&[DUP, HASH160][..], &push(&[7; 20]), &[EQUALVERIFY]].concat(),
        vec![0x51, CSV],
        hash(SHA256, 32, &[EQUAL]),
        hash(RIPEMD160, 20, &[EQUALVERIFY]),
        [&[0x51][..], &key, &[0x51, CHECKMULTISIG]].concat(),
        [&push(&[3; 32])[..], &[CHECKSIG, 0x51, NUMEQUAL]].concat(),
        vec![CHECKSIG],
        vec![VERIFY],
        vec![ZERONOTEQUAL],
        vec![IF],
        vec![NOTIF],
        vec![ELSE],
        vec![ENDIF],
        vec![IFDUP, NOTIF],
        vec![DUP, IF],
        vec![SIZE, ZERONOTEQUAL, IF],
        vec![SWAP],
        vec![TOALTSTACK],
        vec![FROMALTSTACK],
        vec![BOOLAND],
        vec![BOOLOR],
        vec![ADD],
        vec![0x51, EQUAL],
        vec![0x52, EQUALVERIFY],
    ]
}

/// Every string over the alphabet, shortest first, each in both kinds.
fn every_string(generator: &'static str, alphabet: Vec<Vec<u8>>, bound: u32) -> impl Iterator<Item = Case> {
    let n = alphabet.len() as u64;
    (0..=bound).flat_map(move |length| {
        let alphabet = alphabet.clone();
        (0..2 * n.pow(length)).map(move |i| {
            let mut script = Vec::new();
            let mut rest = i / 2;
            for _ in 0..length {
                script.extend(&alphabet[(rest % n) as usize]);
                rest /= n;
            }
            Case { generator, kind: (i % 2) as u8, script }
        })
    })
}

/// Either side of every bound that 01 names.
fn limits() -> Vec<Case> {
    let mut scripts: Vec<Vec<u8>> = Vec::new();
    let key = push(&[2; 33]);
    let short_key = push(&[7; 32]);

    // multi: n and k around 0, 1, 16, 20. The number of keys that stand there may be another one.
    for n in [0, 1, 2, 3, 15, 16, 17, 19, 20, 21, 127, 128] {
        for keys in [0, 1, n.max(1) - 1, n, n + 1] {
            for k in [0, 1, 2, 16, 17, n.max(1) - 1, n, n + 1, 20, 21] {
                for end in [CHECKMULTISIG, CHECKMULTISIGVERIFY] {
                    scripts.push([number(k), key.repeat(keys as usize), number(n), vec![end]].concat());
                }
            }
        }
    }
    // multi_a: as far as 10,000 bytes go, k and the early test on k far beyond that.
    for n in [0usize, 1, 2, 16, 17, 20, 21, 127, 128, 292, 293, 294, 295] {
        for k in [0, 1, 2, 16, 17, 20, 21, 127, 128, n.max(1) - 1, n, n + 1, 998, 999, 1000, 1001, 32767, 32768, 0x7fff_ffff] {
            for end in [NUMEQUAL, NUMEQUALVERIFY] {
                let mut script = Vec::new();
                for i in 0..n {
                    script.extend(&short_key);
                    script.push(if i == 0 { CHECKSIG } else { CHECKSIGADD });
                }
                scripts.push([script, number(k as u64), vec![end]].concat());
            }
        }
    }
    // multi_a's run of keys ended by something else.
    for middle in [vec![], vec![CHECKSIG], vec![CHECKSIGADD], key.clone(), short_key.clone(), [&key[..], &[CHECKSIGADD]].concat(), vec![0x51, CHECKSIGADD]] {
        for end in [vec![], short_key.clone(), [&short_key[..], &[CHECKSIGADD]].concat()] {
            scripts.push([&short_key[..], &[CHECKSIG], &middle, &end, &[0x51, NUMEQUAL]].concat());
        }
    }
    // multi with a key of each length, form and place.
    for odd in [&[2; 32][..], &[2; 33], &[3; 33], &[4; 33], &[1; 33], &[0; 33], &[6; 65], &[4; 65], &[2; 65], &[7; 20]] {
        for place in 0..3 {
            let keys: Vec<u8> = (0..3).flat_map(|i| if i == place { push(odd) } else { key.clone() }).collect();
            scripts.push([&[0x52][..], &keys, &[0x53, CHECKMULTISIG]].concat());
        }
        scripts.push([push(odd), vec![CHECKSIG]].concat());
        scripts.push(push(odd));
    }
    // thresh: k around 0 and the number of children.
    for n in [1usize, 2, 3, 15, 16, 17, 127, 128, 129, 3000] {
        for k in [0, 1, 2, n - 1, n, n + 1, 127, 128, 0x7fff_ffff] {
            for end in [EQUAL, EQUALVERIFY] {
                let rest = [TOALTSTACK, 0x00, FROMALTSTACK, ADD].repeat(n - 1);
                let mut script = [&[0x00][..], &rest, &number(k as u64), &[end]].concat();
                if end == EQUALVERIFY {
                    script.push(0x51);
                }
                scripts.push(script);
            }
        }
    }
    // Locktimes, and every width of number, minimal or not, either sign.
    let mut numbers: Vec<Vec<u8>> = Vec::new();
    for n in [0u64, 1, 2, 15, 16, 17, 31, 32, 33, 127, 128, 255, 256, 32767, 32768, 65535, 65536, 0x3f_ffff, 0x40_0000, 0x7f_ffff, 0x80_0000,
        499_999_999, 500_000_000, 0x7fff_fffe, 0x7fff_ffff, 0x8000_0000, 0xffff_ffff, 0x1_0000_0000]
    {
        numbers.push(number(n));
        for width in 1..=5 {
            let mut bytes = n.to_le_bytes()[..width].to_vec();
            numbers.push(push(&bytes));
            *bytes.last_mut().unwrap() |= 0x80;
            numbers.push(push(&bytes));
        }
    }
    for n in &numbers {
        for op in [CSV, CLTV, EQUAL, NUMEQUAL, CHECKMULTISIG] {
            scripts.push([&n[..], &[op]].concat());
        }
        scripts.push(n.clone());
        scripts.push([&[SIZE][..], n, &[EQUALVERIFY, SHA256], &short_key, &[EQUAL]].concat());
        scripts.push([&[SIZE][..], n, &[EQUALVERIFY, HASH160], &push(&[7; 20]), &[EQUALVERIFY, 0x51]].concat());
    }
    // Pushes of every length, in every form, whole and with data missing, alone and before an opcode.
    for n in (0..=80).chain([254, 255, 256, 257, 519, 520, 521, 9_990, 65_535, 65_536]) {
        let data = vec![7u8; n];
        let forms = [
            if n <= 75 { vec![n as u8] } else { continue_with(n) },
            vec![0x4c, n as u8],
            vec![0x4d, n as u8, (n >> 8) as u8],
            vec![0x4e, n as u8, (n >> 8) as u8, (n >> 16) as u8, (n >> 24) as u8],
        ];
        for form in forms {
            for (cut, after) in [(0, &[][..]), (0, &[CHECKSIG][..]), (1, &[])] {
                let kept = n.saturating_sub(cut);
                if form.len() + kept <= LONGEST {
                    scripts.push([&form[..], &data[..kept], after].concat());
                }
            }
        }
    }
    for head in [&[0x4c][..], &[0x4d], &[0x4d, 1], &[0x4e], &[0x4e, 1], &[0x4e, 1, 1], &[0x4e, 1, 1, 1], &[0x4e, 0, 0, 0, 0x80], &[0x4e, 255, 255, 255, 255]] {
        scripts.push(head.to_vec());
        scripts.push([&[0x51][..], head].concat());
    }
    // Every opcode byte: alone, after and before a number, and every one-byte push.
    for op in 0..=255 {
        scripts.extend([vec![op], vec![0x51, op], vec![op, 0x51], vec![1, op], vec![1, op, CSV], vec![0x51, op, VERIFY], vec![op, VERIFY, 0x51]]);
    }
    // VERIFY after each token, and the joined forms before it.
    for token in short_tokens() {
        scripts.push([&token[..], &[VERIFY]].concat());
        scripts.push([&token[..], &[VERIFY, VERIFY, 0x51]].concat());
    }
    for (open, close) in [(&[0x00, 0x51][..], EQUAL), (&key[..], CHECKSIG), (&[&[0x51], &key[..], &[0x51]].concat()[..], CHECKMULTISIG)] {
        scripts.push([open, &[close, VERIFY, 0x51]].concat());
        scripts.push([open, &[close + 1, 0x51]].concat());
    }
    let closed = [&short_key[..], &[CHECKSIG, 0x51]].concat();
    scripts.push([&closed[..], &[NUMEQUAL, VERIFY, 0x51]].concat());
    scripts.push([&closed[..], &[NUMEQUALVERIFY, 0x51]].concat());
    // The longest script, and one byte more or less: refused in lexing, in decoding and at the end, accepted, and as deep as can be.
    for length in [9_999, 10_000, 10_001] {
        for (start, filler, end) in [
            (&[][..], &[0x51][..], &[][..]),
            (&[], &[VERIFY], &[0x51]),
            (&[0x51], &[ZERONOTEQUAL], &[]),
            (&[0x51], &[ZERONOTEQUAL], &[VERIFY, 0x51]),
            (&[], &[0x51, VERIFY], &[0x51]),
            (&[], &[0x51, VERIFY], &[0x51, VERIFY]),
            (&[], &[0x51, VERIFY], &[0x00, 0x51, EQUAL]),
            (&[0x00], &[TOALTSTACK, 0x00, FROMALTSTACK, ADD], &[0x51, EQUAL]),
            (&[0x00], &[TOALTSTACK, 0x00, FROMALTSTACK, BOOLOR], &[]),
            (&[0x00], &[IFDUP, NOTIF, 0x00, ENDIF], &[]),
            (&[0x00], &[NOTIF, 0x00, ELSE, 0x51, ENDIF], &[]),
            (&[0x00], &[0x51, EQUAL], &[]),
            (&[], &[0x4f], &[]),
            (&[], &[ENDIF], &[]),
            (&[], &[BOOLAND], &[]),
            (&[], &[FROMALTSTACK, ADD], &[0x51, EQUAL]),
        ] {
            let room = length - start.len() - end.len();
            let mut middle = filler.repeat(room / filler.len());
            // Where the filler doesn't come out even, a wrapper that is free to repeat makes up the length.
            while middle.len() < room {
                if start.is_empty() { middle.insert(0, 0x51) } else { middle.push(ZERONOTEQUAL) }
            }
            scripts.push([start, &middle, end].concat());
        }
        // Nested as deep as it goes: both ends grow.
        for (open, inner, close) in [
            (&[IF][..], &[0x00][..], &[ELSE, 0x00, ENDIF][..]),
            (&[IF, 0x00, ELSE], &[0x00], &[ENDIF]),
            (&[SIZE, ZERONOTEQUAL, IF], &[DUP, IF, 0x51, VERIFY, ENDIF], &[ENDIF]),
            (&[0x00, TOALTSTACK], &[0x00], &[FROMALTSTACK, BOOLAND]),
            (&[0x00, TOALTSTACK], &[0x00], &[FROMALTSTACK, ADD, 0x51, EQUAL]),
            (&[0x00, NOTIF], &[0x00], &[ELSE, 0x51, ENDIF]),
            (&[0x00, NOTIF, 0x51, ELSE], &[0x00], &[ENDIF]),
            (&[0x00, IFDUP, NOTIF], &[0x00], &[ENDIF]),
        ] {
            let times = (length - inner.len()) / (open.len() + close.len());
            let mut script = [open.repeat(times), inner.to_vec(), close.repeat(times)].concat();
            while script.len() < length {
                script.push(ZERONOTEQUAL);
            }
            scripts.push(script);
        }
    }
    scripts.into_iter().flat_map(|script| [0, 1].map(|kind| Case { generator: "limits", kind, script: script.clone() })).collect()
}

/// The minimal head of a push that is too long for one length byte.
fn continue_with(n: usize) -> Vec<u8> {
    match n {
        0..=255 => vec![0x4c, n as u8],
        256..=65_535 => vec![0x4d, n as u8, (n >> 8) as u8],
        _ => vec![0x4e, n as u8, (n >> 8) as u8, (n >> 16) as u8, (n >> 24) as u8],
    }
}

/// A tree as its script, with its type if it has one, and whether the last byte is an opcode (then VERIFY may join it).
#[derive(Clone)]
struct Piece {
    script: Vec<u8>,
    ty: Correctness,
    ends_in_opcode: bool,
}

/// Finished trees of one script kind to pick children from, by base.
struct Stock {
    kind: u8,
    /// Trees longer than this aren't kept.
    longest: usize,
    by_base: [Vec<Piece>; 4],
}

const KEPT: usize = 48;

/// How much care is taken over a node's children: the whole rule holds; each has the base that its place wants; none.
#[derive(Clone, Copy, PartialEq)]
enum Care {
    Rule,
    Base,
    None,
}

impl Stock {
    fn new(kind: u8, longest: usize, random: &mut Random) -> Self {
        let mut stock = Stock { kind, longest, by_base: Default::default() };
        // Enough steps for trees of every base to be there before the first one is asked for.
        for _ in 0..2000 {
            stock.grow(random);
        }
        stock
    }

    fn keep(&mut self, piece: Piece, random: &mut Random) {
        let shelf = &mut self.by_base[piece.ty.base as usize];
        if piece.script.len() > self.longest {
            return;
        }
        if shelf.len() < KEPT {
            shelf.push(piece);
        } else {
            let i = random.below(KEPT);
            shelf[i] = piece;
        }
    }

    /// A tree of the base wanted: mostly one from the shelf, else a leaf. Of two, half of the time the shorter one is taken, so that sizes
    /// stay mixed; where the stock is for long trees, the longer one.
    fn child(&self, base: Base, random: &mut Random) -> Piece {
        let shelf = &self.by_base[base as usize];
        if shelf.is_empty() || (random.one_in(4) && matches!(base, Base::B | Base::K)) {
            return loop {
                let leaf = self.leaf(random);
                if shelf.is_empty() || leaf.ty.base == base {
                    break leaf;
                }
            };
        }
        let (a, b) = (random.pick(shelf), random.pick(shelf));
        let other = if self.longest == LONGEST { b.script.len() > a.script.len() } else { b.script.len() < a.script.len() };
        if other && random.one_in(2) { b.clone() } else { a.clone() }
    }

    fn any(&self, random: &mut Random) -> Piece {
        let base = *random.pick(&[Base::B, Base::B, Base::K, Base::V, Base::V, Base::W, Base::W]);
        self.child(base, random)
    }

    fn key(&self, random: &mut Random) -> Vec<u8> {
        if self.kind == 1 {
            return push(&random.bytes(32));
        }
        let mut key = random.bytes(33);
        key[0] = 2 + (key[0] & 1);
        push(&key)
    }

    fn leaf(&self, random: &mut Random) -> Piece {
        let leaf = |script, ty, ends_in_opcode| Piece { script, ty, ends_in_opcode };
        match random.below(12) {
            0 => leaf(vec![0x51], Correctness::TRUE, true),
            1 => leaf(vec![0x00], Correctness::FALSE, true),
            2 | 3 => leaf(self.key(random), Correctness::pk_k(), false),
            4 => leaf([&[DUP, HASH160][..], &push(&random.bytes(20)), &[EQUALVERIFY]].concat(), Correctness::pk_h(), true),
            5 | 6 => {
                let wide = random.below(32);
                let n = 1 + (random.bits() & 0x7fff_ffff) % ((1u64 << wide).max(2) - 1);
                let op = *random.pick(&[CSV, CLTV]);
                leaf([number(n.min(0x7fff_ffff)), vec![op]].concat(), Correctness::time(), true)
            }
            7 | 8 => {
                let (op, n) = *random.pick(&[(SHA256, 32), (HASH256, 32), (RIPEMD160, 20), (HASH160, 20)]);
                leaf([&[SIZE, 1, 32, EQUALVERIFY, op][..], &push(&random.bytes(n)), &[EQUAL]].concat(), Correctness::hash(), true)
            }
            _ => {
                let most = if random.one_in(8) { 20 } else { 3 };
                let n = 1 + random.below(most);
                let k = number(1 + random.below(n) as u64);
                let mut script = Vec::new();
                if self.kind == 0 {
                    script.extend(k);
                    (0..n).for_each(|_| script.extend(self.key(random)));
                    script.extend(number(n as u64));
                    script.push(CHECKMULTISIG);
                    return leaf(script, Correctness::multi(), true);
                }
                for i in 0..n {
                    script.extend(self.key(random));
                    script.push(if i == 0 { CHECKSIG } else { CHECKSIGADD });
                }
                script.extend(k);
                script.push(NUMEQUAL);
                leaf(script, Correctness::multi_a(), true)
            }
        }
    }

    /// One more tree: a random kind over random children. Where the rule is to hold and doesn't, none; where it needn't, the type is
    /// made up.
    fn build(&self, care: Care, random: &mut Random) -> Option<Piece> {
        use Base::*;
        let get = |base, random: &mut Random| if care == Care::None { self.any(random) } else { self.child(base, random) };
        let one = |open: &[u8], x: &Piece, close: &[u8], ty: Result<Correctness, ErrorKind>| {
            let ends = if close.is_empty() { x.ends_in_opcode } else { true };
            (ty, [open, &x.script, close].concat(), ends)
        };
        let two = |x: &Piece, y: &Piece, close: u8, ty| (ty, [&x.script[..], &y.script, &[close]].concat(), true);
        let (ty, script, ends_in_opcode) = match random.below(17) {
            0 => return Some(self.leaf(random)),
            1 => { let x = get(B, random); one(&[TOALTSTACK], &x, &[FROMALTSTACK], x.ty.cast_alt()) }
            2 => { let x = get(B, random); one(&[SWAP], &x, &[], x.ty.cast_swap()) }
            3 => { let x = get(K, random); one(&[], &x, &[CHECKSIG], x.ty.cast_check()) }
            4 => { let x = get(V, random); one(&[DUP, IF], &x, &[ENDIF], x.ty.cast_dupif()) }
            5 => {
                let x = get(B, random);
                let mut script = x.script.clone();
                match script.last_mut() {
                    Some(last) if x.ends_in_opcode && [EQUAL, NUMEQUAL, CHECKSIG, CHECKMULTISIG].contains(last) => {
                        // NUMEQUAL then VERIFY passes too, and both are to be met.
                        if *last == NUMEQUAL && random.one_in(2) { script.push(VERIFY) } else { *last += 1 }
                    }
                    _ => script.push(VERIFY),
                }
                (x.ty.cast_verify(), script, true)
            }
            6 => { let x = get(B, random); one(&[SIZE, ZERONOTEQUAL, IF], &x, &[ENDIF], x.ty.cast_nonzero()) }
            7 => { let x = get(B, random); one(&[], &x, &[ZERONOTEQUAL], x.ty.cast_zeronotequal()) }
            8 => {
                let right = *random.pick(&[B, K, V]);
                let (x, y) = (get(V, random), get(right, random));
                (Correctness::and_v(x.ty, y.ty), [&x.script[..], &y.script].concat(), y.ends_in_opcode)
            }
            9 => { let (x, y) = (get(B, random), get(W, random)); two(&x, &y, BOOLAND, Correctness::and_b(x.ty, y.ty)) }
            10 => { let (x, y) = (get(B, random), get(W, random)); two(&x, &y, BOOLOR, Correctness::or_b(x.ty, y.ty)) }
            11 => {
                let (x, z) = (get(B, random), get(B, random));
                (Correctness::or_d(x.ty, z.ty), [&x.script[..], &[IFDUP, NOTIF], &z.script, &[ENDIF]].concat(), true)
            }
            12 => {
                let (x, z) = (get(B, random), get(V, random));
                (Correctness::or_c(x.ty, z.ty), [&x.script[..], &[NOTIF], &z.script, &[ENDIF]].concat(), true)
            }
            13 => {
                let base = *random.pick(&[B, K, V]);
                let (x, z) = (get(base, random), get(base, random));
                (Correctness::or_i(x.ty, z.ty), [&[IF][..], &x.script, &[ELSE], &z.script, &[ENDIF]].concat(), true)
            }
            14 => {
                let base = *random.pick(&[B, K, V]);
                let (x, y, z) = (get(B, random), get(base, random), get(base, random));
                let script = [&x.script[..], &[NOTIF], &z.script, &[ELSE], &y.script, &[ENDIF]].concat();
                (Correctness::and_or(x.ty, y.ty, z.ty), script, true)
            }
            _ => {
                let most = if random.one_in(6) { 20 } else { 4 };
                let n = 1 + random.below(most);
                let mut children = Vec::new();
                for i in 0..n {
                    let base = if i == 0 { B } else { W };
                    let mut child = get(base, random);
                    // A child that fits is rare enough for a thresh to deserve some tries.
                    for _ in 0..6 {
                        if care == Care::None || (child.ty.dissatisfiable && child.ty.unit) || random.one_in(20) { break }
                        child = get(base, random);
                    }
                    children.push(child);
                }
                let mut script = Vec::new();
                for (i, child) in children.iter().enumerate() {
                    script.extend(&child.script);
                    if i > 0 { script.push(ADD) }
                }
                let k = 1 + random.below(if care == Care::Rule { n } else { n + 1 });
                script.extend(number(k as u64));
                script.push(EQUAL);
                (Correctness::threshold(k, children.iter().map(|c| &c.ty)), script, true)
            }
        };
        match ty {
            Ok(ty) => Some(Piece { script, ty, ends_in_opcode }),
            Err(_) if care == Care::Rule => None,
            Err(_) => Some(Piece { script, ty: *random.pick(&[Correctness::TRUE, Correctness::hash(), Correctness::pk_k()]), ends_in_opcode }),
        }
    }

    /// A well-typed tree, which is kept.
    fn grow(&mut self, random: &mut Random) -> Piece {
        loop {
            if let Some(piece) = self.build(Care::Rule, random) {
                self.keep(piece.clone(), random);
                return piece;
            }
        }
    }

    /// A well-typed tree of base B, no longer than a script may be.
    fn whole(&mut self, random: &mut Random) -> Vec<u8> {
        loop {
            let piece = self.grow(random);
            if piece.ty.base == Base::B && piece.script.len() <= LONGEST {
                return piece.script;
            }
        }
    }
}

/// The random generators, mixed.
struct Shuffled {
    random: Random,
    /// Short and long trees, of each kind.
    stocks: [Stock; 4],
}

impl Shuffled {
    fn new(seed: u64) -> Self {
        let mut random = Random::new(seed);
        let stocks = [(0, 250), (1, 250), (0, LONGEST), (1, LONGEST)].map(|(kind, longest)| Stock::new(kind, longest, &mut random));
        Shuffled { random, stocks }
    }

    fn next_case(&mut self) -> Case {
        let random = &mut self.random;
        // Long scripts cost time by their length, so there are fewer of them.
        let long = random.one_in(50);
        let kind = random.below(2);
        let stock = &mut self.stocks[kind + if long { 2 } else { 0 }];
        let (generator, mut script) = match random.below(100) {
            0..=34 => ("typed", stock.whole(random)),
            35..=54 => ("ill-typed", ill_typed(stock, random)),
            55..=79 => {
                let whole = stock.whole(random);
                ("damaged", damaged(whole, random))
            }
            80..=94 => ("soup", soup(long, random)),
            _ => {
                let n = if long { random.below(LONGEST) } else { random.below(12) };
                ("noise", random.bytes(n))
            }
        };
        script.truncate(LONGEST + 1);
        // Now and then under the other kind, where its keys are none.
        let kind = if random.one_in(12) { 1 - kind } else { kind } as u8;
        Case { generator, kind, script }
    }
}

/// A tree with one to three nodes that were put over their children without care for the rule.
fn ill_typed(stock: &Stock, random: &mut Random) -> Vec<u8> {
    let mut scratch = Stock { kind: stock.kind, longest: LONGEST, by_base: stock.by_base.clone() };
    for _ in 0..1 + random.below(3) {
        let care = if random.one_in(3) { Care::None } else { Care::Base };
        if let Some(piece) = scratch.build(care, random) {
            if piece.script.len() > LONGEST {
                continue;
            }
            // What was just made is made likely to be a child of what comes next.
            for shelf in &mut scratch.by_base {
                for _ in 0..shelf.len() / 2 {
                    let i = random.below(shelf.len());
                    shelf[i] = piece.clone();
                }
            }
            scratch.by_base[0].truncate(KEPT - 1);
            scratch.by_base[0].push(piece);
        }
    }
    scratch.by_base[0].pop().map(|piece| piece.script).unwrap_or_default()
}

/// Where each instruction starts, as far as the bytes go, and the script's end.
pub fn starts(script: &[u8]) -> Vec<usize> {
    let mut found = Vec::new();
    let mut i = 0;
    while i < script.len() {
        found.push(i);
        i += 1 + if script[i] <= 75 { script[i] as usize } else { 0 };
    }
    found.push(script.len());
    found
}

/// A good script with one to three things done to it, in bytes or in whole instructions.
fn damaged(mut script: Vec<u8>, random: &mut Random) -> Vec<u8> {
    for _ in 0..1 + random.below(3) {
        if script.is_empty() {
            break;
        }
        let at = random.below(script.len());
        let cuts = starts(&script);
        let i = random.below(cuts.len() - 1);
        // Past the end only where a push is cut off by it.
        let (from, to) = (cuts[i], cuts[i + 1].min(script.len()));
        match random.below(14) {
            0 => script[at] ^= 1 << random.below(8),
            1 => script[at] = random.bits() as u8,
            2 => { script.remove(at); }
            3 => script.insert(at, random.bits() as u8),
            4 => script.truncate(at),
            5 => { script.drain(..at); }
            6 => { script.drain(from..to); }
            7 => { let copy = script[from..to].to_vec(); script.splice(to..to, copy); }
            8 => { let token = random_token(random); script.splice(from..to, token); }
            9 => { let token = random_token(random); script.splice(from..from, token); }
            10 if i > 0 => { let part = script[from..to].to_vec(); script.drain(from..to); script.splice(cuts[i - 1]..cuts[i - 1], part); }
            // An opcode for its neighbour: the joined form for the plain one, IF for NOTIF, a number for the next.
            11 if script[from] > 75 => script[from] ^= 1,
            12 if script[from] > 75 => script[from] = script[from].wrapping_add(1),
            13 => script[from] = *random.pick(&OPCODES),
            _ => script.push(*random.pick(&OPCODES)),
        }
    }
    script
}

fn random_token(random: &mut Random) -> Vec<u8> {
    match random.below(20) {
        0 => push(&random.bytes(20)),
        1 => push(&random.bytes(32)),
        2 => push(&random.bytes(33)),
        3 => {
            let mut key = random.bytes(33);
            key[0] = 2 + (key[0] & 1);
            push(&key)
        }
        4 if random.one_in(4) => push(&random.bytes(65)),
        5 => { let n = random.below(6); push(&random.bytes(n)) }
        6 => { let wide = random.below(33); number(random.bits() & ((1 << wide) - 1)) }
        7 | 8 => vec![0x00],
        9 | 10 => vec![0x51],
        11 => vec![0x50 + random.below(17) as u8],
        12 => vec![1, 32],
        _ => vec![*random.pick(&OPCODES)],
    }
}

/// Tokens in any order, or runs that go together in any order.
fn soup(long: bool, random: &mut Random) -> Vec<u8> {
    let longest = if long { random.below(LONGEST) } else { 400 };
    let n = if long { 4000 } else { 1 + random.below(16) };
    let fragments = short_fragments();
    let whole = random.one_in(2);
    let mut script = Vec::new();
    for _ in 0..n {
        let next = if whole && !random.one_in(5) { random.pick(&fragments).clone() } else { random_token(random) };
        if script.len() + next.len() > longest {
            break;
        }
        script.extend(next);
    }
    script
}
