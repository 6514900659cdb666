//! The judge is the crate's own text only as long as that text is the supplied one. `crate-text.sha256` was made from the supplied
//! files; here every file under `crate-text` is held against it, and none may be missing or added.

use std::collections::BTreeMap;
use std::fs;
use std::path::{Path, PathBuf};

fn root() -> PathBuf { Path::new(env!("CARGO_MANIFEST_DIR")).to_path_buf() }

fn files(dir: &Path, below: &Path, found: &mut BTreeMap<String, Vec<u8>>) {
    for entry in fs::read_dir(dir).unwrap() {
        let path = entry.unwrap().path();
        if path.is_dir() {
            files(&path, below, found);
        } else {
            found.insert(path.strip_prefix(below).unwrap().to_str().unwrap().to_string(), fs::read(&path).unwrap());
        }
    }
}

fn present() -> BTreeMap<String, Vec<u8>> {
    let mut found = BTreeMap::new();
    files(&root().join("crate-text"), &root().join("crate-text"), &mut found);
    found
}

/// What of the text isn't the supplied text: a line for each file that is changed, missing or too many.
fn differences(sums: &str, text: &BTreeMap<String, Vec<u8>>) -> Vec<String> {
    let wanted: BTreeMap<&str, &str> = sums.lines().map(|l| l.split_once("  ").unwrap()).map(|(sum, name)| (name, sum)).collect();
    let mut wrong = Vec::new();
    for (name, sum) in &wanted {
        match text.get(*name) {
            None => wrong.push(format!("{name} is missing")),
            Some(bytes) if sha256(bytes) != *sum => wrong.push(format!("{name} is changed")),
            Some(_) => {}
        }
    }
    wrong.extend(text.keys().filter(|name| !wanted.contains_key(name.as_str())).map(|name| format!("{name} is too many")));
    wrong
}

fn sums() -> String { fs::read_to_string(root().join("crate-text.sha256")).unwrap() }

#[test]
fn the_text_is_the_supplied_text() {
    assert_eq!(sums().lines().count(), 17);
    assert_eq!(differences(&sums(), &present()), Vec::<String>::new());
}

#[test]
fn a_changed_a_missing_and_an_added_file_are_seen() {
    let decode = "src/miniscript/decode.rs";
    let mut changed = present();
    let last = changed.get_mut(decode).unwrap().last_mut().unwrap();
    *last ^= 1;
    assert_eq!(differences(&sums(), &changed), [format!("{decode} is changed")]);
    let mut missing = present();
    missing.remove(decode);
    assert_eq!(differences(&sums(), &missing), [format!("{decode} is missing")]);
    let mut added = present();
    added.insert("src/other.rs".to_string(), vec![]);
    assert_eq!(differences(&sums(), &added), ["src/other.rs is too many"]);
}

/// The one supplied file that is compiled from a copy, because it asks for a stand-in beside itself.
#[test]
fn the_copy_is_the_supplied_file() {
    let copy = fs::read(root().join("stand-ins/miniscript/src/iter/mod.rs")).unwrap();
    assert_eq!(copy, fs::read(root().join("crate-text/src/iter/mod.rs")).unwrap());
}

/// No other stand-in holds a copy of what is supplied: each supplied module is compiled from `crate-text`, satisfy.rs alone isn't compiled.
#[test]
fn each_supplied_module_is_compiled_from_where_it_stands() {
    let mut stand_ins = BTreeMap::new();
    files(&root().join("stand-ins"), &root().join("stand-ins"), &mut stand_ins);
    let text: String = stand_ins.values().map(|b| String::from_utf8_lossy(b).into_owned()).collect();
    for name in ["astelem", "context", "decode", "lex", "limits", "types/mod"] {
        assert!(text.contains(&format!("#[path = \"../../../../crate-text/src/miniscript/{name}.rs\"]")), "{name}");
    }
    assert!(text.contains("#[path = \"../../../crate-text/src/primitives\"]"));
    assert!(text.contains("#[path = \"../../../crate-text/src/util.rs\"]"));
}

/// FIPS 180-4, for the sums alone.
fn sha256(data: &[u8]) -> String {
    // The first 32 bits of the fractional parts of the cube roots (K) and square roots (H) of the first primes, in whole numbers.
    fn root_bits(prime: u128, power: u32) -> u32 {
        let scaled = prime << (32 * power);
        let (mut low, mut high) = (0u128, 1u128 << 40);
        while high - low > 1 {
            let middle = (low + high) / 2;
            if middle.pow(power) <= scaled { low = middle } else { high = middle }
        }
        low as u32
    }
    let primes: Vec<u128> = (2..312u128).filter(|n| (2..*n).all(|d| n % d != 0)).collect();
    let k: Vec<u32> = primes.iter().map(|p| root_bits(*p, 3)).collect();
    let mut h: Vec<u32> = primes[..8].iter().map(|p| root_bits(*p, 2)).collect();

    let mut message = data.to_vec();
    message.push(0x80);
    while message.len() % 64 != 56 {
        message.push(0);
    }
    message.extend((8 * data.len() as u64).to_be_bytes());
    for block in message.chunks(64) {
        let mut w: Vec<u32> = block.chunks(4).map(|b| u32::from_be_bytes(b.try_into().unwrap())).collect();
        for i in 16..64 {
            let s0 = w[i - 15].rotate_right(7) ^ w[i - 15].rotate_right(18) ^ (w[i - 15] >> 3);
            let s1 = w[i - 2].rotate_right(17) ^ w[i - 2].rotate_right(19) ^ (w[i - 2] >> 10);
            w.push(w[i - 16].wrapping_add(s0).wrapping_add(w[i - 7]).wrapping_add(s1));
        }
        let mut v = h.clone();
        for i in 0..64 {
            let s1 = v[4].rotate_right(6) ^ v[4].rotate_right(11) ^ v[4].rotate_right(25);
            let choice = (v[4] & v[5]) ^ (!v[4] & v[6]);
            let t1 = v[7].wrapping_add(s1).wrapping_add(choice).wrapping_add(k[i]).wrapping_add(w[i]);
            let s0 = v[0].rotate_right(2) ^ v[0].rotate_right(13) ^ v[0].rotate_right(22);
            let majority = (v[0] & v[1]) ^ (v[0] & v[2]) ^ (v[1] & v[2]);
            v.rotate_right(1);
            v[4] = v[4].wrapping_add(t1);
            v[0] = t1.wrapping_add(s0).wrapping_add(majority);
        }
        h.iter_mut().zip(v).for_each(|(h, v)| *h = h.wrapping_add(v));
    }
    h.iter().map(|n| format!("{n:08x}")).collect()
}

#[test]
fn the_sum_is_sha256() {
    assert_eq!(sha256(b"abc"), "ba7816bf8f01cfea414140de5dae2223b00361a396177a9cb410ff61f20015ad");
    assert_eq!(sha256(b""), "e3b0c44298fc1c149afbf4c8996fb92427ae41e4649b934ca495991b7852b855");
}
