//! Two answers held beside each other: a listing as document 01 has it is the oracle's listing once its places are looked up, and a
//! listing that differs anywhere but in a place is seen to differ.

use oracle::{hex, judge, ours, placed, unhex, with_room};

/// 01's own example, to the letter.
const EXAMPLE: &str = "\
00 00 00000000 00000005 00000008 00000003 00000000
02 00000000 00000000 00000000 00000001 1111
01 00000000 00000000 00000000 00000001 1101
19 00000000 00000000 00000000 00000003 1211
";

fn key(n: u8) -> String { format!("02{}", hex(&[n; 32])) }

/// A multi of two keys, then a hash: kind 0.
fn script() -> Vec<u8> {
    let text = format!("5121{}21{}52af82012088a820{}87", key(1), key(2), hex(&[9; 32]));
    unhex(text.as_bytes()).unwrap()
}

/// Its listing, worked out by hand: and_v(v:multi(1, .., ..), sha256(..)).
const LISTING: &str = "\
00 00 00000000 0000000d 00000006 00000004 00000002
08 00000000 00000000 0000004d 00000001 1411
1b 00000001 00000002 00000000 00000001 1511
10 00000000 00000000 00000000 00000002 3500
13 00000000 00000000 00000000 00000004 1501
00000002
00000024
";

fn same(listing: &str, script: &[u8]) -> bool {
    let theirs = with_room(|| judge(0, script));
    let listing = format!("{listing}= {}\n", hex(&theirs.encoded));
    match ours::read(&mut listing.as_bytes(), 0, script, true) {
        Ok(ours) => ours.listing.as_ref() == Ok(&theirs.listing) && ours.encoded == Some(hex(&theirs.encoded)),
        Err(_) => false,
    }
}

#[test]
fn a_listing_of_01_is_the_oracles() {
    assert!(same(EXAMPLE, &unhex(b"6351670068").unwrap()));
    assert!(same(LISTING, &script()));
}

#[test]
fn any_other_listing_differs() {
    // Every digit in turn is made another one. A header's place is nobody's but the reader's, so its eight digits are left out; a
    // place that leads to the same bytes would pass, and none does here.
    let script = script();
    let mut tried = 0;
    for i in 0..LISTING.len() {
        let digit = LISTING.as_bytes()[i];
        if digit.is_ascii_whitespace() || (6..14).contains(&i) {
            continue;
        }
        for other in b"0123456789abcdef".iter().filter(|other| **other != digit) {
            let mut changed = LISTING.as_bytes().to_vec();
            changed[i] = *other;
            // A count of lines in the billions is cut short by the end of the text.
            assert!(!same(std::str::from_utf8(&changed).unwrap(), &script), "digit {i} as {}", *other as char);
            tried += 1;
        }
    }
    assert!(tried > 3000);
    let lines: Vec<&str> = LISTING.lines().collect();
    for i in 0..lines.len() {
        let without: String = lines.iter().enumerate().filter(|(j, _)| *j != i).map(|(_, l)| format!("{l}\n")).collect();
        assert!(!same(&without, &script), "without line {i}");
    }
}

#[test]
fn the_encoders_bytes_count() {
    let script = script();
    let theirs = with_room(|| judge(0, &script));
    let text = format!("{LISTING}= {}\n", hex(&script[1..]));
    let ours = ours::read(&mut text.as_bytes(), 0, &script, true).unwrap();
    assert_ne!(ours.encoded, Some(hex(&theirs.encoded)));
    assert_eq!(theirs.encoded, script);
}

/// And the other way: the oracle's listing, with the places that 01 settles, is 01's.
#[test]
fn the_oracles_listing_with_places_is_01s() {
    for (script, listing) in [(unhex(b"6351670068").unwrap(), EXAMPLE), (script(), LISTING)] {
        assert_eq!(placed(&with_room(|| judge(0, &script)).listing, &script), listing);
    }
}
