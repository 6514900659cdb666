//! A list of scripts with the oracle's answers, short enough to be stored and replayed where there is no Rust.

use std::collections::BTreeMap;
use std::fmt::Write;

use crate::generate::Plan;
use crate::{hex, judge, placed};

/// The stored list comes from this plan.
pub const PLAN: Plan = Plan { seed: 379, count: 200_000, tokens: 3, fragments: 3 };

/// So many scripts of a generator with the same answer, and so many accepted ones beyond that for each kind of node.
const OF_A_SORT: u32 = 6;
const OF_A_KIND: u32 = 25;

/// 01's program reads 520 bytes, and its tables are ample for 127 tokens (two nodes and eight work entries a token, and two).
const BYTES: usize = 520;
const TOKENS: usize = 127;

/// Each script as a line '> ' and its hexadecimal, kind byte first; below it the answer. Accepted: 01's listing to the letter, then
/// '= ' and the encoder's bytes. Refused: 01's header with its place left open, since the crate has none. Call it in `with_room`.
pub fn sample() -> String {
    let mut text = String::new();
    let mut of_a_sort: BTreeMap<(&str, u8, u8, u8), u32> = BTreeMap::new();
    let mut of_a_kind = [[0; 29]; 2];
    for case in PLAN.cases().filter(|case| case.script.len() <= BYTES) {
        let answer = judge(case.kind, &case.script);
        let tokens = usize::from_str_radix(&answer.listing[15..23], 16).expect("the header's fourth field");
        if tokens > TOKENS {
            continue;
        }
        let sort = of_a_sort.entry((case.generator, case.kind, answer.number, answer.reason)).or_default();
        let kinds = &mut of_a_kind[case.kind as usize];
        let scarce = (1..29).any(|kind| answer.kinds >> kind & 1 == 1 && kinds[kind] < OF_A_KIND);
        if *sort >= OF_A_SORT && !scarce {
            continue;
        }
        *sort += 1;
        (1..29).filter(|kind| answer.kinds >> kind & 1 == 1).for_each(|kind| kinds[kind] += 1);
        let _ = writeln!(text, "> {:02x}{}", case.kind, hex(&case.script));
        if answer.number == 0 {
            let _ = writeln!(text, "{}= {}", placed(&answer.listing, &case.script), hex(&answer.encoded));
        } else {
            text.push_str(&answer.listing);
        }
    }
    text
}
