//! The scripts of a seed are the same everywhere, and between them they meet everything that there is to meet.

use std::collections::BTreeSet;

use oracle::generate::{Case, Plan};
use oracle::{judge, with_room};

#[test]
fn a_seed_always_gives_the_same_scripts() {
    let plan = Plan { tokens: 1, fragments: 1, ..Plan::new(379, 5_000) };
    let once: Vec<Case> = plan.cases().collect();
    assert_eq!(once.len() as u64, plan.total());
    assert!(plan.cases().eq(once.iter().cloned()));
    let other = Plan { seed: 380, ..plan };
    assert!(!other.cases().eq(once.iter().cloned()));
    // FNV-1a over kinds, lengths and bytes. Changes only with the generators; recorded runs then name other scripts.
    let mut sum = 0xcbf2_9ce4_8422_2325u64;
    for case in &once {
        let length = (case.script.len() as u32).to_le_bytes();
        for byte in [case.kind].iter().chain(&length).chain(&case.script) {
            sum = (sum ^ *byte as u64).wrapping_mul(0x100_0000_01b3);
        }
    }
    assert_eq!(sum, 14_097_327_531_711_592_779);
}

#[test]
fn every_kind_and_every_refusal_is_met() {
    let plan = Plan { tokens: 2, fragments: 2, ..Plan::new(379, 40_000) };
    let (kinds, answers) = with_room(|| {
        let mut kinds = 0;
        let mut answers = BTreeSet::new();
        for case in plan.cases() {
            let answer = judge(case.kind, &case.script);
            kinds |= answer.kinds;
            answers.insert((answer.number, answer.reason));
        }
        (kinds, answers)
    });
    // All but 0, which is no kind, and 4, which never occurs.
    assert_eq!(kinds, 0x1fff_ffee);
    // Of 01's numbers the crate's side can give all but those of tables too small (8, 15 to 17), of the kind (20) and of others' parts.
    let wanted = (0..=13).filter(|n| *n != 8).map(|n| (n, 0)).chain((1..=12).map(|reason| (14, reason))).chain([(18, 0), (19, 0)]);
    assert_eq!(answers, wanted.collect());
}
