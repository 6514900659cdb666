//! Document 01's ample sizes, on the crate's text: for b bytes 2b tokens, 4b nodes, b keys and 16b + 2 work entries. And the closer
//! bounds by the tokens t that a script has: 2t nodes, t keys, 8t + 2 work entries, 8t + 2 steps.

use oracle::generate::Plan;
use oracle::{judge, with_room, LONGEST};

#[test]
fn ample_sizes_are_ample() {
    let plan = Plan { tokens: 2, fragments: 3, ..Plan::new(16, 60_000) };
    with_room(|| {
        for case in plan.cases().filter(|case| case.script.len() <= LONGEST) {
            let answer = judge(case.kind, &case.script);
            let field = |i: usize| usize::from_str_radix(answer.listing.split_whitespace().nth(i).unwrap(), 16).unwrap();
            let (b, t, steps, nodes, keys, work) = (case.script.len(), field(3), field(4), field(5), field(6), answer.most_work);
            // Where lexing refuses there are no tokens, and no entry was taken off.
            let decoded = !(2..=7).contains(&answer.number);
            assert_eq!(decoded, steps > 0, "{case:?}");
            assert!(t <= 2 * b && nodes <= 4 * b && keys <= b && work <= 16 * b + 2, "{case:?}");
            assert!(nodes <= 2 * t && keys <= t && work <= 8 * t + 2 && steps <= 8 * t + 2, "{case:?}");
        }
    });
}
