//! Document 01's "Scripts to try at the counter" and the two vectors of BIP 379, put to the crate's text: verdicts, reasons, kinds,
//! steps and types as 01 states them. (Places are 01's own: the crate has none.)

use oracle::{judge, judge_line, unhex, with_room, Answer};

fn ask(kind: u8, script: &str) -> Answer { with_room(|| judge(kind, &unhex(script.as_bytes()).unwrap())) }

fn field(answer: &Answer, i: usize) -> usize { usize::from_str_radix(answer.listing.split_whitespace().nth(i).unwrap(), 16).unwrap() }

fn steps(answer: &Answer) -> usize { field(answer, 4) }

fn kinds(answer: &Answer) -> Vec<usize> {
    answer.listing.lines().skip(1).map(|l| usize::from_str_radix(&l[..2], 16).unwrap()).collect()
}

fn types(answer: &Answer) -> Vec<&str> { answer.listing.lines().skip(1).map(|l| l.split(' ').nth(5).unwrap()).collect() }

#[test]
fn the_twelve() {
    let empty = ask(0, "");
    assert_eq!((empty.number, steps(&empty)), (9, 1));
    for (script, nodes, count) in [
        ("51", &[1][..], 2),
        ("516951", &[1, 1, 16, 19], 6),
        ("5169516951", &[1, 1, 16, 1, 16, 19, 19], 12),
        ("6351670068", &[2, 1, 25], 8),
        ("005187", &[2, 26], 5),
        ("7663516968", &[1, 16, 15], 8),
    ] {
        let answer = ask(0, script);
        assert_eq!((answer.number, kinds(&answer), steps(&answer)), (0, nodes.to_vec(), count), "{script}");
        assert_eq!(answer.encoded, unhex(script.as_bytes()).unwrap());
    }
    assert_eq!(types(&ask(0, "6351670068")), ["1111", "1101", "1211"]);
    assert_eq!(types(&ask(0, "7663516968")).last(), Some(&"1410"));
    let swap = ask(0, "517c519b");
    assert_eq!((swap.number, swap.reason, steps(&swap)), (14, 3, 5));
    let thresh = ask(0, "005287");
    assert_eq!((thresh.number, steps(&thresh)), (13, 4));
    for (script, number) in [("6351", 18), ("8769", 7), ("00b2", 12)] {
        assert_eq!(ask(0, script).number, number, "{script}");
    }
}

#[test]
fn the_rest() {
    for (script, number) in [
        ("51b2", 0), ("0105", 3), ("0111", 10), ("0180", 4), ("0191", 5), ("027f00", 4), ("4c", 2), ("4f", 6), ("88", 9),
    ] {
        assert_eq!(ask(0, script).number, number, "{script}");
    }
    assert_eq!(ask(0, &"51".repeat(10_001)).number, 1);
    assert_ne!(ask(0, &"51".repeat(10_000)).number, 1);
}

#[test]
fn the_published_vectors() {
    // lltvln:after(1231488000)
    let first = ask(0, "6300676300676300670400046749b1926869516868");
    assert_eq!((first.number, kinds(&first)), (0, vec![1, 6, 18, 2, 25, 16, 19, 2, 25, 2, 25]));
    assert!(first.listing.contains(&format!("06 {:08x} ", 1231488000)));
    // j:and_v(vdv:after(1567547623),older(2016))
    let second = ask(0, "829263766304e7e06e5db169686902e007b268");
    assert_eq!((second.number, kinds(&second)), (0, vec![7, 6, 16, 15, 16, 19, 17]));
}

#[test]
fn lines_and_kinds() {
    for (line, number) in [("", 23), ("0", 23), ("0g", 23), ("0051 ", 23), ("0251", 20), ("ff", 20), ("00", 9), ("0151", 0)] {
        assert_eq!(judge_line(line.as_bytes()).number, number, "{line}");
    }
}

/// Keys by form, as 01 has them: in segwit a 65-byte push is 11 too, which in the crate only a context check would refuse.
#[test]
fn keys() {
    for (kind, push, number) in [
        (0, format!("21{}", "02".repeat(33)), 0),
        (0, format!("21{}", "03".repeat(33)), 0),
        (0, format!("21{}", "04".repeat(33)), 11),
        (0, format!("20{}", "02".repeat(32)), 11),
        (0, format!("41{}", "04".repeat(65)), 11),
        (1, format!("21{}", "02".repeat(33)), 11),
        (1, format!("20{}", "00".repeat(32)), 0),
        (1, format!("41{}", "04".repeat(65)), 11),
    ] {
        assert_eq!(ask(kind, &format!("{push}ac")).number, number, "{kind} {push}");
        // A row's own keys: a length that the row takes is 11, any other token 10.
        let multi = ask(kind, &format!("51{push}51ae")).number;
        let multi_a = ask(kind, &format!("{push}ac519c")).number;
        let of_32 = push.starts_with("20");
        assert_eq!(multi, if of_32 { 10 } else { number }, "{kind} {push}");
        assert_eq!(multi_a, if of_32 { number } else { 10 }, "{kind} {push}");
    }
}

/// W-205's script: `cast_dupif` gives no unit in either kind.
#[test]
fn dupif_gives_no_unit() {
    for kind in [0, 1] {
        let answer = ask(kind, "766351696873645168");
        assert_eq!((answer.number, answer.reason), (14, 8));
    }
}
