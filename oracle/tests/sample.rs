//! The stored list is the one that the command makes.

#[test]
fn the_stored_list_is_made_again() {
    let stored = std::fs::read_to_string(concat!(env!("CARGO_MANIFEST_DIR"), "/sample.txt")).unwrap();
    let made = oracle::with_room(oracle::sample::sample);
    assert!(stored == made, "sample.txt: {} lines stored, {} made", stored.lines().count(), made.lines().count());
    // Both verdicts, both kinds, and every kind of node.
    for start in ["> 00", "> 01", "00 00 ", "0e 03 ", "0a 00 ", "12 00 ", "13 00 "] {
        assert!(stored.lines().any(|line| line.starts_with(start)), "{start}");
    }
    for kind in (1..29).filter(|kind| *kind != 4) {
        let start = format!("{kind:02x} ");
        assert!(stored.lines().filter(|line| line.len() == 43 && line.starts_with(&start)).count() >= 20, "{kind}");
    }
}
