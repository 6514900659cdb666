//! 01's "Scripts to try at the counter", and each field of what a caller is told.

use phagdrulis::{
    encode_in, encoding_work, ffi, leaf_part, lex, read, read_in, room, Base, Input, Node, Refusal, Room, ScriptKind, Tables, TreeRef,
};

fn bytes(hex: &str) -> Vec<u8> {
    (0..hex.len()).step_by(2).map(|i| u8::from_str_radix(&hex[i..i + 2], 16).unwrap()).collect()
}

/// The kinds of the nodes in order of completion.
fn kinds(tree: TreeRef) -> Vec<u32> {
    tree.node_table().chunks(9).map(|node| node[0]).collect()
}

/// Scripts of kind 0 that are accepted: their kinds, and their steps where 01 gives them.
const ACCEPTED: &[(&str, &[u32], Option<usize>)] = &[
    ("51", &[1], Some(2)),
    ("516951", &[1, 1, 16, 19], Some(6)),
    ("5169516951", &[1, 1, 16, 1, 16, 19, 19], Some(12)),
    ("6351670068", &[2, 1, 25], Some(8)),
    ("005187", &[2, 26], Some(5)),
    ("7663516968", &[1, 16, 15], Some(8)),
    ("51b2", &[7], None),
];

/// Scripts of kind 0 that are refused: number, reason, place where 01 gives it.
const REFUSED: &[(&str, u32, u32, Option<usize>)] = &[
    ("", 9, 0, Some(0)),
    ("517c519b", 14, 3, Some(1)),
    ("005287", 13, 0, None),
    ("6351", 18, 0, None),
    ("8769", 7, 0, Some(1)),
    ("00b2", 12, 0, None),
    ("0105", 3, 0, Some(0)),
    ("0111", 10, 0, Some(0)),
    ("0180", 4, 0, Some(0)),
    ("0191", 5, 0, Some(0)),
    ("027f00", 4, 0, Some(0)),
    ("4c", 2, 0, Some(0)),
    ("4f", 6, 0, Some(0)),
    ("88", 9, 0, Some(0)),
];

#[test]
fn accepted() {
    for (hex, wanted, steps) in ACCEPTED {
        let script = bytes(hex);
        let tree = read(ScriptKind::Segwit, &script).unwrap_or_else(|e| panic!("{hex}: {e}"));
        assert_eq!(kinds(tree.view()), *wanted, "{hex}");
        assert_eq!(tree.parts().len(), wanted.len());
        assert_eq!(tree.encode().as_deref(), Ok(&script[..]), "{hex}");
        if let Some(steps) = steps {
            assert_eq!(tree.steps(), *steps, "{hex}");
        }
    }
}

#[test]
fn refused() {
    for (hex, number, reason, place) in REFUSED {
        let script = bytes(hex);
        let refusal = read(ScriptKind::Segwit, &script).expect_err(hex);
        assert_eq!((refusal.number, refusal.reason), (*number, *reason), "{hex}");
        if let Some(place) = place {
            assert_eq!(refusal.place, *place, "{hex}");
        }
        assert!(!refusal.is_for_room());
        let text = refusal.to_string();
        assert!(text.starts_with(&format!("refused with {number}")) && text.contains(refusal.words()), "{text}");
    }
    assert_eq!(read(ScriptKind::Tapscript, &[0x51; 10_001]).unwrap_err().number, 1);
    assert_eq!(room(&[0x51; 10_001]).unwrap_err().number, 1);
}

/// With 01's ample sizes and with those of `room`, and whatever the tables held, the answer is the same.
#[test]
fn lent_tables() {
    for hex in ACCEPTED.iter().map(|a| a.0).chain(REFUSED.iter().map(|r| r.0)) {
        let script = bytes(hex);
        let ample = Room::for_bytes(script.len());
        let answer = |room: &Room, junk: u32| {
            let (mut tokens, mut nodes) = (vec![junk; 3 * room.tokens], vec![junk; 9 * room.nodes]);
            let (mut keys, mut work) = (vec![junk; room.keys], vec![junk as u64; room.work]);
            let a = ffi::read(0, &script, &mut tokens, &mut nodes, &mut keys, &mut work);
            assert!(work.iter().all(|w| *w == 0));
            let front = |table: &[u32], used: usize| {
                assert!(table[used..].iter().all(|n| *n == 0));
                table[..used].to_vec()
            };
            let used = if a.number == 0 { 3 * a.tokens } else { 0 };
            (a, front(&tokens, used), front(&nodes, 9 * a.nodes), front(&keys, a.keys))
        };
        assert_eq!(answer(&ample, 0), answer(&ample, u32::MAX), "{hex}");
        if let Ok(room) = room(&script) {
            assert_eq!(answer(&ample, 7), answer(&room, 9), "{hex}");
            let (a, ..) = answer(&ample, 0);
            let (mut tokens, mut nodes) = (vec![1; 3 * ample.tokens], vec![1; 9 * ample.nodes]);
            let (mut keys, mut work) = (vec![1; ample.keys], vec![1; ample.work]);
            let lent = Tables { tokens: &mut tokens, nodes: &mut nodes, keys: &mut keys, work: &mut work };
            match read_in(ScriptKind::Segwit, &script, lent.fitted(&room)) {
                Ok(tree) => assert_eq!((a.number, a.nodes, a.tokens), (0, tree.node_count(), tree.token_count())),
                Err(e) => assert_eq!((a.number, a.reason, a.place, a.tokens, a.steps), (e.number, e.reason, e.place, e.tokens, e.steps)),
            }
        }
    }
}

#[test]
fn small_tables_are_refused() {
    let script = [0x51, 0x69, 0x51];
    let number = |tokens: usize, nodes: usize, work: usize| {
        let (mut tokens, mut nodes, mut work) = (vec![1; tokens], vec![1; nodes], vec![1; work]);
        let lent = Tables { tokens: &mut tokens, nodes: &mut nodes, keys: &mut [], work: &mut work };
        let refusal = read_in(ScriptKind::Segwit, &script, lent).err();
        refusal.map(|r| (r.number, r.is_for_room()))
    };
    assert_eq!(number(9, 36, 4), None);
    assert_eq!(number(8, 36, 4), Some((8, true)));
    assert_eq!(number(9, 35, 4), Some((15, true)));
    assert_eq!(number(9, 36, 1), Some((17, true)));
    assert_eq!(number(0, 0, 0), Some((8, true)));
}

/// Every kind of node, and the parts in BIP 379's order.
#[test]
fn nodes_by_kind() {
    // and_or(pk, older(2), 0): X NOTIF Z ELSE Y ENDIF
    let mut script = vec![33];
    script.extend([2; 33]);
    script.extend([0xac, 0x64, 0x00, 0x67, 0x52, 0xb2, 0x68]);
    let tree = read(ScriptKind::Segwit, &script).unwrap();
    let Node::AndOr(x, y, z) = tree.root().node() else { panic!("{tree:?}") };
    assert!(matches!(x.node(), Node::Check(key) if matches!(key.node(), Node::PkK(bytes) if bytes == [2; 33])));
    assert!(matches!(y.node(), Node::Older(2)));
    assert!(matches!(z.node(), Node::False));
    assert_eq!(tree.root().children().map(|c| c.size()).collect::<Vec<_>>(), [2, 1, 1]);

    // multi_a(2, two keys) in tapscript, and its keys in the script's order
    let mut script = vec![32];
    script.extend([7; 32]);
    script.extend([0xac, 32]);
    script.extend([8; 32]);
    script.extend([0xba, 0x52, 0x9c]);
    let tree = read(ScriptKind::Tapscript, &script).unwrap();
    let Node::MultiA(2, keys) = tree.root().node() else { panic!("{tree:?}") };
    assert_eq!(keys.len(), 2);
    assert_eq!(keys.collect::<Vec<_>>(), [[7; 32], [8; 32]]);
    assert_eq!(tree.keys().count(), 2);

    // a hash lock and a key hash
    let mut script = vec![0x82, 0x01, 0x20, 0x88, 0xa8, 32];
    script.extend([9; 32]);
    script.push(0x87);
    let tree = read(ScriptKind::Segwit, &script).unwrap();
    assert!(matches!(tree.root().node(), Node::Sha256(hash) if hash == [9; 32]));
    let mut script = vec![0x76, 0xa9, 20];
    script.extend([4; 20]);
    script.extend([0x88, 0xac]);
    let tree = read(ScriptKind::Segwit, &script).unwrap();
    let Node::Check(inner) = tree.root().node() else { panic!("{tree:?}") };
    assert!(matches!(inner.node(), Node::RawPkH(hash) if hash == [4; 20]));
    assert_eq!(tree.keys().count(), 0);

    // thresh: its parts in the script's order
    let script = bytes("005187");
    let tree = read(ScriptKind::Segwit, &script).unwrap();
    let Node::Thresh(1, parts) = tree.root().node() else { panic!("{tree:?}") };
    assert_eq!(parts.len(), 1);
    assert_eq!(format!("{tree:?}"), "Thresh(1, [False])");
}

#[test]
fn types() {
    let script = bytes("7663516968");
    let tree = read(ScriptKind::Segwit, &script).unwrap();
    let ty = tree.root().ty();
    assert_eq!((ty.base, ty.input, ty.dissatisfiable, ty.unit), (Base::B, Input::OneNonZero, true, false));
}

/// The same tree, whatever the offsets: NUMEQUALVERIFY and NUMEQUAL VERIFY have one tree and two scripts.
#[test]
fn same_tree() {
    let script = |close: &[u8]| {
        let mut script = vec![32];
        script.extend([7; 32]);
        script.extend([0xac, 0x51]);
        script.extend(close);
        script.push(0x51);
        script
    };
    let (one, two) = (script(&[0x9d]), script(&[0x9c, 0x69]));
    let (one, two) = (read(ScriptKind::Tapscript, &one).unwrap(), read(ScriptKind::Tapscript, &two).unwrap());
    assert_eq!(one, two);
    // Of the two the first is what encoding gives.
    assert_eq!(one.encode().as_deref(), Ok(one.script()));
    assert_eq!(two.encode().as_deref(), Ok(one.script()));
    let other = bytes("516951");
    let shorter = bytes("51");
    assert_ne!(read(ScriptKind::Segwit, &other).unwrap(), read(ScriptKind::Segwit, &shorter).unwrap());
}

/// Encoding over lent tables: just enough, more, too little; and tables that are no tree.
#[test]
fn encoding() {
    let script = bytes("6351670068");
    let tree = read(ScriptKind::Segwit, &script).unwrap();
    let encoded = |nodes: &[u32], work: usize, out: usize| {
        let (mut work, mut out) = (vec![7; work], vec![0xee; out]);
        let answer = encode_in(ScriptKind::Segwit, nodes, &[], &script, &mut work, &mut out).map(<[u8]>::to_vec);
        assert!(work.iter().all(|entry| *entry == 0));
        let written = answer.as_ref().map_or(0, |bytes| bytes.len());
        assert!(out[written..].iter().all(|byte| *byte == 0xee));
        answer.map_err(|e| (e.number, e.reason, e.is_for_room()))
    };
    let nodes = tree.view().node_table().to_vec();
    let work = encoding_work(tree.node_count());
    assert_eq!(encoded(&nodes, work, 5).as_ref(), Ok(&script));
    assert_eq!(encoded(&nodes, work + 1, 9).as_ref(), Ok(&script));
    assert_eq!(encoded(&nodes, work, 4), Err((22, 0, true)));
    assert_eq!(encoded(&nodes, work - 1, 4), Err((17, 0, true)));
    assert_eq!(encoded(&[], work, 5), Err((21, 0, false)));
    assert_eq!(encoded(&nodes[..18], work, 5), Err((21, 0, false)));
    assert_eq!(encoded(&nodes[..26], work, 5), Err((21, 0, false)));
    let with = |at: usize, number: u32| {
        let mut nodes = nodes.clone();
        nodes[at] = number;
        encoded(&nodes, work, 5)
    };
    assert_eq!(with(18, 4), Err((21, 0, false)));
    assert_eq!(with(18 + 4, 2), Err((21, 0, false)));
    assert_eq!(with(18 + 8, 0), Err((14, 13, false)));
    let refusal = Refusal { number: 22, reason: 0, place: 0, tokens: 0, steps: 0 };
    assert_eq!(refusal.to_string(), "refused with 22 at byte 0: the script has more bytes than the output holds");
}

/// A leaf's bytes are the script's own, not a copy.
#[test]
fn leaves() {
    let mut script = vec![33];
    script.extend([2; 33]);
    script.push(0xac);
    let tree = read(ScriptKind::Segwit, &script).unwrap();
    assert!(core::ptr::eq(tree.keys().next().unwrap(), &script[1..34]));
    assert!(core::ptr::eq(leaf_part(ScriptKind::Segwit, &script, 3, 1), &script[1..34]));
    assert_eq!(leaf_part(ScriptKind::Segwit, &script, 8, 3), &script[3..35]);
    assert!(leaf_part(ScriptKind::Segwit, &script, 8, 4).is_empty());
    assert!(leaf_part(ScriptKind::Segwit, &script, 10, u32::MAX).is_empty());
    assert!(leaf_part(ScriptKind::Segwit, &script, 27, 1).is_empty());
    assert_eq!(ffi::leaf_part(2, &script, 3, 1), ffi::Part { start: 0, bytes: 0 });
}

#[test]
fn tokens() {
    let mut table = [1; 12];
    let tokens: Vec<_> = lex(&[0x51, 0x88, 0x52], &mut table).unwrap().map(|t| (t.number, t.place)).collect();
    assert_eq!(tokens, [(1, 0), (0, 1), (0, 1), (2, 2)]);
    assert_eq!(lex(&[0x51, 0x88], &mut [0; 8]).err().map(|r| (r.number, r.place)), Some((8, 1)));
}

#[test]
fn as_an_error() {
    fn fails() -> Result<(), Box<dyn std::error::Error>> {
        read(ScriptKind::try_from(0)?, &[])?;
        Ok(())
    }
    assert!(fails().unwrap_err().downcast_ref::<Refusal>().is_some());
}
