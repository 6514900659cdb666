//! The proved reader beside the crate's own text: five groups of scripts, time against length, and counts for callgrind.
//!
//!     bench groups [PASSES]     the five groups, 10,000 scripts each: best and median of many passes, and ratios
//!     bench lengths [PASSES]    time against length
//!     bench one SIDE GROUP      one pass over 1,000 scripts of a group, for callgrind (bench/run says how)
//!
//! What is timed, for each script: ours is `room`, then `read` over tables of just the sizes that it answers, which `read` clears itself;
//! beside it `read` alone over 01's ample sizes by bytes; the crate's is lexing, decoding and the release of the tree. The sides take
//! turns, fifty scripts at a time, so that whatever else the computer does falls on all of them.

mod scripts;

use std::hint::black_box;
use std::time::Instant;

use miniscript::miniscript::context::{Segwitv0, Tap};
use phagdrulis::{ffi, Room, LONGEST_SCRIPT, NODE_NUMBERS, TOKEN_NUMBERS};
use scripts::{group, Case, GROUPS, SHAPES};

/// Tables for the longest script, lent in parts.
struct Held {
    tokens: Vec<u32>,
    nodes: Vec<u32>,
    keys: Vec<u32>,
    work: Vec<u64>,
}

impl Held {
    fn new() -> Held {
        let room = Room::for_bytes(LONGEST_SCRIPT);
        Held {
            tokens: vec![0; TOKEN_NUMBERS * room.tokens],
            nodes: vec![0; NODE_NUMBERS * room.nodes],
            keys: vec![0; room.keys],
            work: vec![0; room.work],
        }
    }

    fn read(&mut self, case: &Case, tokens: usize, nodes: usize, keys: usize, work: usize) -> u32 {
        let a = ffi::read(
            case.kind,
            &case.script,
            &mut self.tokens[..TOKEN_NUMBERS * tokens],
            &mut self.nodes[..NODE_NUMBERS * nodes],
            &mut self.keys[..keys],
            &mut self.work[..work],
        );
        black_box(&a).number
    }
}

/// `room`, then `read` in just that room. Answers how many were accepted, as the other sides do.
#[no_mangle]
#[inline(never)]
pub extern "C" fn bench_ours(held: *mut std::ffi::c_void, cases: &Cases) -> usize {
    // SAFETY: `run` hands over its own tables.
    let held = unsafe { &mut *(held as *mut Held) };
    let mut accepted = 0;
    for case in cases.0 {
        let room = ffi::room(&case.script);
        let number = match room.number {
            0 => held.read(case, room.tokens, room.nodes, room.keys, room.work),
            number => number,
        };
        accepted += (number == 0) as usize;
    }
    accepted
}

/// `read` over 01's ample sizes.
#[no_mangle]
#[inline(never)]
pub extern "C" fn bench_ample(held: *mut std::ffi::c_void, cases: &Cases) -> usize {
    // SAFETY: `run` hands over its own tables.
    let held = unsafe { &mut *(held as *mut Held) };
    let mut accepted = 0;
    for case in cases.0 {
        let room = Room::for_bytes(case.script.len());
        accepted += (held.read(case, room.tokens, room.nodes, room.keys, room.work) == 0) as usize;
    }
    accepted
}

/// The crate's text.
#[no_mangle]
#[inline(never)]
pub extern "C" fn bench_crate(_: *mut std::ffi::c_void, cases: &Cases) -> usize {
    let mut accepted = 0;
    for case in cases.0 {
        accepted += match case.kind {
            0 => black_box(&miniscript::miniscript::read::<Segwitv0>(&case.script)).1.is_ok(),
            _ => black_box(&miniscript::miniscript::read::<Tap>(&case.script)).1.is_ok(),
        } as usize;
    }
    accepted
}

/// The scripts of a pass.
pub struct Cases<'a>(&'a [Case]);

type Side = extern "C" fn(*mut std::ffi::c_void, &Cases) -> usize;
const SIDES: [(&str, Side); 3] = [("ours", bench_ours), ("ample", bench_ample), ("crate", bench_crate)];

/// How many scripts of a group are timed at a time. A slice is over in some microseconds, so that most slices are not broken into by
/// whatever else the computer does.
const SLICE: usize = 50;

/// Best and median of the passes, slice by slice, in nanoseconds a script, for each side. All sides must accept the same.
fn run(held: &mut Held, cases: &[Case], slice: usize, passes: usize) -> ([(f64, f64); 3], usize) {
    let slices: Vec<Cases> = cases.chunks(slice).map(Cases).collect();
    let mut times = vec![[(); 3].map(|_| Vec::with_capacity(passes)); slices.len()];
    let mut accepted = 0;
    for pass in 0..passes {
        for (slice, times) in slices.iter().zip(&mut times) {
            let mut found = [0; 3];
            for turn in 0..3 {
                // Another side begins in each pass.
                let side = (turn + pass) % 3;
                let start = Instant::now();
                found[side] = black_box((SIDES[side].1)(held as *mut Held as *mut std::ffi::c_void, black_box(slice)));
                times[side].push(start.elapsed().as_nanos() as f64);
            }
            assert!(found[0] == found[1] && found[1] == found[2], "the sides don't accept the same");
            accepted += if pass == 0 { found[0] } else { 0 };
        }
    }
    let mut told = [(0.0, 0.0); 3];
    for slice in &mut times {
        for (told, t) in told.iter_mut().zip(slice) {
            t.sort_by(f64::total_cmp);
            told.0 += t[0] / cases.len() as f64;
            told.1 += t[t.len() / 2] / cases.len() as f64;
        }
    }
    (told, accepted)
}

fn groups(passes: usize) {
    let mut held = Held::new();
    println!("Nanoseconds a script, best and median of {passes} passes over 10,000 scripts, slice by slice of {SLICE}; ratios to the crate's time.\n");
    println!("| group | bytes | accepted | ours | ample | crate | ours : crate, best | median | ample : crate, best | median |");
    println!("|---|---|---|---|---|---|---|---|---|---|");
    for (name, make) in GROUPS {
        let cases = group(make, 10_000);
        let bytes = cases.iter().map(|c| c.script.len()).sum::<usize>() as f64 / cases.len() as f64;
        let ([ours, ample, theirs], accepted) = run(&mut held, &cases, SLICE, passes);
        println!(
            "| {name} | {bytes:.0} | {accepted} | {:.0} {:.0} | {:.0} {:.0} | {:.0} {:.0} | {:.2} | {:.2} | {:.2} | {:.2} |",
            ours.0,
            ours.1,
            ample.0,
            ample.1,
            theirs.0,
            theirs.1,
            ours.0 / theirs.0,
            ours.1 / theirs.1,
            ample.0 / theirs.0,
            ample.1 / theirs.1
        );
    }
}

fn lengths(passes: usize) {
    let mut held = Held::new();
    println!("Nanoseconds a byte, best of {passes} passes: ours in the room that `room` answers, ours in 01's ample sizes, the crate's text.\n");
    println!("| shape | bytes | ours | ample | crate |");
    println!("|---|---|---|---|---|");
    for (name, make) in SHAPES {
        for length in [100, 200, 500, 1_000, 2_000, 5_000, 10_000] {
            // About 2,000 bytes in a slice, and one script at the least.
            let slice = 1 + 2_000 / length;
            let cases: Vec<Case> = (0..10 * slice).map(|_| make(length)).collect();
            let bytes = cases[0].script.len();
            let (told, _) = run(&mut held, &cases, slice, passes);
            let [ours, ample, theirs] = told.map(|t| t.0 / bytes as f64);
            println!("| {name} | {bytes} | {ours:.2} | {ample:.2} | {theirs:.2} |");
        }
    }
}

/// One pass over a few scripts.
fn one(side: &str, name: &str) {
    let mut held = Held::new();
    let make = GROUPS.iter().find(|g| g.0 == name).expect("a group's name").1;
    let side = SIDES.iter().find(|s| s.0 == side).expect("ours, ample or crate").1;
    let cases = group(make, 1_000);
    println!("{}", side(&mut held as *mut Held as *mut std::ffi::c_void, &Cases(&cases)));
}

fn main() {
    let args: Vec<String> = std::env::args().skip(1).collect();
    let passes = |default| args.get(1).and_then(|n| n.parse().ok()).unwrap_or(default);
    let work = || match args.first().map(String::as_str) {
        Some("groups") => groups(passes(101)),
        Some("lengths") => lengths(passes(101)),
        Some("one") if args.len() == 3 => one(&args[1], &args[2]),
        _ => {
            eprintln!("bench groups [PASSES] | lengths [PASSES] | one ours|ample|crate GROUP");
            std::process::exit(2);
        }
    };
    // The release of a deep tree of the crate's calls itself.
    std::thread::scope(|s| {
        std::thread::Builder::new().stack_size(1 << 30).spawn_scoped(s, work).expect("a thread with a large stack");
    });
}
