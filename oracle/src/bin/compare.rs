//! compare READER SEED COUNT TOKENS FRAGMENTS yes|no LONGEST: puts the plan's scripts to the crate's text and to the program READER
//! and holds the answers beside each other. README.md says what is compared; the script `compare` calls this with its settings.

use std::collections::BTreeMap;
use std::io::{BufRead, BufReader, BufWriter, IsTerminal, Write};
use std::process::{Command, ExitCode, Stdio};
use std::sync::mpsc;
use std::time::{Duration, Instant};

use oracle::generate::{starts, Case, Plan};
use oracle::{hex, judge, ours, with_room, Answer};

/// What a generator's scripts came to.
#[derive(Default)]
struct Count {
    accepted: u64,
    refused: u64,
    different: u64,
}

/// What the two sides said, where it isn't the same.
#[derive(Clone)]
struct Difference {
    crate_says: String,
    ours_says: String,
}

impl Difference {
    fn between(theirs: &Answer, answer: ours::Ours, encodes: bool) -> Option<Difference> {
        let wanted = (encodes && theirs.number == 0).then(|| hex(&theirs.encoded));
        if answer.listing.as_ref() == Ok(&theirs.listing) && answer.encoded == wanted {
            return None;
        }
        let said = |listing: &str, encoded: Option<String>| match encoded {
            Some(encoded) => format!("{listing}= {encoded}\n"),
            None => listing.to_string(),
        };
        let ours_says = match answer.listing {
            Ok(text) => said(&text, answer.encoded),
            Err(e) => format!("{e}\n"),
        };
        Some(Difference { crate_says: said(&theirs.listing, wanted), ours_says })
    }

    /// Of one sort are differences with the same number and reason on either side.
    fn sort(&self) -> (String, String) {
        let start = |said: &str| said.chars().take(5).collect();
        (start(&self.crate_says), start(&self.ours_says))
    }
}

/// Puts a few scripts to both sides. None where they agree or the reader has stopped answering.
fn ask(reader: &str, cases: &[Case], encodes: bool) -> Vec<Option<Difference>> {
    let spawned = Command::new("sh").args(["-c", reader]).stdin(Stdio::piped()).stdout(Stdio::piped()).spawn();
    let Ok(mut child) = spawned else { return vec![None; cases.len()] };
    let mut input = BufWriter::new(child.stdin.take().unwrap());
    let mut output = BufReader::new(child.stdout.take().unwrap());
    let found = std::thread::scope(|s| {
        s.spawn(move || cases.iter().try_for_each(|case| writeln!(input, "{:02x}{}", case.kind, hex(&case.script))));
        let mut running = true;
        let found = cases.iter().map(|case| {
            let answer = if running { ours::read(&mut output, case.kind, &case.script, encodes) } else { return None };
            running = answer.is_ok();
            Difference::between(&judge(case.kind, &case.script), answer.ok()?, encodes)
        });
        let found = found.collect();
        // Closed before the thread is waited for, in case the reader isn't done.
        drop(output);
        found
    });
    let _ = child.wait();
    found
}

/// The shortest script with a difference of the same sort that leaving out instructions leads to: runs of them first, then single ones.
fn shrunk(reader: &str, mut case: Case, mut difference: Difference, encodes: bool) -> (Case, Difference) {
    loop {
        let cuts = starts(&case.script);
        let count = cuts.len() - 1;
        let mut shorter = Vec::new();
        let mut run = count;
        // Long scripts lose long runs only, until they are short: else there would be too much to ask.
        while run > count / 128 {
            for first in (0..count).step_by(run) {
                let end = cuts[(first + run).min(count)];
                shorter.push(Case { script: [&case.script[..cuts[first]], &case.script[end..]].concat(), ..case.clone() });
            }
            run /= 2;
        }
        let answers = ask(reader, &shorter, encodes);
        let same_sort = |answer: &Option<Difference>| answer.as_ref().is_some_and(|other| other.sort() == difference.sort());
        let best = shorter.into_iter().zip(answers).filter(|(_, answer)| same_sort(answer)).min_by_key(|(other, _)| other.script.len());
        match best {
            Some((other, Some(answer))) => (case, difference) = (other, answer),
            _ => return (case, difference),
        }
    }
}

fn main() -> ExitCode {
    let args: Vec<String> = std::env::args().skip(1).collect();
    let number = |i: usize| args.get(i).and_then(|a| a.parse::<u64>().ok());
    let (Some(reader), Some(seed), Some(count), Some(tokens), Some(fragments), Some(encodes), Some(longest)) =
        (args.first(), number(1), number(2), number(3), number(4), args.get(5), number(6))
    else {
        eprintln!("compare READER SEED COUNT TOKENS FRAGMENTS yes|no LONGEST");
        return ExitCode::from(2);
    };
    let plan = Plan { seed, count, tokens: tokens as u32, fragments: fragments as u32 };
    with_room(|| run(reader, plan, encodes == "yes", longest as usize))
}

fn run(reader: &str, plan: Plan, encodes: bool, longest: usize) -> ExitCode {
    let total = plan.total();
    eprintln!("{total} scripts from seed {}; strings of up to {} tokens and {} fragments, {} random", plan.seed, plan.tokens, plan.fragments, plan.count);
    let mut child = match Command::new("sh").args(["-c", reader]).stdin(Stdio::piped()).stdout(Stdio::piped()).spawn() {
        Ok(child) => child,
        Err(e) => {
            eprintln!("{reader}: {e}");
            return ExitCode::from(2);
        }
    };
    let mut input = BufWriter::new(child.stdin.take().unwrap());
    let mut output = BufReader::with_capacity(1 << 16, child.stdout.take().unwrap());
    // Not bounded: the program may hold answers back until its own buffer is full, and must go on being fed meanwhile. The pipes
    // keep the two from running far apart.
    let (send, receive) = mpsc::channel::<Vec<Case>>();
    let feeder = std::thread::spawn(move || {
        let mut cases = plan.cases().filter(|case| case.script.len() <= longest);
        loop {
            let batch: Vec<Case> = cases.by_ref().take(64).collect();
            if batch.is_empty() || send.send(batch.clone()).is_err() {
                return;
            }
            for case in batch {
                // A program that stopped reading is told of where its answers end.
                if writeln!(input, "{:02x}{}", case.kind, hex(&case.script)).is_err() {
                    return;
                }
            }
        }
    });

    let start = Instant::now();
    let mut shown = Instant::now();
    let mut compared = 0u64;
    let mut different = 0u64;
    let mut by_generator: BTreeMap<&str, Count> = BTreeMap::new();
    let mut by_answer: BTreeMap<(u8, u8), u64> = BTreeMap::new();
    let mut by_kind = [0u64; 29];
    let mut longest_accepted = 0;
    let mut smallest: BTreeMap<(String, String), (Case, Difference)> = BTreeMap::new();
    let mut stopped = None;

    'all: for batch in receive {
        for case in batch {
            let theirs = judge(case.kind, &case.script);
            let answer = match ours::read(&mut output, case.kind, &case.script, encodes) {
                Ok(answer) => answer,
                Err(e) => {
                    stopped = Some(format!("{e}, at {:02x}{}", case.kind, hex(&case.script)));
                    break 'all;
                }
            };
            compared += 1;
            let count = by_generator.entry(case.generator).or_default();
            *by_answer.entry((theirs.number, theirs.reason)).or_default() += 1;
            if theirs.number == 0 {
                count.accepted += 1;
                longest_accepted = longest_accepted.max(case.script.len());
                (1..29).filter(|kind| theirs.kinds >> kind & 1 == 1).for_each(|kind| by_kind[kind] += 1);
            } else {
                count.refused += 1;
            }
            if let Some(difference) = Difference::between(&theirs, answer, encodes) {
                different += 1;
                count.different += 1;
                let sort = difference.sort();
                if smallest.get(&sort).is_none_or(|(other, _)| case.script.len() < other.script.len()) {
                    smallest.insert(sort, (case, difference));
                }
            }
            if compared % 256 == 0 && shown.elapsed() > Duration::from_secs(if std::io::stderr().is_terminal() { 1 } else { 20 }) {
                shown = Instant::now();
                let speed = compared as f64 / start.elapsed().as_secs_f64();
                eprintln!("{compared} of {total} compared, {different} different, {speed:.0} a second");
            }
        }
    }
    // An answer too many would mean that answers and lines had slipped against each other.
    if stopped.is_none() && !matches!(output.fill_buf(), Ok(rest) if rest.is_empty()) {
        stopped = Some("the program has more answers than there were lines".to_string());
    }
    // Closed first, so that neither the program nor the feeder waits for the other.
    drop(output);
    let _ = feeder.join();
    let ended = child.wait();

    println!("seed {}, {:.0} seconds", plan.seed, start.elapsed().as_secs_f64());
    println!("\n{:<12} {:>10} {:>10} {:>10}", "generator", "accepted", "refused", "different");
    for (name, count) in &by_generator {
        println!("{name:<12} {:>10} {:>10} {:>10}", count.accepted, count.refused, count.different);
    }
    println!("\n{:<12} {:>10}", "verdict", "scripts");
    for ((number, reason), scripts) in &by_answer {
        let name = match (number, reason) {
            (0, _) => "accepted".to_string(),
            (14, reason) => format!("14 reason {reason}"),
            (0xff, _) => "panic".to_string(),
            _ => number.to_string(),
        };
        println!("{name:<12} {scripts:>10}");
    }
    println!("\n{:<12} {:>10}", "kind", "accepted scripts that have it");
    for (kind, scripts) in by_kind.iter().enumerate().skip(1) {
        println!("{kind:<12} {scripts:>10}");
    }
    println!("\nlongest accepted script: {longest_accepted} bytes");
    for (case, difference) in smallest.into_values() {
        let (case, Difference { crate_says, ours_says }) = shrunk(reader, case, difference, encodes);
        println!("\ndifferent ({}): {:02x}{}\nthe crate's text says\n{crate_says}the reader says\n{ours_says}", case.generator, case.kind, hex(&case.script));
    }
    println!("\nencoder's bytes {}", if encodes { "compared too" } else { "not compared" });
    if stopped.is_none() && !matches!(&ended, Ok(status) if status.success()) {
        stopped = Some(format!("the reader's program ended with {ended:?}"));
    }
    if let Some(why) = stopped {
        println!("{compared} compared, {different} different, then stopped: {why}");
        return ExitCode::FAILURE;
    }
    println!("{compared} compared, {different} different");
    if different == 0 { ExitCode::SUCCESS } else { ExitCode::FAILURE }
}
