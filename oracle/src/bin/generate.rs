//! generate SEED COUNT [TOKENS [FRAGMENTS]]: writes the scripts of that plan, each as its generator's name, a space, and the line.

use std::io::{self, BufWriter, Write};

use oracle::generate::Plan;

fn main() -> io::Result<()> {
    let numbers: Option<Vec<u64>> = std::env::args().skip(1).map(|a| a.parse().ok()).collect();
    let plan = match numbers.as_deref() {
        Some(&[seed, count]) => Plan::new(seed, count),
        Some(&[seed, count, tokens]) => Plan { tokens: tokens as u32, ..Plan::new(seed, count) },
        Some(&[seed, count, tokens, fragments]) => Plan { seed, count, tokens: tokens as u32, fragments: fragments as u32 },
        _ => {
            eprintln!("generate SEED COUNT [TOKENS [FRAGMENTS]]");
            std::process::exit(2);
        }
    };
    let mut out = BufWriter::new(io::stdout().lock());
    for case in plan.cases() {
        writeln!(out, "{} {:02x}{}", case.generator, case.kind, oracle::hex(&case.script))?;
    }
    out.flush()
}
