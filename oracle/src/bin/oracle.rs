//! Reads lines of hexadecimal, kind byte first, and writes the oracle's listing for each. With `-v`, each listing stands below its
//! own line, for reading by eye.

use std::io::{self, BufRead, BufWriter, Write};

fn main() -> io::Result<()> {
    let shown = std::env::args().any(|a| a == "-v");
    oracle::with_room(|| {
        let mut out = BufWriter::new(io::stdout().lock());
        for line in io::stdin().lock().split(b'\n') {
            let line = line?;
            let answer = oracle::judge_line(&line);
            if shown {
                writeln!(out, "> {}", String::from_utf8_lossy(&line))?;
            }
            out.write_all(answer.listing.as_bytes())?;
            if answer.number == 0 {
                writeln!(out, "= {}", oracle::hex(&answer.encoded))?;
            }
        }
        out.flush()
    })
}
