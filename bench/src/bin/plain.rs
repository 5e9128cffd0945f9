//! The program of document 01 in plain Rust, by scans or as fast as was found, for its lines a second.

use std::env;
use std::io::{self, BufWriter, Write};

fn main() -> io::Result<()> {
    let slot = match env::args().nth(1).as_deref() {
        Some("scans") => bench::scans::slot,
        Some("ranked") => bench::ranked::slot,
        _ => panic!("usage: plain scans, or plain ranked"),
    };
    let mut out = BufWriter::new(io::stdout().lock());
    bench::text::run(slot, io::stdin().lock(), &mut out)?;
    out.flush()
}
