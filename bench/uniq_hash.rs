//! Each line of standard input the first time it comes, by a HashSet: what far_uniq is measured beside. `rustc -O uniq_hash.rs`
use std::collections::HashSet;
use std::io::{self, BufRead, BufReader, BufWriter, Write};

fn main() -> io::Result<()> {
    let mut input = BufReader::with_capacity(65_536, io::stdin().lock());
    let mut output = BufWriter::with_capacity(65_536, io::stdout().lock());
    let mut seen: HashSet<Box<[u8]>> = HashSet::new();
    let mut line = Vec::new();
    while input.read_until(b'\n', &mut line)? > 0 {
        if line.last() == Some(&b'\n') {
            line.pop();
        }
        if !seen.contains(line.as_slice()) {
            output.write_all(&line)?;
            output.write_all(b"\n")?;
            seen.insert(line.as_slice().into());
        }
        line.clear();
    }
    output.flush()
}
