//! The program byte_unit_lines over the Rust crate byte-unit: for each line of standard input, its size and its form
//! with a unit, or `rejected`.

use std::io::{self, BufRead, BufReader, BufWriter, Write};

use byte_unit::Byte;

/// The bytes that are read or written at a time.
const BUFFER: usize = 128 * 1024;

fn main() -> io::Result<()> {
    let mut reader = BufReader::with_capacity(BUFFER, io::stdin().lock());
    let mut writer = BufWriter::with_capacity(BUFFER, io::stdout().lock());
    let mut line = Vec::new();
    while reader.read_until(b'\n', &mut line)? > 0 {
        if line.last() == Some(&b'\n') {
            line.pop();
        }
        match std::str::from_utf8(&line).map(|text| Byte::parse_str(text, false)) {
            Ok(Ok(size)) => writeln!(writer, "{size} = {size:#}")?,
            _ => writeln!(writer, "rejected")?,
        }
        line.clear();
    }
    writer.flush()
}
