//! The checker's own program: the lines of the paper's `quay` in, its lines out.
//!
//!     cargo run --release --bin lines < stream
//!
//! It is the yardstick of the throughput benchmark: `quick`'s flat state, input
//! read in chunks, output buffered, nothing else. Exit status 1 if the input
//! cannot be read or the output cannot be written.

use checker::quick::Lines;
use std::io::{self, BufWriter, Read, Write};
use std::process::ExitCode;

const CHUNK: usize = 64 * 1_024;

fn main() -> ExitCode {
    match answer(io::stdin().lock(), io::stdout().lock()) {
        Ok(()) => ExitCode::SUCCESS,
        Err(error) => {
            eprintln!("lines: {error}");
            ExitCode::FAILURE
        }
    }
}

/// Answers every line. What a chunk's lines answer is written out before the
/// next chunk is waited for.
fn answer(mut input: impl Read, output: impl Write) -> io::Result<()> {
    let mut output = BufWriter::with_capacity(CHUNK, output);
    let mut lines = Lines::default();
    let mut chunk = vec![0; CHUNK];
    loop {
        let length = input.read(&mut chunk)?;
        if length == 0 {
            break;
        }
        lines.feed(&chunk[..length], &mut output)?;
        output.flush()?;
    }
    lines.end(&mut output)?;
    output.flush()
}
