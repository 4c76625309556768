//! Answers the line protocol of `replay` by the Rust under comparison: `ok ..`, `no` (its errors
//! have no numbers), `panic`, or `bad line` where the line is no request. With the argument
//! `--texts` a `no` is followed by the Rust's error text. A frame that `scan` refuses always has its
//! text, in braces, or `panic`.

mod operations;
mod scan;
mod text;

// The Rust under comparison, put here by oracle/build.
#[allow(dead_code)]
mod assemble;
#[allow(dead_code)]
mod bitio;
#[allow(dead_code)]
mod container;
#[allow(dead_code)]
mod frame_header;
#[allow(dead_code)]
mod ivf;
#[allow(dead_code)]
mod obu;
#[allow(dead_code)]
mod seq_header;
#[allow(dead_code)]
mod uheader;

use std::io::{self, BufRead, BufReader, BufWriter, Write};
use std::panic;

/// The longest line of the protocol, in characters.
const LINE_LIMIT: usize = 65_536;

fn main() -> io::Result<()> {
    panic::set_hook(Box::new(|_| {}));
    let texts = std::env::args().any(|arg| arg == "--texts");
    let mut input = BufReader::with_capacity(1 << 20, io::stdin());
    let mut output = BufWriter::with_capacity(1 << 20, io::stdout());
    let mut line = Vec::new();
    while input.read_until(b'\n', &mut line)? > 0 {
        if line.last() == Some(&b'\n') {
            line.pop();
        }
        writeln!(output, "{}", answer(&line, texts))?;
        line.clear();
        // Whoever types by hand waits for the answer before the next line.
        if input.buffer().is_empty() {
            output.flush()?;
        }
    }
    output.flush()
}

fn answer(line: &[u8], texts: bool) -> String {
    if line.len() > LINE_LIMIT {
        return "bad line".into();
    }
    let Ok(line) = std::str::from_utf8(line) else {
        return "bad line".into();
    };
    let words: Vec<&str> = line.split(' ').collect();
    match panic::catch_unwind(|| operations::perform(words[0], &words[1..])) {
        Err(_) => "panic".into(),
        Ok(None) => "bad line".into(),
        Ok(Some(Err(error))) if texts => format!("no {error:#}"),
        Ok(Some(Err(_))) => "no".into(),
        Ok(Some(Ok(values))) if values.is_empty() => "ok".into(),
        Ok(Some(Ok(values))) => format!("ok {values}"),
    }
}
