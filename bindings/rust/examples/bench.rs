//! Measures `Parser::parse_with`: `cargo run --release --example bench -- FILE [RUNS [OPTIONS]]`
//!
//! Prints the least time of RUNS runs (20), first for the file, then for its paragraphs as documents of their own.
//! OPTIONS are the decimal bits, all options if left out.

use first_pass::{Options, Parser};
use std::error::Error;
use std::num::NonZeroUsize;
use std::process::ExitCode;
use std::time::{Duration, Instant};
use std::{env, fs};

fn main() -> ExitCode {
    match run() {
        Ok(()) => ExitCode::SUCCESS,
        Err(error) => {
            eprintln!("bench: {error}");
            ExitCode::from(2)
        }
    }
}

fn run() -> Result<(), Box<dyn Error>> {
    let words: Vec<String> = env::args().skip(1).collect();
    let file = words.first().ok_or("usage: bench FILE [RUNS [OPTIONS]]")?;
    let runs: NonZeroUsize = words.get(1).map_or("20", String::as_str).parse()?;
    let bits = words.get(2).map_or(Ok(Options::all().bits()), |word| word.parse())?;
    let options = Options::from_bits(bits).ok_or("these are no options")?;
    let text = fs::read_to_string(file).map_err(|e| format!("{file}: {e}"))?;

    let (nodes, time) = best(runs, &[&text], options)?;
    println!("{} bytes, {nodes} nodes, best of {runs} runs: {}", text.len(), rate(&text, time));
    let small: Vec<&str> = text.split_inclusive("\n\n").collect();
    let (nodes, time) = best(runs, &small, options)?;
    let each = time.as_secs_f64() * 1e6 / small.len().max(1) as f64;
    println!(
        "{} documents, {nodes} nodes, best of {runs} runs: {}, {each:.3} µs a document",
        small.len(),
        rate(&text, time)
    );
    Ok(())
}

/// The number of nodes of all texts, and the least time in which their trees are made.
fn best(
    runs: NonZeroUsize,
    texts: &[&str],
    options: Options,
) -> Result<(usize, Duration), first_pass::Error> {
    let mut parser = Parser::new();
    let mut least = (0, Duration::MAX);
    for _ in 0..runs.get() {
        let start = Instant::now();
        let mut nodes = 0;
        for text in texts {
            nodes += parser.parse_with(text, options, |tree| tree.node_count())?;
        }
        least = (nodes, least.1.min(start.elapsed()));
    }
    Ok(least)
}

fn rate(text: &str, time: Duration) -> String {
    let seconds = time.as_secs_f64();
    format!("{:.3} ms, {:.1} MB/s", seconds * 1e3, text.len() as f64 / 1e6 / seconds)
}
