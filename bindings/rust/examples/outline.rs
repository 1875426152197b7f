//! Prints the headings of Markdown files, each indented by its level: `cargo run --example outline -- FILE..`
//!
//! It reads what GitHub does, and the id of a heading as `# One {#one}` has it.

use first_pass::{Options, Parser, Tree};
use std::error::Error;
use std::io::{self, Write};
use std::path::PathBuf;
use std::process::ExitCode;
use std::{env, fs};

fn main() -> ExitCode {
    match run() {
        Ok(()) => ExitCode::SUCCESS,
        Err(error) => {
            eprintln!("outline: {error}");
            ExitCode::from(2)
        }
    }
}

fn run() -> Result<(), Box<dyn Error>> {
    let mut parser = Parser::new();
    for file in env::args_os().skip(1).map(PathBuf::from) {
        let text = fs::read_to_string(&file).map_err(|e| format!("{}: {e}", file.display()))?;
        let options = Options::GITHUB | Options::ENABLE_HEADING_ATTRIBUTES;
        let lines = parser.parse_with(&text, options, outline)?;
        io::stdout().write_all(lines.as_bytes())?;
    }
    Ok(())
}

/// A line for each heading: its text, and its id if it has one.
fn outline(tree: &Tree<'_>) -> String {
    let mut lines = String::new();
    for heading in tree.outline() {
        lines += &"  ".repeat(usize::from(heading.level) - 1);
        lines += &heading.text();
        if let Some(id) = heading.id {
            lines += &format!(" #{id}");
        }
        lines.push('\n');
    }
    lines
}
