//! Checks the references of Markdown files by label: `cargo run --example link_checker -- FILE..`
//!
//! It reports each reference, as `[text][label]` or `[label][]`, whose label has no definition, and each definition
//! that nothing refers to. The status is 1 if it reports any, and 2 if a file can't be read.

use first_pass::{Body, LineIndex, Node, Options, Tree};
use std::collections::HashSet;
use std::error::Error;
use std::io::{self, Write};
use std::path::PathBuf;
use std::process::ExitCode;
use std::{env, fs};

fn main() -> ExitCode {
    match run() {
        Ok(false) => ExitCode::SUCCESS,
        Ok(true) => ExitCode::FAILURE,
        Err(error) => {
            eprintln!("link_checker: {error}");
            ExitCode::from(2)
        }
    }
}

/// Checks each file, and returns whether anything was reported.
fn run() -> Result<bool, Box<dyn Error>> {
    let mut output = io::stdout().lock();
    let mut any = false;
    for file in env::args_os().skip(1).map(PathBuf::from) {
        let name = file.display();
        let text = fs::read_to_string(&file).map_err(|e| format!("{name}: {e}"))?;
        let document = first_pass::parse(&text, Options::GITHUB)?;
        let index = LineIndex::new(&text)?;
        for (offset, report) in check(document.tree())? {
            let place = index.line_column(offset).expect("a node is in the text");
            writeln!(output, "{name}:{}: {report}", place.line)?;
            any = true;
        }
    }
    Ok(any)
}

/// The reports on a text, each with the offset that it is about, in the order of the text.
fn check(tree: Tree<'_>) -> Result<Vec<(usize, String)>, first_pass::Error> {
    let definitions = tree.definitions();
    let mut reports = Vec::new();
    let mut used = HashSet::new();
    for block in tree.nodes().filter(|node| !node.is_token()) {
        for pair in pairs_in(block) {
            match definitions.get(&pair.label)? {
                Some(definition) => _ = used.insert(definition.range.start),
                None if pair.is_reference => {
                    reports.push((pair.start, format!("[{}] has no definition", pair.label)));
                }
                None => {}
            }
        }
    }
    for definition in definitions.iter() {
        if !used.contains(&definition.range.start) {
            let report = format!("nothing refers to [{}]", definition.label);
            reports.push((definition.range.start, report));
        }
    }
    reports.sort();
    Ok(reports)
}

/// Two brackets with a label between them.
struct Pair {
    start: usize,
    label: String,
    /// Whether it is a reference even if its label has no definition: it stands directly after another pair, and doesn't
    /// refer to a footnote.
    is_reference: bool,
}

/// The pairs of brackets of a block. Empty brackets have the label of the pair before them.
fn pairs_in(block: Node<'_>) -> Vec<Pair> {
    let tokens: Vec<Node> = block.children().filter(|node| node.is_token()).collect();
    let mut pairs: Vec<Pair> = Vec::new();
    let mut last_close = None;
    for bracket in brackets(&tokens).windows(2) {
        let (open, close) = (bracket[0], bracket[1]);
        if !is_open(tokens[open]) || !is_close(tokens[close]) {
            continue;
        }
        let mut label = label_of(&tokens[open + 1..close]);
        let before = open.checked_sub(1);
        let touches = |at: usize| tokens[at].range().end == tokens[open].range().start;
        let follows = tokens[open].slice() == "["
            && before.is_some_and(|at| is_close(tokens[at]) && touches(at));
        if label.is_empty() && follows && last_close == before {
            label = pairs.last().map_or(label, |pair| pair.label.clone());
        }
        pairs.push(Pair {
            start: tokens[open].range().start,
            is_reference: follows && !label.is_empty() && !label.starts_with('^'),
            label,
        });
        last_close = Some(close);
    }
    pairs
}

/// The places of the brackets that stand in no code span.
fn brackets(tokens: &[Node<'_>]) -> Vec<usize> {
    let mut places = Vec::new();
    let mut at = 0;
    while at < tokens.len() {
        if is_open(tokens[at]) || is_close(tokens[at]) {
            places.push(at);
        }
        at += code_span(&tokens[at..]).unwrap_or(1);
    }
    places
}

/// How many tokens the code span has that these tokens begin with.
fn code_span(tokens: &[Node<'_>]) -> Option<usize> {
    let Body::MaybeCode { count, escaped } = tokens[0].body() else {
        return None;
    };
    let wanted = count - usize::from(escaped);
    let closes =
        |node: &Node| matches!(node.body(), Body::MaybeCode { count, .. } if count == wanted);
    Some(tokens[1..].iter().position(closes)? + 2)
}

fn is_open(node: Node<'_>) -> bool {
    matches!(node.body(), Body::MaybeLinkOpen | Body::MaybeImage)
}

fn is_close(node: Node<'_>) -> bool {
    matches!(node.body(), Body::MaybeLinkClose { .. })
}

/// The label that tokens are: their bytes, with the backslashes that were dropped.
fn label_of(tokens: &[Node<'_>]) -> String {
    let part = |node: &Node<'_>| match node.body() {
        Body::SoftBreak | Body::HardBreak { by_backslash: false } => "\n".to_string(),
        Body::HardBreak { by_backslash: true } => "\\\n".to_string(),
        Body::Text { escaped: true } | Body::MaybeCode { escaped: true, .. } => {
            format!("\\{}", node.slice())
        }
        _ => node.slice().to_string(),
    };
    tokens.iter().map(part).collect()
}
