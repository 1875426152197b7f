//! Writes the trees of many texts as lines of JSON, the bytes that `first_pass tree` writes.
//!
//! Standard input has for each text a line `OPTIONS LENGTH`, both decimal, and then LENGTH bytes. Standard output gets
//! for each a line `STATUS LENGTH`, and then LENGTH bytes: the lines of the tree, none at a status other than 0. The
//! status is 1 out of memory, 2 not UTF-8, 3 bad options, 5 too long.

use first_pass::{
    Alignment, Alignments, Attributes, BlockQuoteKind, Body, Definition, Error, MetadataBlockKind,
    Node, Options, Parser, Tree,
};
use std::fmt::Write as _;
use std::io::{self, BufRead, Write};
use std::ops::Range;
use std::process::ExitCode;
use std::str;

fn main() -> ExitCode {
    match answer_all(io::stdin().lock(), io::BufWriter::new(io::stdout().lock())) {
        Ok(()) => ExitCode::SUCCESS,
        Err(error) => {
            eprintln!("tree_lines: {error}");
            ExitCode::from(2)
        }
    }
}

fn answer_all(mut input: impl BufRead, mut output: impl Write) -> io::Result<()> {
    let mut parser = Parser::new();
    while let Some((bits, text)) = read_request(&mut input)? {
        let (status, lines) = match lines_or_status(&mut parser, bits, &text) {
            Ok(lines) => (0, lines),
            Err(status) => (status, String::new()),
        };
        write!(output, "{status} {}\n{lines}", lines.len())?;
    }
    output.flush()
}

/// The bits and the text of the next request, `None` at the end.
fn read_request(input: &mut impl BufRead) -> io::Result<Option<(u32, Vec<u8>)>> {
    let mut line = String::new();
    if input.read_line(&mut line)? == 0 {
        return Ok(None);
    }
    let bad = || io::Error::new(io::ErrorKind::InvalidData, format!("no request: {line:?}"));
    let (bits, length) = line.trim_end().split_once(' ').ok_or_else(bad)?;
    let bits = bits.parse().map_err(|_| bad())?;
    let mut text = vec![0; length.parse().map_err(|_| bad())?];
    input.read_exact(&mut text)?;
    Ok(Some((bits, text)))
}

/// The lines of a text's tree, or a status.
fn lines_or_status(parser: &mut Parser, bits: u32, text: &[u8]) -> Result<String, u32> {
    let options = Options::from_bits(bits).ok_or(3u32)?;
    let text = str::from_utf8(text).map_err(|_| 2u32)?;
    parser.parse_with(text, options, lines_of).map_err(|error| match error {
        Error::TooLong => 5,
        _ => 1,
    })
}

fn lines_of(tree: &Tree<'_>) -> String {
    let mut lines = Lines(String::new());
    for node in tree.nodes() {
        lines.node(node);
    }
    for definition in tree.definitions().iter() {
        lines.definition(&definition);
    }
    for label in tree.footnotes() {
        lines.add("{\"footnote\":");
        lines.string(label);
        lines.add("}\n");
    }
    lines.0
}

/// Lines of JSON.
struct Lines(String);

impl Lines {
    fn add(&mut self, text: &str) {
        self.0.push_str(text);
    }

    fn node(&mut self, node: Node<'_>) {
        self.add("{\"kind\":");
        self.string(node.body().name());
        self.number("depth", node.depth());
        self.range(node.range());
        if node.is_token() {
            self.token(node.body());
        } else {
            self.block(node.body());
        }
        self.add("}\n");
    }

    fn block(&mut self, body: Body<'_>) {
        match body {
            Body::Heading { level, attributes } => {
                self.number("level", level.into());
                self.attributes(attributes);
            }
            Body::FencedCodeBlock { info } => self.text("info", info),
            Body::BlockQuote { quote } => self.text_or_null("quote", quote.map(quote_name)),
            Body::List { tight, byte, number } => {
                self.flag("tight", tight);
                self.text("byte", char::from(byte).encode_utf8(&mut [0; 4]));
                self.number("number", number as usize);
            }
            Body::ListItem { columns } | Body::DefinitionListDefinition { columns } => {
                self.number("columns", columns);
            }
            Body::FootnoteDefinition { label } => self.text("label", label),
            Body::MetadataBlock { metadata } => self.text("metadata", metadata_name(metadata)),
            Body::DefinitionList { tight } => self.flag("tight", tight),
            Body::Table { alignments } => self.alignments(alignments),
            _ => {}
        }
    }

    fn token(&mut self, body: Body<'_>) {
        match body {
            Body::Text { escaped } => self.flag("escaped", escaped),
            Body::HardBreak { by_backslash } => self.flag("by_backslash", by_backslash),
            Body::MaybeEmphasis { remaining, can_open, can_close } => {
                self.number("remaining", remaining);
                self.sides(can_open, can_close);
            }
            Body::MaybeMath { can_open, can_close, context } => {
                self.sides(can_open, can_close);
                self.number("context", context.into());
            }
            Body::MaybeSmartQuote { byte, can_open, can_close } => {
                self.text("byte", char::from(byte).encode_utf8(&mut [0; 4]));
                self.sides(can_open, can_close);
            }
            Body::MaybeCode { count, escaped } => {
                self.number("count", count);
                self.flag("escaped", escaped);
            }
            Body::MaybeLinkClose { active } => self.flag("active", active),
            Body::SynthesizeText { text } => self.text("text", text),
            Body::SynthesizeChar { character } => {
                self.text("text", character.encode_utf8(&mut [0; 4]));
            }
            Body::TaskListMarker { checked } => self.flag("checked", checked),
            _ => {}
        }
    }

    fn definition(&mut self, definition: &Definition<'_>) {
        self.add("{\"definition\":");
        self.string(definition.label);
        self.text("destination", definition.destination);
        self.text_or_null("title", definition.title);
        self.range(definition.range.clone());
        self.add("}\n");
    }

    fn attributes(&mut self, attributes: Attributes<'_>) {
        self.text_or_null("id", attributes.id());
        self.list("classes", attributes.classes(), Lines::string);
        self.list("attributes", attributes.pairs(), |lines, (key, value)| {
            lines.add("[");
            lines.string(key);
            lines.add(",");
            lines.string_or_null(value);
            lines.add("]");
        });
    }

    fn alignments(&mut self, alignments: Alignments<'_>) {
        self.list("alignments", alignments.iter(), |lines, alignment| {
            lines.string(match alignment {
                Alignment::None => "none",
                Alignment::Left => "left",
                Alignment::Center => "center",
                Alignment::Right => "right",
            });
        });
    }

    fn list<T>(
        &mut self,
        name: &str,
        items: impl Iterator<Item = T>,
        add_item: impl Fn(&mut Lines, T),
    ) {
        self.name(name);
        self.add("[");
        for (at, item) in items.enumerate() {
            self.add(if at == 0 { "" } else { "," });
            add_item(self, item);
        }
        self.add("]");
    }

    fn range(&mut self, range: Range<usize>) {
        self.number("start", range.start);
        self.number("end", range.end);
    }

    fn sides(&mut self, can_open: bool, can_close: bool) {
        self.flag("can_open", can_open);
        self.flag("can_close", can_close);
    }

    fn name(&mut self, name: &str) {
        write!(self.0, ",\"{name}\":").expect("a String takes all");
    }

    fn number(&mut self, name: &str, number: usize) {
        write!(self.0, ",\"{name}\":{number}").expect("a String takes all");
    }

    fn flag(&mut self, name: &str, flag: bool) {
        write!(self.0, ",\"{name}\":{flag}").expect("a String takes all");
    }

    fn text(&mut self, name: &str, text: &str) {
        self.name(name);
        self.string(text);
    }

    fn text_or_null(&mut self, name: &str, text: Option<&str>) {
        self.name(name);
        self.string_or_null(text);
    }

    fn string_or_null(&mut self, text: Option<&str>) {
        match text {
            Some(text) => self.string(text),
            None => self.add("null"),
        }
    }

    /// A string with the shortest escapes.
    fn string(&mut self, text: &str) {
        self.add("\"");
        for character in text.chars() {
            match character {
                '"' => self.add("\\\""),
                '\\' => self.add("\\\\"),
                '\x08' => self.add("\\b"),
                '\x0c' => self.add("\\f"),
                '\n' => self.add("\\n"),
                '\r' => self.add("\\r"),
                '\t' => self.add("\\t"),
                '\0'..='\x1f' => {
                    write!(self.0, "\\u{:04x}", character as u32).expect("a String takes all");
                }
                _ => self.0.push(character),
            }
        }
        self.add("\"");
    }
}

fn quote_name(kind: BlockQuoteKind) -> &'static str {
    match kind {
        BlockQuoteKind::Note => "Note",
        BlockQuoteKind::Tip => "Tip",
        BlockQuoteKind::Important => "Important",
        BlockQuoteKind::Warning => "Warning",
        BlockQuoteKind::Caution => "Caution",
    }
}

fn metadata_name(kind: MetadataBlockKind) -> &'static str {
    match kind {
        MetadataBlockKind::YamlStyle => "YamlStyle",
        MetadataBlockKind::PlusesStyle => "PlusesStyle",
    }
}
