//! What a node is.

use crate::records::{NodeRecord, Records};
use crate::{Alignments, Attributes};

/// What a node is: a block, or a token of possible inline markup. Names are those of the lines of JSON that
/// `first_pass tree` writes.
///
/// A later version may add kinds. A program takes a kind that it doesn't know as a plain node.
#[derive(Clone, Copy, Debug, PartialEq, Eq)]
#[non_exhaustive]
pub enum Body<'d> {
    /// The node around all others.
    Root,
    /// A paragraph.
    Paragraph,
    /// A paragraph directly in an item of a tight list, or in a definition of a tight definition list.
    TightParagraph,
    /// A thematic break.
    Rule,
    /// An ATX or setext heading.
    Heading {
        /// From 1 to 6.
        level: u8,
        /// What its attribute block says.
        attributes: Attributes<'d>,
    },
    /// A fenced code block. [`Node::code`](crate::Node::code) has its code.
    FencedCodeBlock {
        /// The info string, without escapes and references.
        info: &'d str,
    },
    /// An indented code block. [`Node::code`](crate::Node::code) has its code.
    IndentCodeBlock,
    /// An HTML block.
    HtmlBlock,
    /// A block quote.
    BlockQuote {
        /// The kind that a tag as `[!NOTE]` gives it.
        quote: Option<BlockQuoteKind>,
    },
    /// A list.
    List {
        /// Whether the list is tight.
        tight: bool,
        /// The byte of its markers: `-`, `+` or `*`, and for numbers `.` or `)`.
        byte: u8,
        /// The number of its first item, 0 for a bullet list.
        number: u64,
    },
    /// An item of a list.
    ListItem {
        /// The columns that a line needs to continue it.
        columns: usize,
    },
    /// The definition of a footnote.
    FootnoteDefinition {
        /// Its label.
        label: &'d str,
    },
    /// A metadata block.
    MetadataBlock {
        /// The marks that it stands between.
        metadata: MetadataBlockKind,
    },
    /// A definition list.
    DefinitionList {
        /// Whether the list is tight.
        tight: bool,
    },
    /// A paragraph that may become the title of a definition. No finished tree has one.
    MaybeDefinitionListTitle,
    /// The title of a definition.
    DefinitionListTitle,
    /// A definition in a definition list.
    DefinitionListDefinition {
        /// The columns that a line needs to continue it.
        columns: usize,
    },
    /// A table.
    Table {
        /// How each column is aligned.
        alignments: Alignments<'d>,
    },
    /// The head of a table: its cells.
    TableHead,
    /// A row of a table.
    TableRow,
    /// A cell of a table.
    TableCell,
    /// Text.
    Text {
        /// Whether its first byte stands after a backslash that was dropped.
        escaped: bool,
    },
    /// A soft line break.
    SoftBreak,
    /// A hard line break.
    HardBreak {
        /// Whether a backslash makes it, and not white space.
        by_backslash: bool,
    },
    /// A delimiter of a delimiter run.
    MaybeEmphasis {
        /// How many delimiters of the run are left, this one counted.
        remaining: usize,
        /// Whether the run can open emphasis.
        can_open: bool,
        /// Whether the run can close emphasis.
        can_close: bool,
    },
    /// A dollar sign.
    MaybeMath {
        /// Whether it can open mathematics.
        can_open: bool,
        /// Whether it can close mathematics.
        can_close: bool,
        /// Its brace context.
        context: u8,
    },
    /// A quotation mark.
    MaybeSmartQuote {
        /// `'` or `"`.
        byte: u8,
        /// Whether it can open a quotation.
        can_open: bool,
        /// Whether it can close a quotation.
        can_close: bool,
    },
    /// Backquotes.
    MaybeCode {
        /// How many backquotes there are.
        count: usize,
        /// Whether a backslash stands before them.
        escaped: bool,
    },
    /// A `<`.
    MaybeHtml,
    /// A `[`.
    MaybeLinkOpen,
    /// A `]`.
    MaybeLinkClose {
        /// Whether it may close a link: `true` in every tree of this version.
        active: bool,
    },
    /// A `![`.
    MaybeImage,
    /// Bytes of an HTML block.
    Html,
    /// A text that stands for the bytes.
    SynthesizeText {
        /// The text.
        text: &'d str,
    },
    /// A character that stands for the bytes.
    SynthesizeChar {
        /// The character.
        character: char,
    },
    /// The marker of a task list item.
    TaskListMarker {
        /// Whether the task is done.
        checked: bool,
    },
    /// A node of a kind that this version doesn't know.
    Unknown {
        /// The number of the kind.
        kind: u8,
    },
}

/// The kind that a tag gives a block quote.
#[derive(Clone, Copy, Debug, PartialEq, Eq, Hash)]
pub enum BlockQuoteKind {
    /// `[!NOTE]`
    Note,
    /// `[!TIP]`
    Tip,
    /// `[!IMPORTANT]`
    Important,
    /// `[!WARNING]`
    Warning,
    /// `[!CAUTION]`
    Caution,
}

/// The marks that a metadata block stands between.
#[derive(Clone, Copy, Debug, PartialEq, Eq, Hash)]
pub enum MetadataBlockKind {
    /// Lines of `---`.
    YamlStyle,
    /// Lines of `+++`.
    PlusesStyle,
}

/// The kinds that are tokens.
const TOKENS: std::ops::RangeInclusive<u8> = 21..=35;

impl<'d> Body<'d> {
    pub(crate) fn is_token_kind(kind: u8) -> bool {
        TOKENS.contains(&kind)
    }

    pub(crate) fn new(record: &NodeRecord, records: &'d Records) -> Body<'d> {
        if Body::is_token_kind(record.kind) {
            Body::token(record, records)
        } else {
            Body::block(record, records)
        }
    }

    fn block(record: &NodeRecord, records: &'d Records) -> Body<'d> {
        match record.kind {
            0 => Body::Root,
            1 => Body::Paragraph,
            2 => Body::TightParagraph,
            3 => Body::Rule,
            4 => {
                Body::Heading { level: record.first, attributes: Attributes::new(record, records) }
            }
            5 => Body::FencedCodeBlock { info: string_of(record, records) },
            6 => Body::IndentCodeBlock,
            7 => Body::HtmlBlock,
            8 => Body::BlockQuote { quote: quote_kind(record.first) },
            9 => Body::List {
                tight: is_tight(record),
                byte: record.second,
                number: record.number.into(),
            },
            10 => Body::ListItem { columns: record.number as usize },
            11 => Body::FootnoteDefinition { label: string_of(record, records) },
            12 => Body::MetadataBlock { metadata: metadata_kind(record.first) },
            13 => Body::DefinitionList { tight: is_tight(record) },
            14 => Body::MaybeDefinitionListTitle,
            15 => Body::DefinitionListTitle,
            16 => Body::DefinitionListDefinition { columns: record.number as usize },
            17 => Body::Table { alignments: Alignments::new(record, records) },
            18 => Body::TableHead,
            19 => Body::TableRow,
            20 => Body::TableCell,
            kind => Body::Unknown { kind },
        }
    }

    fn token(record: &NodeRecord, records: &'d Records) -> Body<'d> {
        let (first, second) = (record.first != 0, record.second != 0);
        match record.kind {
            21 => Body::Text { escaped: first },
            22 => Body::SoftBreak,
            23 => Body::HardBreak { by_backslash: first },
            24 => Body::MaybeEmphasis {
                remaining: record.number as usize,
                can_open: first,
                can_close: second,
            },
            25 => {
                Body::MaybeMath { can_open: first, can_close: second, context: record.number as u8 }
            }
            26 => Body::MaybeSmartQuote {
                byte: record.second,
                can_open: first,
                can_close: record.third != 0,
            },
            27 => Body::MaybeCode { count: record.number as usize, escaped: first },
            28 => Body::MaybeHtml,
            29 => Body::MaybeLinkOpen,
            30 => Body::MaybeLinkClose { active: first },
            31 => Body::MaybeImage,
            32 => Body::Html,
            33 => Body::SynthesizeText { text: string_of(record, records) },
            34 => Body::SynthesizeChar { character: character(record.number) },
            35 => Body::TaskListMarker { checked: first },
            kind => Body::Unknown { kind },
        }
    }

    /// The name of the kind, as `Heading`, and `?` of a kind that this version doesn't know.
    pub fn name(&self) -> &'static str {
        match self {
            Body::Root => "Root",
            Body::Paragraph => "Paragraph",
            Body::TightParagraph => "TightParagraph",
            Body::Rule => "Rule",
            Body::Heading { .. } => "Heading",
            Body::FencedCodeBlock { .. } => "FencedCodeBlock",
            Body::IndentCodeBlock => "IndentCodeBlock",
            Body::HtmlBlock => "HtmlBlock",
            Body::BlockQuote { .. } => "BlockQuote",
            Body::List { .. } => "List",
            Body::ListItem { .. } => "ListItem",
            Body::FootnoteDefinition { .. } => "FootnoteDefinition",
            Body::MetadataBlock { .. } => "MetadataBlock",
            Body::DefinitionList { .. } => "DefinitionList",
            Body::MaybeDefinitionListTitle => "MaybeDefinitionListTitle",
            Body::DefinitionListTitle => "DefinitionListTitle",
            Body::DefinitionListDefinition { .. } => "DefinitionListDefinition",
            Body::Table { .. } => "Table",
            Body::TableHead => "TableHead",
            Body::TableRow => "TableRow",
            Body::TableCell => "TableCell",
            _ => self.token_name(),
        }
    }

    fn token_name(&self) -> &'static str {
        match self {
            Body::Text { .. } => "Text",
            Body::SoftBreak => "SoftBreak",
            Body::HardBreak { .. } => "HardBreak",
            Body::MaybeEmphasis { .. } => "MaybeEmphasis",
            Body::MaybeMath { .. } => "MaybeMath",
            Body::MaybeSmartQuote { .. } => "MaybeSmartQuote",
            Body::MaybeCode { .. } => "MaybeCode",
            Body::MaybeHtml => "MaybeHtml",
            Body::MaybeLinkOpen => "MaybeLinkOpen",
            Body::MaybeLinkClose { .. } => "MaybeLinkClose",
            Body::MaybeImage => "MaybeImage",
            Body::Html => "Html",
            Body::SynthesizeText { .. } => "SynthesizeText",
            Body::SynthesizeChar { .. } => "SynthesizeChar",
            Body::TaskListMarker { .. } => "TaskListMarker",
            _ => "?",
        }
    }
}

fn string_of<'d>(record: &NodeRecord, records: &'d Records) -> &'d str {
    records.string(record.string_start as usize, record.string_length as usize)
}

/// Bit 0 of a list's flags.
fn is_tight(record: &NodeRecord) -> bool {
    record.first & 1 != 0
}

fn quote_kind(number: u8) -> Option<BlockQuoteKind> {
    match number {
        1 => Some(BlockQuoteKind::Note),
        2 => Some(BlockQuoteKind::Tip),
        3 => Some(BlockQuoteKind::Important),
        4 => Some(BlockQuoteKind::Warning),
        5 => Some(BlockQuoteKind::Caution),
        _ => None,
    }
}

fn metadata_kind(number: u8) -> MetadataBlockKind {
    match number {
        0 => MetadataBlockKind::YamlStyle,
        _ => MetadataBlockKind::PlusesStyle,
    }
}

fn character(number: u32) -> char {
    char::from_u32(number).unwrap_or(char::REPLACEMENT_CHARACTER)
}
