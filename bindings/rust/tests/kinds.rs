//! Each kind of node, with its values.

use first_pass::{
    Alignment, Attribute, BlockQuoteKind, Body, Document, MetadataBlockKind, Options, parse,
};
use std::borrow::Cow;

fn document(text: &str, options: Options) -> Document<'_> {
    parse(text, options).expect("memory suffices")
}

/// Compares the bodies of all nodes but the root.
fn assert_bodies(text: &str, options: Options, wanted: &[Body<'_>]) {
    let document = document(text, options);
    let found: Vec<_> = document.tree().nodes().skip(1).map(|node| node.body()).collect();
    assert_eq!(found, wanted, "{text:?}");
}

const TEXT: Body<'_> = Body::Text { escaped: false };

#[test]
fn leaf_blocks() {
    let none = Options::empty();
    assert_bodies("", none, &[]);
    assert_bodies("a\n", none, &[Body::Paragraph, TEXT]);
    assert_bodies("---\n", none, &[Body::Rule]);
    assert_bodies("    a\n", none, &[Body::IndentCodeBlock, TEXT]);
    assert_bodies("<div>\n", none, &[Body::HtmlBlock, Body::Html]);
    assert_bodies("~~~ a&amp;b\nc\n~~~\n", none, &[Body::FencedCodeBlock { info: "a&b" }, TEXT]);
    assert_bodies("~~~\n~~~\n", none, &[Body::FencedCodeBlock { info: "" }]);
}

/// The codes of all nodes that have one, and whether each is borrowed.
fn codes(text: &str) -> Vec<(String, bool)> {
    let document = document(text, Options::COMMONMARK);
    let codes = document.tree().nodes().filter_map(|node| node.code());
    codes.map(|code| (code.to_string(), matches!(code, Cow::Borrowed(_)))).collect()
}

#[test]
fn code() {
    for (text, wanted, is_borrowed) in [
        ("> ~~~\n>\t\tx", "  \tx", false),
        ("~~~ a\r\nb\r\n\r\nc\r\n~~~\r\n", "b\n\nc\n", false),
        ("> ~~~\n> a\n>\n>  b\n", "a\n\n b\n", false),
        ("~~~\na\\&amp;\n\n b\n~~~\n", "a\\&amp;\n\n b\n", true),
        ("    a\n\n \t\tb\n\n", "a\n\n\tb\n", false),
        ("-\t\ta\n\n\t\tb", "  a\n\n  b", false),
        ("~~~\n~~~\n", "", true),
        ("~~~", "", true),
        ("~~~\na\rb", "a\rb", true),
    ] {
        assert_eq!(codes(text), [(wanted.to_string(), is_borrowed)], "{text:?}");
    }
    assert_eq!(codes("a `b`\n\n<pre>\nc\n</pre>\n"), []);
}

#[test]
fn metadata() {
    let both = Options::ENABLE_YAML_STYLE_METADATA_BLOCKS
        | Options::ENABLE_PLUSES_DELIMITED_METADATA_BLOCKS;
    let yaml = Body::MetadataBlock { metadata: MetadataBlockKind::YamlStyle };
    assert_bodies("---\na: b\n---\n", both, &[yaml, TEXT]);
    let pluses = Body::MetadataBlock { metadata: MetadataBlockKind::PlusesStyle };
    assert_bodies("+++\na = 1\n+++\n", both, &[pluses, TEXT]);
}

#[test]
fn quotes() {
    let plain = Body::BlockQuote { quote: None };
    assert_bodies("> a\n", Options::ENABLE_GFM, &[plain, Body::Paragraph, TEXT]);
    for (tag, kind) in [
        ("NOTE", BlockQuoteKind::Note),
        ("TIP", BlockQuoteKind::Tip),
        ("IMPORTANT", BlockQuoteKind::Important),
        ("WARNING", BlockQuoteKind::Warning),
        ("CAUTION", BlockQuoteKind::Caution),
    ] {
        let text = format!("> [!{tag}]\n> a\n");
        let quote = Body::BlockQuote { quote: Some(kind) };
        assert_bodies(&text, Options::ENABLE_GFM, &[quote, Body::Paragraph, TEXT]);
    }
}

#[test]
fn lists() {
    let none = Options::empty();
    let bullets = Body::List { tight: true, byte: b'-', number: 0 };
    let item = Body::ListItem { columns: 2 };
    assert_bodies("- a\n", none, &[bullets, item, Body::TightParagraph, TEXT]);
    let numbers = Body::List { tight: false, byte: b')', number: 123_456_789 };
    let item = Body::ListItem { columns: 11 };
    assert_bodies(
        "123456789) a\n\n           b\n",
        none,
        &[numbers, item, Body::Paragraph, TEXT, Body::Paragraph, TEXT],
    );
    let tasks = "- [ ] a\n- [x] b\n";
    let item = Body::ListItem { columns: 2 };
    let (open, done) =
        (Body::TaskListMarker { checked: false }, Body::TaskListMarker { checked: true });
    let wanted = [bullets, item, Body::TightParagraph, open, TEXT];
    let document = document(tasks, Options::ENABLE_TASKLISTS);
    let found: Vec<_> = document.tree().nodes().skip(1).map(|node| node.body()).collect();
    assert_eq!(found.len(), 9);
    for body in wanted.into_iter().chain([done]) {
        assert!(found.contains(&body), "{body:?}");
    }
}

#[test]
fn definition_lists() {
    assert_bodies(
        "a\n: b\n",
        Options::ENABLE_DEFINITION_LIST,
        &[
            Body::DefinitionList { tight: true },
            Body::DefinitionListTitle,
            TEXT,
            Body::DefinitionListDefinition { columns: 2 },
            Body::TightParagraph,
            TEXT,
        ],
    );
}

#[test]
fn tables() {
    let document = document("|a|b|c|d|\n|-|:-|:-:|-:|\n|e|\n", Options::ENABLE_TABLES);
    let tree = document.tree();
    let Some(Body::Table { alignments }) = tree.node(1).map(|node| node.body()) else {
        panic!("{tree:?}");
    };
    let wanted = [Alignment::None, Alignment::Left, Alignment::Center, Alignment::Right];
    assert!(alignments.iter().eq(wanted));
    assert_eq!((alignments.get(2), alignments.get(4)), (Some(Alignment::Center), None));
    assert_eq!(format!("{alignments:?}"), "[None, Left, Center, Right]");
    let rows: Vec<_> =
        tree.root().children().flat_map(|it| it.children()).map(|it| it.body()).collect();
    assert_eq!(rows, [Body::TableHead, Body::TableRow]);
    let cells = tree.nodes().filter(|node| node.body() == Body::TableCell).count();
    assert_eq!(cells, 8);
}

#[test]
fn headings() {
    let document = document(
        "# a {#one .two .three four=5 six= seven}\n## b {}\nc {dd}\n===\n",
        Options::ENABLE_HEADING_ATTRIBUTES,
    );
    let mut levels = Vec::new();
    let mut given = Vec::new();
    for node in document.tree().root().children() {
        let Body::Heading { level, attributes } = node.body() else { panic!("{node:?}") };
        levels.push(level);
        given.push(attributes);
    }
    assert_eq!(levels, [1, 2, 1]);
    assert_eq!(given[0].id(), Some("one"));
    assert!(given[0].classes().eq(["two", "three"]));
    assert!(given[0].pairs().eq([("four", Some("5")), ("six", Some("")), ("seven", None)]));
    assert_eq!(given[0].iter().next(), Some(Attribute::Id("one")));
    assert_eq!(given[0].iter().len(), 6);
    assert_eq!((given[1].has_block(), given[1].iter().len()), (true, 0));
    assert!(given[2].pairs().eq([("dd", None)]));
    assert_eq!(given[2], given[2]);
    assert_ne!(given[1], given[2]);
}

#[test]
fn headings_without_attributes() {
    for (text, wanted) in [("# a\n", 1), ("a\n---\n", 2), ("###### a {b}\n", 6)] {
        let document = document(text, Options::empty());
        let Some(Body::Heading { level, attributes }) = document.tree().node(1).map(|n| n.body())
        else {
            panic!("{document:?}");
        };
        assert_eq!((level, attributes.id(), attributes.has_block()), (wanted, None, false));
    }
}

#[test]
fn footnotes() {
    let definition = Body::FootnoteDefinition { label: "a b" };
    let document = document("[^a  b]: c\n", Options::ENABLE_FOOTNOTES);
    assert_eq!(document.tree().node(1).map(|node| node.body()), Some(definition));
}

#[test]
fn breaks() {
    assert_bodies(
        "a\\*\nb  \nc\\\nd\n",
        Options::empty(),
        &[
            Body::Paragraph,
            TEXT,
            Body::Text { escaped: true },
            Body::SoftBreak,
            TEXT,
            Body::HardBreak { by_backslash: false },
            TEXT,
            Body::HardBreak { by_backslash: true },
            TEXT,
        ],
    );
}

#[test]
fn delimiters() {
    let emphasis =
        |remaining, can_open, can_close| Body::MaybeEmphasis { remaining, can_open, can_close };
    assert_bodies(
        "**a*\n",
        Options::empty(),
        &[
            Body::Paragraph,
            emphasis(2, true, false),
            emphasis(1, true, false),
            TEXT,
            emphasis(1, false, true),
        ],
    );
    let math = |can_open, can_close, context| Body::MaybeMath { can_open, can_close, context };
    assert_bodies(
        "$a {$ $b$\n",
        Options::ENABLE_MATH,
        &[
            Body::Paragraph,
            math(true, false, 255),
            TEXT,
            math(false, true, 0),
            TEXT,
            math(true, false, 0),
            TEXT,
            math(false, true, 0),
        ],
    );
}

#[test]
fn brackets_and_code() {
    assert_bodies(
        "[a] ![b] <c> ``d`` \\`\n",
        Options::empty(),
        &[
            Body::Paragraph,
            Body::MaybeLinkOpen,
            TEXT,
            Body::MaybeLinkClose { active: true },
            TEXT,
            Body::MaybeImage,
            TEXT,
            Body::MaybeLinkClose { active: true },
            TEXT,
            Body::MaybeHtml,
            TEXT,
            Body::MaybeCode { count: 2, escaped: false },
            TEXT,
            Body::MaybeCode { count: 2, escaped: false },
            TEXT,
            Body::MaybeCode { count: 1, escaped: true },
        ],
    );
}

#[test]
fn what_stands_for_bytes() {
    let quote = |byte, can_open, can_close| Body::MaybeSmartQuote { byte, can_open, can_close };
    assert_bodies(
        "'a' \"b\" ... ---- &copy;\n",
        Options::ENABLE_SMART_PUNCTUATION,
        &[
            Body::Paragraph,
            quote(b'\'', true, false),
            TEXT,
            quote(b'\'', false, true),
            TEXT,
            quote(b'"', true, false),
            TEXT,
            quote(b'"', false, true),
            TEXT,
            Body::SynthesizeChar { character: '…' },
            TEXT,
            Body::SynthesizeText { text: "––" },
            TEXT,
            Body::SynthesizeText { text: "©" },
        ],
    );
}
