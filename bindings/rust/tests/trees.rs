//! The shape of trees: nodes, events, outlines, depth, threads, capacities.

use first_pass::{Body, Document, Error, Event, Node, Options, Parser, Tree, parse};
use std::thread;

const fn is_send_and_sync<T: Send + Sync>() {}

const _: () = {
    is_send_and_sync::<Document<'_>>();
    is_send_and_sync::<Parser>();
    is_send_and_sync::<Tree<'_>>();
    is_send_and_sync::<Node<'_>>();
    is_send_and_sync::<Error>();
};

/// A text with many kinds of nodes.
const MIXED: &str = "# a {#b}\n\n> - *c* [d]\n>   1. e\n>\n> ~~~ f\n> g\n> ~~~\n\n\
                     |h|i|\n|-|:-|\n|j|\n\n[d]: /k \"l\"\n[^m]: n\n";

fn events_of(tree: Tree<'_>) -> Vec<(char, usize)> {
    tree.events()
        .map(|(event, range)| {
            let (sign, node) = match event {
                Event::Enter(node) => ('+', node),
                Event::Leave(node) => ('-', node),
                Event::Token(node) => ('.', node),
            };
            assert_eq!(node.range(), range);
            (sign, node.index())
        })
        .collect()
}

/// The events of a node and of those in it, by a walk from child to child.
fn walk(node: Node<'_>, events: &mut Vec<(char, usize)>) {
    if node.is_token() {
        assert_eq!(node.children().count(), 0);
        events.push(('.', node.index()));
        return;
    }
    events.push(('+', node.index()));
    for child in node.children() {
        assert_eq!(child.parent().map(Node::index), Some(node.index()));
        assert_eq!(child.depth(), node.depth() + 1);
        walk(child, events);
    }
    events.push(('-', node.index()));
}

#[test]
fn events_are_those_of_a_walk() -> Result<(), Error> {
    for text in ["", "\n", "a", "- a\n  - b\n- c\n", MIXED] {
        let document = parse(text, Options::all())?;
        let mut walked = Vec::new();
        walk(document.tree().root(), &mut walked);
        assert_eq!(events_of(document.tree()), walked);
    }
    Ok(())
}

#[test]
fn nodes() -> Result<(), Error> {
    let document = parse(MIXED, Options::all())?;
    let tree = document.tree();
    let root = tree.root();
    assert_eq!((root.range(), root.depth(), root.slice()), (0..MIXED.len(), 0, MIXED));
    assert!(root.parent().is_none());
    assert_eq!(root.descendants().len() + 1, tree.node_count());
    assert!(tree.node(tree.node_count()).is_none());
    assert_eq!((tree.text(), document.text()), (MIXED, MIXED));
    assert_eq!(tree.nodes().rev().count(), tree.nodes().len());
    for (at, node) in tree.nodes().enumerate() {
        assert_eq!((node.index(), node.slice()), (at, &MIXED[node.range()]));
        assert_eq!(tree.node(at).map(Node::index), Some(at));
        let inside = node.children().map(|child| 1 + child.descendants().len()).sum();
        assert_eq!(node.descendants().len(), inside);
    }
    Ok(())
}

#[test]
fn ranges_of_strings() -> Result<(), Error> {
    let text = "~~~ a&amp;b \n~~~\n\na {x}\nb {#y} \\\n---\n\n[^c\\]d]: e\n";
    let document = parse(text, Options::all())?;
    let ranges: Vec<_> = document.tree().nodes().filter_map(Node::string_range).collect();
    let written: Vec<_> = ranges.into_iter().map(|range| &text[range]).collect();
    assert_eq!(written, ["a&amp;b", "#y", "c\\]d"]);
    Ok(())
}

#[test]
fn empty_text() -> Result<(), Error> {
    let document = parse("", Options::all())?;
    let tree = document.tree();
    assert_eq!((tree.node_count(), tree.root().range()), (1, 0..0));
    assert_eq!(tree.root().children().count() + tree.root().descendants().len(), 0);
    assert_eq!(tree.outline().count(), 0);
    assert_eq!(format!("{document:?}"), "Document([Node { depth: 0, range: 0..0, body: Root }])");
    Ok(())
}

#[test]
fn nul_is_a_byte_of_the_text() -> Result<(), Error> {
    let text = "a\0b\n\n~~~ \0\n\0\n~~~\n\n[\0]: </\0> '\0'\n";
    let document = parse(text, Options::all())?;
    let tree = document.tree();
    assert_eq!(tree.node(2).map(Node::slice), Some("a\0b"));
    assert!(tree.nodes().any(|node| node.body() == Body::FencedCodeBlock { info: "\0" }));
    let definition = tree.definitions().get("\0")?.unwrap();
    assert_eq!((definition.destination, definition.title), ("/\0", Some("\0")));
    Ok(())
}

#[test]
fn outline() -> Result<(), Error> {
    let text = "# *a* b # {#c}\n> d\n> e\\\n> \\*f\n> ---\n\n###### \\`g &amp; \\*\n#\n";
    let document = parse(text, Options::ENABLE_HEADING_ATTRIBUTES)?;
    let found: Vec<_> = document
        .tree()
        .outline()
        .map(|heading| (heading.level, heading.text(), heading.id, heading.range()))
        .collect();
    assert_eq!(
        found,
        [
            (1, "*a* b".to_string(), Some("c"), 0..15),
            (2, "d e \\*f".to_string(), None, 17..36),
            (6, "\\`g &amp; \\*".to_string(), None, 37..57),
            (1, String::new(), None, 57..59),
        ]
    );
    Ok(())
}

/// The break before a line that is only an attribute block is no part of the text.
#[test]
fn heading_texts_have_no_white_space_at_their_ends() -> Result<(), Error> {
    for text in ["a\n{#x}\n==", "#  a\t #", "a\n\x0b\n="] {
        let document = parse(text, Options::ENABLE_HEADING_ATTRIBUTES)?;
        let texts: Vec<_> = document.tree().outline().map(|heading| heading.text()).collect();
        assert_eq!(texts, ["a"], "{text:?}");
    }
    Ok(())
}

#[test]
fn deep_trees_need_no_stack() {
    const DEPTH: usize = 100_000;
    let checked = thread::Builder::new().stack_size(256 * 1024).spawn(|| {
        let text = ">".repeat(DEPTH);
        let document = parse(&text, Options::all()).unwrap();
        let tree = document.tree();
        assert_eq!(tree.node_count(), DEPTH + 1);
        let last = tree.node(DEPTH).unwrap();
        assert_eq!((last.depth(), last.parent().map(Node::index)), (DEPTH, Some(DEPTH - 1)));
        assert_eq!(tree.events().count(), 2 * (DEPTH + 1));
        assert_eq!(tree.root().children().count(), 1);
        assert_eq!(tree.outline().count(), 0);
        assert!(format!("{tree:?}").len() > DEPTH);
    });
    checked.unwrap().join().unwrap();
}

#[test]
fn eight_threads() -> Result<(), Error> {
    let documents: Vec<String> = (0..64).map(|at| MIXED.repeat(at)).collect();
    let alone: Vec<_> = documents
        .iter()
        .map(|text| parse(text, Options::all()).map(|it| events_of(it.tree())))
        .collect::<Result<_, _>>()?;
    thread::scope(|scope| {
        for _ in 0..8 {
            scope.spawn(|| {
                let mut parser = Parser::new();
                for (text, wanted) in documents.iter().zip(&alone) {
                    let again = parser.parse_with(text, Options::all(), |tree| events_of(*tree));
                    assert_eq!(again.as_ref(), Ok(wanted));
                }
            });
        }
    });
    Ok(())
}

#[test]
fn threads_share_a_document() -> Result<(), Error> {
    let document = parse(MIXED, Options::all())?;
    let wanted = events_of(document.tree());
    thread::scope(|scope| {
        for _ in 0..8 {
            scope.spawn(|| {
                assert_eq!(events_of(document.tree()), wanted);
                assert!(document.tree().definitions().get("D").unwrap().is_some());
            });
        }
    });
    Ok(())
}

/// Texts for which the first guess of some capacity is too small, and how many items there are then.
#[test]
fn capacities_grow() -> Result<(), Error> {
    let stars = "*a".repeat(10_000);
    let definitions: String = (0..2000).map(|at| format!("[{at}]:a\n")).collect();
    let attributes = "# {.a .b .c .d .e}\n".repeat(1000);
    let texts = format!("a{}", "--".repeat(10_000));
    let mut parser = Parser::new();
    for _ in 0..2 {
        let count = |tree: &Tree<'_>| (tree.node_count(), tree.definitions().len());
        assert_eq!(parser.parse_with(&stars, Options::all(), count)?, (20_002, 0));
        assert_eq!(parser.parse_with(&definitions, Options::all(), count)?, (1, 2000));
        let classes = parser.parse_with(&attributes, Options::all(), |tree| {
            let headings = tree.nodes().map(|node| node.body());
            headings
                .map(|body| match body {
                    Body::Heading { attributes, .. } => attributes.classes().count(),
                    _ => 0,
                })
                .sum::<usize>()
        })?;
        assert_eq!(classes, 5000);
        let dashes = parser.parse_with(&texts, Options::all(), |tree| {
            let bodies = tree.nodes().map(|node| node.body());
            bodies
                .map(|body| match body {
                    Body::SynthesizeText { text } => text.chars().count(),
                    _ => 0,
                })
                .sum::<usize>()
        })?;
        assert_eq!(dashes, 10_000);
        assert_eq!(parser.parse_with("a", Options::all(), count)?, (3, 0));
    }
    Ok(())
}

/// Texts around those for which the first guess of some capacity is just enough, or one too small.
#[test]
fn capacities_fit() -> Result<(), Error> {
    for count in 1..200 {
        let stars = "*a".repeat(count);
        assert_eq!(parse(&stars, Options::all())?.tree().node_count(), 2 * count + 2);
        let definitions: String = (0..count).map(|at| format!("[{at}]:a\n")).collect();
        assert_eq!(parse(&definitions, Options::all())?.tree().definitions().len(), count);
        let heading = format!("# {{{}}}\n", ".a ".repeat(count));
        let document = parse(&heading, Options::all())?;
        let Body::Heading { attributes, .. } = document.tree().node(1).unwrap().body() else {
            panic!("it is a heading");
        };
        assert_eq!(attributes.iter().len(), count);
        let texts = "&copy;".repeat(count);
        let document = parse(&texts, Options::all())?;
        let mut signs = document.tree().nodes().skip(2).map(|node| node.body());
        assert!(signs.all(|body| body == Body::SynthesizeText { text: "©" }));
    }
    Ok(())
}

#[test]
fn text_of_4_gib() {
    let text = String::from_utf8(vec![0; 1 << 32]).unwrap();
    assert_eq!(parse(&text, Options::empty()).map(|_| ()), Err(Error::TooLong));
}

#[test]
fn errors() {
    assert_eq!(Error::OutOfMemory.to_string(), "out of memory");
    assert_eq!(Error::TooLong.to_string(), "too long");
    let error: Box<dyn std::error::Error + Send + Sync> = Error::TooLong.into();
    assert!(error.source().is_none());
}
