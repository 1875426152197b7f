//! Records as they might come, also those that the archive of this version doesn't return.

use crate::records::{NodeRecord, Records};
use crate::{Alignment, Body, Error, Event, Tree, archive};
use std::mem::size_of;

const ROOT: NodeRecord = NodeRecord {
    start: 0,
    end: 1,
    depth: 0,
    next: 2,
    string_start: 0,
    string_length: 0,
    number: 0,
    kind: 0,
    first: 0,
    second: 0,
    third: 0,
};

/// A root with one node in it, and a byte of a string.
fn records_of(node: NodeRecord) -> Records {
    let child = NodeRecord { depth: 1, ..node };
    Records { nodes: vec![ROOT, child], strings: b"\xff".to_vec(), ..Records::default() }
}

fn body_of(records: &Records) -> Body<'_> {
    Tree::new("a", records).root().children().next().expect("there is a child").body()
}

#[test]
fn names_of_kinds() {
    let names = "Root Paragraph TightParagraph Rule Heading FencedCodeBlock IndentCodeBlock HtmlBlock BlockQuote List \
                 ListItem FootnoteDefinition MetadataBlock DefinitionList MaybeDefinitionListTitle \
                 DefinitionListTitle DefinitionListDefinition Table TableHead TableRow TableCell Text SoftBreak \
                 HardBreak MaybeEmphasis MaybeMath MaybeSmartQuote MaybeCode MaybeHtml MaybeLinkOpen MaybeLinkClose \
                 MaybeImage Html SynthesizeText SynthesizeChar TaskListMarker ?";
    for (kind, name) in (0..).zip(names.split(' ')) {
        assert_eq!(body_of(&records_of(NodeRecord { kind, ..ROOT })).name(), name);
    }
}

#[test]
fn unknown_kinds_are_plain_nodes() {
    for kind in [36, 37, 255] {
        let records = records_of(NodeRecord { kind, first: 1, number: 2, ..ROOT });
        let body = body_of(&records);
        assert_eq!((body, body.name()), (Body::Unknown { kind }, "?"));
        let tree = Tree::new("a", &records);
        let signs: String = tree
            .events()
            .map(|(event, _)| match event {
                Event::Enter(_) => '+',
                Event::Leave(_) => '-',
                Event::Token(_) => '.',
            })
            .collect();
        assert_eq!(signs, "++--");
    }
}

#[test]
fn statuses() {
    assert_eq!((archive::is_filled(0), archive::is_filled(4)), (Ok(true), Ok(false)));
    assert_eq!(archive::is_filled(1), Err(Error::OutOfMemory));
    assert_eq!(archive::is_filled(5), Err(Error::TooLong));
}

#[test]
#[should_panic(expected = "it returns the status 3")]
fn a_status_that_no_archive_returns() {
    let _ = archive::is_filled(3);
}

#[test]
fn the_longest_text_asks_for_little_more_memory_than_prose_takes() {
    let longest = u32::MAX as usize;
    assert!(archive::guess(longest).nodes * size_of::<NodeRecord>() < 3 * longest);
}

#[test]
fn unknown_values() {
    let quote = records_of(NodeRecord { kind: 8, first: 6, ..ROOT });
    assert_eq!(body_of(&quote), Body::BlockQuote { quote: None });
    let character = records_of(NodeRecord { kind: 34, number: 0xd800, ..ROOT });
    assert_eq!(body_of(&character), Body::SynthesizeChar { character: '\u{fffd}' });
    let table = records_of(NodeRecord { kind: 17, string_length: 1, ..ROOT });
    let Body::Table { alignments } = body_of(&table) else { panic!("it is a table") };
    assert_eq!(alignments.get(0), Some(Alignment::None));
}

#[test]
#[should_panic(expected = "strings are UTF-8")]
fn strings_that_are_not_utf8() {
    body_of(&records_of(NodeRecord { kind: 5, string_length: 1, ..ROOT }));
}

#[test]
#[should_panic(expected = "out of range")]
fn strings_past_the_end() {
    body_of(&records_of(NodeRecord { kind: 5, string_start: 1, string_length: 1, ..ROOT }));
}

#[test]
#[should_panic(expected = "out of range")]
fn attributes_past_the_end() {
    body_of(&records_of(NodeRecord { kind: 4, string_length: 1, ..ROOT }));
}
