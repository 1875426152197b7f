//! The records of a tree and its tables, in C's layout, and how each is read.

use std::mem::{offset_of, size_of};
use std::ops::Range;
use std::str;

const _: () = {
    assert!(size_of::<usize>() == 8, "only machines of 64 bits are supported");
    assert!(size_of::<NodeRecord>() == 32 && offset_of!(NodeRecord, third) == 31);
    assert!(size_of::<AttributeRecord>() == 40 && offset_of!(AttributeRecord, kind) == 36);
    assert!(size_of::<DefinitionRecord>() == 104 && size_of::<Counts>() == 40);
    assert!(size_of::<RangeRecord>() == 16);
};

/// A node.
#[repr(C)]
#[derive(Clone, Copy)]
pub(crate) struct NodeRecord {
    /// The range in the text.
    pub start: u32,
    pub end: u32,
    /// The root's is 0.
    pub depth: u32,
    /// The place of the first later node that is not deeper, or the number of nodes.
    pub next: u32,
    /// The range of its string in the strings, or, of a heading, that of its attributes.
    pub string_start: u32,
    pub string_length: u32,
    /// The values of the kind.
    pub number: u32,
    pub kind: u8,
    pub first: u8,
    pub second: u8,
    pub third: u8,
}

/// An attribute of a heading. Each range is in the strings.
#[repr(C)]
#[derive(Clone, Copy)]
pub(crate) struct AttributeRecord {
    pub name: usize,
    pub name_length: usize,
    pub value: usize,
    pub value_length: usize,
    pub has_value: u32,
    /// 0 for an id, 1 for a class, 2 for a key.
    pub kind: u32,
}

/// A link definition, or the label of a footnote. A range with a length is in the strings, and each other offset is in
/// the text.
#[repr(C)]
#[derive(Clone, Copy)]
pub(crate) struct DefinitionRecord {
    pub start: usize,
    pub end: usize,
    pub label: usize,
    pub label_length: usize,
    pub destination: usize,
    pub destination_length: usize,
    pub title: usize,
    pub title_length: usize,
    pub has_title: usize,
    /// The offset of the `]` after the label.
    pub label_end: usize,
    pub destination_start: usize,
    pub destination_end: usize,
    /// The offset of what begins the title, or without one the end of the definition.
    pub title_start: usize,
}

/// A range of the text.
#[repr(C)]
#[derive(Clone, Copy, Default)]
pub(crate) struct RangeRecord {
    pub start: usize,
    pub end: usize,
}

/// How many records there are of each sort, and how many bytes of strings. Of the definitions the first `links` are
/// link definitions.
#[repr(C)]
#[derive(Clone, Copy, Default)]
pub(crate) struct Counts {
    pub nodes: usize,
    pub attributes: usize,
    pub definitions: usize,
    pub links: usize,
    pub string_bytes: usize,
}

/// All records of a text.
#[derive(Clone, Default)]
pub(crate) struct Records {
    pub nodes: Vec<NodeRecord>,
    pub attributes: Vec<AttributeRecord>,
    /// The link definitions, and after them the labels of footnotes, both in the byte order of the labels' foldings.
    pub definitions: Vec<DefinitionRecord>,
    pub links: usize,
    pub strings: Vec<u8>,
}

impl Records {
    /// The records of the link definitions.
    pub fn links(&self) -> &[DefinitionRecord] {
        &self.definitions[..self.links]
    }

    /// The records of the footnotes' labels.
    pub fn footnotes(&self) -> &[DefinitionRecord] {
        &self.definitions[self.links..]
    }

    /// The bytes at a place in the strings.
    pub fn bytes(&self, start: usize, length: usize) -> &[u8] {
        &self.strings[start..][..length]
    }

    /// The string at a place in the strings.
    pub fn string(&self, start: usize, length: usize) -> &str {
        str::from_utf8(self.bytes(start, length)).expect("strings are UTF-8")
    }

    /// Gives back the memory that no record takes.
    pub fn shrink(&mut self) {
        self.nodes.shrink_to_fit();
        self.attributes.shrink_to_fit();
        self.definitions.shrink_to_fit();
        self.strings.shrink_to_fit();
    }
}

impl NodeRecord {
    pub fn range(&self) -> Range<usize> {
        self.start as usize..self.end as usize
    }
}

impl DefinitionRecord {
    pub fn range(&self) -> Range<usize> {
        self.start..self.end
    }
}
