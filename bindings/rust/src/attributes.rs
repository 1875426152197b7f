//! The attributes of a heading and the alignments of a table: lists beside the nodes.

use crate::records::{AttributeRecord, NodeRecord, Records};
use std::fmt;

/// The attributes of a heading, as `# One {#install .wide lang=en draft}` gives them.
///
/// ```
/// use first_pass::{Body, Options};
///
/// let document = first_pass::parse("# One {#install .wide lang=en draft}", Options::DOCS)?;
/// let heading = document.tree().node(1).unwrap();
/// let Body::Heading { attributes, .. } = heading.body() else { unreachable!() };
/// assert_eq!(attributes.id(), Some("install"));
/// assert!(attributes.classes().eq(["wide"]));
/// assert!(attributes.pairs().eq([("lang", Some("en")), ("draft", None)]));
/// # Ok::<(), first_pass::Error>(())
/// ```
#[derive(Clone, Copy)]
pub struct Attributes<'d> {
    given: &'d [AttributeRecord],
    has_block: bool,
    records: &'d Records,
}

impl<'d> Attributes<'d> {
    pub(crate) fn new(heading: &NodeRecord, records: &'d Records) -> Attributes<'d> {
        let given =
            &records.attributes[heading.string_start as usize..][..heading.string_length as usize];
        Attributes { given, has_block: heading.second != 0, records }
    }

    /// Whether the heading has an attribute block. It may be empty, as `{}`.
    pub fn has_block(self) -> bool {
        self.has_block
    }

    /// All attributes: the id, the classes, and the keys with their values.
    pub fn iter(self) -> impl ExactSizeIterator<Item = Attribute<'d>> + DoubleEndedIterator {
        let records = self.records;
        self.given.iter().map(move |record| Attribute::new(record, records))
    }

    /// The id.
    pub fn id(self) -> Option<&'d str> {
        self.iter().find_map(|attribute| match attribute {
            Attribute::Id(id) => Some(id),
            _ => None,
        })
    }

    /// The classes, in the order of the text.
    pub fn classes(self) -> impl Iterator<Item = &'d str> {
        self.iter().filter_map(|attribute| match attribute {
            Attribute::Class(class) => Some(class),
            _ => None,
        })
    }

    /// The keys with their values, in the order of the text. A key may have no value.
    pub fn pairs(self) -> impl Iterator<Item = (&'d str, Option<&'d str>)> {
        self.iter().filter_map(|attribute| match attribute {
            Attribute::Pair(key, value) => Some((key, value)),
            _ => None,
        })
    }
}

impl PartialEq for Attributes<'_> {
    fn eq(&self, other: &Self) -> bool {
        self.has_block == other.has_block && self.iter().eq(other.iter())
    }
}

impl Eq for Attributes<'_> {}

impl fmt::Debug for Attributes<'_> {
    fn fmt(&self, f: &mut fmt::Formatter<'_>) -> fmt::Result {
        f.debug_list().entries(self.iter()).finish()
    }
}

/// An attribute of a heading.
#[derive(Clone, Copy, Debug, PartialEq, Eq)]
pub enum Attribute<'d> {
    /// `#install`
    Id(&'d str),
    /// `.wide`
    Class(&'d str),
    /// `lang=en`, or `draft` without a value.
    Pair(&'d str, Option<&'d str>),
}

impl<'d> Attribute<'d> {
    fn new(record: &AttributeRecord, records: &'d Records) -> Attribute<'d> {
        let name = records.string(record.name, record.name_length);
        match record.kind {
            0 => Attribute::Id(name),
            1 => Attribute::Class(name),
            _ => {
                let value = records.string(record.value, record.value_length);
                Attribute::Pair(name, (record.has_value != 0).then_some(value))
            }
        }
    }
}

/// How the columns of a table are aligned.
///
/// ```
/// use first_pass::{Alignment, Body, Options};
///
/// let document = first_pass::parse("|a|b|\n|-|:-|\n", Options::ENABLE_TABLES)?;
/// let table = document.tree().node(1).unwrap();
/// let Body::Table { alignments } = table.body() else { unreachable!() };
/// assert!(alignments.iter().eq([Alignment::None, Alignment::Left]));
/// # Ok::<(), first_pass::Error>(())
/// ```
#[derive(Clone, Copy, PartialEq, Eq)]
pub struct Alignments<'d> {
    bytes: &'d [u8],
}

impl<'d> Alignments<'d> {
    pub(crate) fn new(table: &NodeRecord, records: &'d Records) -> Alignments<'d> {
        Alignments {
            bytes: records.bytes(table.string_start as usize, table.string_length as usize),
        }
    }

    /// The alignment of each column.
    pub fn iter(self) -> impl ExactSizeIterator<Item = Alignment> + DoubleEndedIterator {
        self.bytes.iter().map(|byte| Alignment::of_byte(*byte))
    }

    /// The alignment of a column, or `None` if there are not so many.
    pub fn get(self, column: usize) -> Option<Alignment> {
        self.bytes.get(column).map(|byte| Alignment::of_byte(*byte))
    }
}

impl fmt::Debug for Alignments<'_> {
    fn fmt(&self, f: &mut fmt::Formatter<'_>) -> fmt::Result {
        f.debug_list().entries(self.iter()).finish()
    }
}

/// How a column of a table is aligned.
#[derive(Clone, Copy, Debug, PartialEq, Eq, Hash)]
pub enum Alignment {
    /// Not aligned: `-`
    None,
    /// `:-`
    Left,
    /// `:-:`
    Center,
    /// `-:`
    Right,
}

impl Alignment {
    fn of_byte(byte: u8) -> Alignment {
        match byte {
            b'l' => Alignment::Left,
            b'c' => Alignment::Center,
            b'r' => Alignment::Right,
            _ => Alignment::None,
        }
    }
}
