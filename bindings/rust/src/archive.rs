//! The three calls of the archive, with Rust's types.

use crate::records::{AttributeRecord, Counts, DefinitionRecord, NodeRecord, RangeRecord, Records};
use crate::{Error, Options};
use std::ops::Range;

unsafe extern "C" {
    fn first_pass_parse_into(
        text: *const u8,
        length: usize,
        options: u32,
        nodes: *mut NodeRecord,
        node_capacity: usize,
        attributes: *mut AttributeRecord,
        attribute_capacity: usize,
        definitions: *mut DefinitionRecord,
        definition_capacity: usize,
        strings: *mut u8,
        string_capacity: usize,
        counts: *mut Counts,
    ) -> u32;

    fn first_pass_fold(
        label: *const u8,
        length: usize,
        folded: *mut u8,
        capacity: usize,
        folded_length: *mut usize,
    ) -> u32;

    fn first_pass_string_range(
        text: *const u8,
        length: usize,
        node: *const NodeRecord,
        range: *mut RangeRecord,
    ) -> u32;
}

const OK: u32 = 0;
const OUT_OF_MEMORY: u32 = 1;
const TOO_SMALL: u32 = 4;
const TOO_LONG: u32 = 5;

/// Puts the records of a text in place of those that were there. Their memory is used again, and grows if it is too
/// small for this text.
pub(crate) fn parse_into(text: &str, options: Options, records: &mut Records) -> Result<(), Error> {
    if u32::try_from(text.len()).is_err() {
        return Err(Error::TooLong);
    }
    let mut counts = guess(text.len());
    for _ in 0..2 {
        reserve(records, counts)?;
        if try_parse_into(text, options, records, &mut counts)? {
            return Ok(());
        }
    }
    panic!("{WRONG_ARCHIVE}: it asks twice for more memory")
}

/// Makes the key of a label: labels match if their keys are the same bytes.
pub(crate) fn fold(label: &str, key: &mut Vec<u8>) -> Result<(), Error> {
    let mut length = label.len();
    for _ in 0..2 {
        key.clear();
        reserve_capacity(key, length)?;
        if try_fold(label, key, &mut length)? {
            return Ok(());
        }
    }
    panic!("{WRONG_ARCHIVE}: it asks twice for more memory")
}

/// Where a text has the string of a node, or the attributes of a heading, if it has them.
pub(crate) fn string_range(text: &str, node: &NodeRecord) -> Option<Range<usize>> {
    let mut range = RangeRecord::default();
    // SAFETY: the call reads the text and the record, and writes no more than a range.
    let found = unsafe { first_pass_string_range(text.as_ptr(), text.len(), node, &mut range) };
    (found == 1).then_some(range.start..range.end)
}

const WRONG_ARCHIVE: &str = "the linked libfirst_pass.a doesn't fit this crate";

/// How many bytes of a text may be dense markup, in the guess of what its tree takes.
const DENSE_LENGTH: usize = 32 << 20;

/// Capacities that are enough for nearly all texts of a length. Too little costs a second call; too much is given back.
/// Most of a very long text is taken for prose, since a system may refuse much more memory than a tree takes.
pub(crate) fn guess(length: usize) -> Counts {
    let dense = length.min(DENSE_LENGTH);
    let prose = length - dense;
    Counts {
        nodes: dense / 4 + prose / 16 + 64,
        attributes: dense / 64 + 8,
        definitions: dense / 64 + 8,
        links: 0,
        string_bytes: dense / 8 + prose / 16 + 64,
    }
}

/// Drops all records, and sees that there is memory for so many.
fn reserve(records: &mut Records, needed: Counts) -> Result<(), Error> {
    records.nodes.clear();
    records.attributes.clear();
    records.definitions.clear();
    records.links = 0;
    records.strings.clear();
    reserve_capacity(&mut records.nodes, needed.nodes)?;
    reserve_capacity(&mut records.attributes, needed.attributes)?;
    reserve_capacity(&mut records.definitions, needed.definitions)?;
    reserve_capacity(&mut records.strings, needed.string_bytes)
}

fn reserve_capacity<T>(items: &mut Vec<T>, capacity: usize) -> Result<(), Error> {
    items.try_reserve_exact(capacity).map_err(|_| Error::OutOfMemory)
}

/// Fills empty records, and returns whether there was needed. If not, the counts say how much it takes.
fn try_parse_into(
    text: &str,
    options: Options,
    records: &mut Records,
    counts: &mut Counts,
) -> Result<bool, Error> {
    // SAFETY: the text is a slice. Each other pointer is that of a vector with its capacity, or a reference, all apart
    // from one another, and none is null. The archive writes no further than the capacity that it is told. It returns
    // `OK` only after it has written as many items as it counts, which is proved of it; `have_capacity` sees that no
    // count is more than the capacity.
    unsafe {
        let status = first_pass_parse_into(
            text.as_ptr(),
            text.len(),
            options.bits(),
            records.nodes.as_mut_ptr(),
            records.nodes.capacity(),
            records.attributes.as_mut_ptr(),
            records.attributes.capacity(),
            records.definitions.as_mut_ptr(),
            records.definitions.capacity(),
            records.strings.as_mut_ptr(),
            records.strings.capacity(),
            counts,
        );
        if !is_filled(status)? {
            return Ok(false);
        }
        assert!(have_capacity(records, counts), "{WRONG_ARCHIVE}: it counts wrong");
        records.nodes.set_len(counts.nodes);
        records.attributes.set_len(counts.attributes);
        records.definitions.set_len(counts.definitions);
        records.strings.set_len(counts.string_bytes);
    }
    records.links = counts.links;
    Ok(true)
}

/// Whether the vectors have the capacity for so many items, and the root is one of them.
fn have_capacity(records: &Records, counts: &Counts) -> bool {
    0 < counts.nodes
        && counts.nodes <= records.nodes.capacity()
        && counts.attributes <= records.attributes.capacity()
        && counts.definitions <= records.definitions.capacity()
        && counts.links <= counts.definitions
        && counts.string_bytes <= records.strings.capacity()
}

/// Fills an empty key, and returns whether there was needed. If not, the length says how much it takes.
fn try_fold(label: &str, key: &mut Vec<u8>, length: &mut usize) -> Result<bool, Error> {
    // SAFETY: as in `try_parse_into`.
    unsafe {
        let status =
            first_pass_fold(label.as_ptr(), label.len(), key.as_mut_ptr(), key.capacity(), length);
        if !is_filled(status)? {
            return Ok(false);
        }
        assert!(*length <= key.capacity(), "{WRONG_ARCHIVE}: it counts wrong");
        key.set_len(*length);
    }
    Ok(true)
}

/// Whether a call has filled what it was lent: `false` if there was too little needed. A `str` is UTF-8, and `Options`
/// have only known bits, so no other status is left.
pub(crate) fn is_filled(status: u32) -> Result<bool, Error> {
    match status {
        OK => Ok(true),
        TOO_SMALL => Ok(false),
        OUT_OF_MEMORY => Err(Error::OutOfMemory),
        TOO_LONG => Err(Error::TooLong),
        _ => panic!("{WRONG_ARCHIVE}: it returns the status {status}"),
    }
}
