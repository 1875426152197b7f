//! Link definitions, by label.

use crate::records::{DefinitionRecord, Records};
use crate::{Error, archive};
use std::cmp::Ordering;
use std::iter::FusedIterator;
use std::ops::Range;
use std::{fmt, slice};

/// The link definitions of a text. Of those with one label it has the first alone. Labels that differ in white space
/// at their ends are several here, and one for [`Definitions::get`].
///
/// ```
/// # use first_pass::Options;
/// let document = first_pass::parse("[One two]: /x \"y\"\n", Options::empty())?;
/// let definitions = document.tree().definitions();
/// let definition = definitions.get("ONE\n two")?.unwrap();
/// assert_eq!(definition.destination, "/x");
/// assert_eq!(definition.title, Some("y"));
/// assert_eq!(definitions.get("three")?, None);
/// for definition in definitions {
///     assert_eq!(definition.label, "One two");
/// }
/// # Ok::<(), first_pass::Error>(())
/// ```
#[derive(Clone, Copy)]
pub struct Definitions<'d> {
    records: &'d Records,
}

impl<'d> Definitions<'d> {
    pub(crate) fn new(records: &'d Records) -> Definitions<'d> {
        Definitions { records }
    }

    /// How many definitions there are.
    pub fn len(self) -> usize {
        self.records.links
    }

    /// Whether there is none.
    pub fn is_empty(self) -> bool {
        self.len() == 0
    }

    /// The definitions in the byte order of their labels' foldings, and not of the text. A later definition of a label
    /// is not among them.
    pub fn iter(self) -> DefinitionIter<'d> {
        DefinitionIter { records: self.records, links: self.records.links().iter() }
    }

    /// The definition that a reference with this label refers to, by CommonMark 4.7.
    ///
    /// The label is what stands between the brackets, without the prefixes of containers if it is on several lines.
    /// Its case doesn't count, nor does white space at its ends, and each run of white space in it is the same as one
    /// space. Backslashes count. Of the definitions of a label it is the one that begins first in the text. A label of
    /// white space alone has none.
    ///
    /// ```
    /// # use first_pass::Options;
    /// let document = first_pass::parse("[ foo ]: /1\n[foo]: /2\n", Options::COMMONMARK)?;
    /// let definitions = document.tree().definitions();
    /// assert_eq!(definitions.get("Foo")?.unwrap().destination, "/1");
    /// assert_eq!(definitions.get(" ")?, None);
    /// # Ok::<(), first_pass::Error>(())
    /// ```
    ///
    /// # Errors
    ///
    /// [`Error::OutOfMemory`] if a request for memory is refused.
    pub fn get(self, label: &str) -> Result<Option<Definition<'d>>, Error> {
        let label = label.trim_matches(is_white);
        if label.is_empty() {
            return Ok(None);
        }
        let mut wanted = Vec::new();
        archive::fold(&between_spaces(label)?, &mut wanted)?;
        let mut first: Option<&DefinitionRecord> = None;
        let mut key = Vec::new();
        // A label of the table may have a space at each end, or at one, or at none.
        for (before, after) in [(0, 0), (0, 1), (1, 0), (1, 1)] {
            let end = wanted.len() - after;
            if let Some(link) = self.search(&wanted[before..end], &mut key)? {
                first = first.filter(|other| other.start < link.start).or(Some(link));
            }
        }
        Ok(first.map(|link| Definition::new(link, self.records)))
    }

    /// The record whose label has this folding.
    fn search(
        self,
        wanted: &[u8],
        key: &mut Vec<u8>,
    ) -> Result<Option<&'d DefinitionRecord>, Error> {
        let links = self.records.links();
        let (mut low, mut high) = (0, links.len());
        while low < high {
            let middle = low.midpoint(high);
            let link = &links[middle];
            archive::fold(self.records.string(link.label, link.label_length), key)?;
            match key.as_slice().cmp(wanted) {
                Ordering::Less => low = middle + 1,
                Ordering::Equal => return Ok(Some(link)),
                Ordering::Greater => high = middle,
            }
        }
        Ok(None)
    }
}

impl<'d> IntoIterator for Definitions<'d> {
    type Item = Definition<'d>;
    type IntoIter = DefinitionIter<'d>;

    fn into_iter(self) -> DefinitionIter<'d> {
        self.iter()
    }
}

impl<'d> IntoIterator for &Definitions<'d> {
    type Item = Definition<'d>;
    type IntoIter = DefinitionIter<'d>;

    fn into_iter(self) -> DefinitionIter<'d> {
        self.iter()
    }
}

impl fmt::Debug for Definitions<'_> {
    fn fmt(&self, f: &mut fmt::Formatter<'_>) -> fmt::Result {
        f.debug_list().entries(self.iter()).finish()
    }
}

/// The link definitions of a text, one after the other. [`Definitions::iter`] makes it.
#[derive(Clone)]
pub struct DefinitionIter<'d> {
    records: &'d Records,
    links: slice::Iter<'d, DefinitionRecord>,
}

impl<'d> Iterator for DefinitionIter<'d> {
    type Item = Definition<'d>;

    fn next(&mut self) -> Option<Definition<'d>> {
        self.links.next().map(|link| Definition::new(link, self.records))
    }

    fn size_hint(&self) -> (usize, Option<usize>) {
        self.links.size_hint()
    }
}

impl<'d> DoubleEndedIterator for DefinitionIter<'d> {
    fn next_back(&mut self) -> Option<Definition<'d>> {
        self.links.next_back().map(|link| Definition::new(link, self.records))
    }
}

impl ExactSizeIterator for DefinitionIter<'_> {}

impl FusedIterator for DefinitionIter<'_> {}

impl fmt::Debug for DefinitionIter<'_> {
    fn fmt(&self, f: &mut fmt::Formatter<'_>) -> fmt::Result {
        f.debug_list().entries(self.clone()).finish()
    }
}

/// A link definition, as `[label]: destination "title"`.
#[derive(Clone, Debug, PartialEq, Eq)]
#[non_exhaustive]
pub struct Definition<'d> {
    /// The label as it is spelled, with each run of white space as one space.
    pub label: &'d str,
    /// Where the link leads, without escapes and references.
    pub destination: &'d str,
    /// The title, without escapes and references. It may be empty.
    pub title: Option<&'d str>,
    /// Where the definition stands in the text.
    pub range: Range<usize>,
    /// The range of its label in the text, without its brackets.
    pub label_range: Range<usize>,
    /// The range of its destination in the text, with its angle brackets if it has them.
    pub destination_range: Range<usize>,
    /// The range of its title in the text, with its delimiters.
    pub title_range: Option<Range<usize>>,
}

impl<'d> Definition<'d> {
    fn new(record: &DefinitionRecord, records: &'d Records) -> Definition<'d> {
        let title = records.string(record.title, record.title_length);
        Definition {
            label: records.string(record.label, record.label_length),
            destination: records.string(record.destination, record.destination_length),
            title: (record.has_title != 0).then_some(title),
            range: record.range(),
            label_range: record.start + 1..record.label_end,
            destination_range: record.destination_start..record.destination_end,
            title_range: (record.has_title != 0).then_some(record.title_start..record.end),
        }
    }
}

/// A space, the label with each run of white space as one space, as labels of definitions are, and a space.
fn between_spaces(label: &str) -> Result<String, Error> {
    let mut single = String::new();
    single.try_reserve_exact(label.len() + 2).map_err(|_| Error::OutOfMemory)?;
    single.push(' ');
    for character in label.chars() {
        if !is_white(character) {
            single.push(character);
        } else if !single.ends_with(' ') {
            single.push(' ');
        }
    }
    single.push(' ');
    Ok(single)
}

/// White space of a label: a space, a tab, a line ending, 0x0B or 0x0C.
fn is_white(character: char) -> bool {
    matches!(character, ' ' | '\t' | '\n' | '\x0b' | '\x0c' | '\r')
}
