//! Parsing a text.

use crate::archive;
use crate::records::Records;
use crate::{Error, Options, Tree};
use std::fmt;

/// Parses a text.
///
/// The tree keeps its memory as long as the document lives. To parse many texts one after the other, use a [`Parser`],
/// which uses the same memory for each.
///
/// ```
/// use first_pass::{Body, Options};
///
/// let document = first_pass::parse("# One\n\ntext\n", Options::COMMONMARK)?;
/// let heading = document.tree().root().children().next().unwrap();
/// assert!(matches!(heading.body(), Body::Heading { level: 1, .. }));
/// assert_eq!(heading.slice(), "# One\n");
/// # Ok::<(), first_pass::Error>(())
/// ```
///
/// # Errors
///
/// [`Error::OutOfMemory`] if a request for memory is refused, and [`Error::TooLong`] for a text of 4 GiB or more.
pub fn parse(text: &str, options: Options) -> Result<Document<'_>, Error> {
    let mut records = Records::default();
    archive::parse_into(text, options, &mut records)?;
    records.shrink();
    Ok(Document { text, records })
}

/// The text without the byte order mark that it may begin with, for [`parse`] and [`Parser::parse_with`].
///
/// These take the mark for a character of the text: `# a` after one is no heading. If you leave it out, all ranges are
/// those of the text that this call returns, which is [`Document::text`] too, and not those of the file.
///
/// ```
/// use first_pass::{Options, strip_bom};
///
/// let document = first_pass::parse(strip_bom("\u{feff}# One\n"), Options::COMMONMARK)?;
/// assert_eq!(document.text(), "# One\n");
/// assert_eq!(document.tree().outline().next().unwrap().range(), 0..6);
/// # Ok::<(), first_pass::Error>(())
/// ```
#[must_use]
pub fn strip_bom(text: &str) -> &str {
    text.strip_prefix('\u{feff}').unwrap_or(text)
}

/// A text with its tree and tables. Threads may share it.
#[derive(Clone)]
pub struct Document<'t> {
    text: &'t str,
    records: Records,
}

impl<'t> Document<'t> {
    /// The text that was parsed. It outlives the document, so `&document.text()[node.range()]` does too.
    pub fn text(&self) -> &'t str {
        self.text
    }

    /// The tree.
    pub fn tree(&self) -> Tree<'_> {
        Tree::new(self.text, &self.records)
    }
}

impl fmt::Debug for Document<'_> {
    fn fmt(&self, f: &mut fmt::Formatter<'_>) -> fmt::Result {
        f.debug_tuple("Document").field(&self.tree()).finish()
    }
}

/// Parses one text after the other, each in the same memory.
///
/// The memory grows to what the largest text takes, and is freed with the parser.
///
/// ```
/// use first_pass::{Options, Parser};
///
/// let mut parser = Parser::new();
/// for (text, headings) in [("# a\n# b\n", 2), ("c\n", 0)] {
///     let count = parser.parse_with(text, Options::COMMONMARK, |tree| tree.outline().count())?;
///     assert_eq!(count, headings);
/// }
/// # Ok::<(), first_pass::Error>(())
/// ```
#[derive(Clone, Default)]
pub struct Parser {
    records: Records,
}

impl Parser {
    /// A parser without memory.
    pub fn new() -> Parser {
        Parser::default()
    }

    /// Parses a text, and returns what `f` returns of its tree.
    ///
    /// # Errors
    ///
    /// As [`parse`]. Then `f` is not called.
    pub fn parse_with<R>(
        &mut self,
        text: &str,
        options: Options,
        f: impl FnOnce(&Tree<'_>) -> R,
    ) -> Result<R, Error> {
        archive::parse_into(text, options, &mut self.records)?;
        Ok(f(&Tree::new(text, &self.records)))
    }
}

impl fmt::Debug for Parser {
    fn fmt(&self, f: &mut fmt::Formatter<'_>) -> fmt::Result {
        f.debug_struct("Parser").finish_non_exhaustive()
    }
}
