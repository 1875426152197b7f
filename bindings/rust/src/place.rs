//! Lines and columns.

use crate::Error;

/// How many bytes of a text are between two places of its index.
const STEP: usize = 256;

/// A place in a text, as people and editors count. Lines and columns are counted from 1.
#[derive(Clone, Copy, Debug, PartialEq, Eq, PartialOrd, Ord, Hash)]
#[non_exhaustive]
pub struct Place {
    /// The line. It ends at a newline, a carriage return, or both.
    pub line: usize,
    /// The column in bytes of UTF-8.
    pub column: usize,
    /// The column in units of UTF-16: a character above U+FFFF takes two.
    pub utf16_column: usize,
}

/// The lines and columns of a text.
///
/// ```
/// # use first_pass::Options;
/// let document = first_pass::parse("é\r\n\r\n> # One\n", Options::COMMONMARK)?;
/// let index = first_pass::LineIndex::new(document.text())?;
/// let heading = document.tree().outline().next().unwrap();
/// let place = index.line_column(heading.range().start).unwrap();
/// assert_eq!((place.line, place.column), (3, 3));
/// # Ok::<(), first_pass::Error>(())
/// ```
#[derive(Clone, Debug)]
pub struct LineIndex<'t> {
    text: &'t str,
    /// The places of the offsets 0, `STEP`, `2 * STEP` and so on, up to the end of the text.
    places: Vec<Place>,
}

impl<'t> LineIndex<'t> {
    /// Makes the index of a text. It takes about a tenth of the text's bytes.
    ///
    /// # Errors
    ///
    /// [`Error::OutOfMemory`] if a request for memory is refused.
    pub fn new(text: &'t str) -> Result<LineIndex<'t>, Error> {
        let mut places = Vec::new();
        places.try_reserve_exact(text.len() / STEP + 1).map_err(|_| Error::OutOfMemory)?;
        let mut place = Place { line: 1, column: 1, utf16_column: 1 };
        for offset in 0..text.len() {
            if offset % STEP == 0 {
                places.push(place);
            }
            place.pass(text.as_bytes(), offset);
        }
        if text.len() % STEP == 0 {
            places.push(place);
        }
        Ok(LineIndex { text, places })
    }

    /// The text.
    pub fn text(&self) -> &'t str {
        self.text
    }

    /// The place of an offset in bytes, or `None` if it is after the end of the text.
    ///
    /// It reads less than 256 bytes, however long a line is. The offset between a carriage return and its newline is in
    /// the line that they end. An offset within a character has the UTF-16 column of the character's end.
    pub fn line_column(&self, offset: usize) -> Option<Place> {
        if offset > self.text.len() {
            return None;
        }
        let mut place = self.places[offset / STEP];
        for passed in offset - offset % STEP..offset {
            place.pass(self.text.as_bytes(), passed);
        }
        Some(place)
    }
}

impl Place {
    /// Moves a place past the byte at its offset.
    fn pass(&mut self, text: &[u8], offset: usize) {
        let byte = text[offset];
        let is_before_newline = text.get(offset + 1) == Some(&b'\n');
        if byte == b'\n' || byte == b'\r' && !is_before_newline {
            *self = Place { line: self.line + 1, column: 1, utf16_column: 1 };
            return;
        }
        self.column += 1;
        // The first byte of a character counts for all of it, and that of one with four bytes twice.
        self.utf16_column += match byte {
            0x80..0xc0 => 0,
            0xf0.. => 2,
            _ => 1,
        };
    }
}
