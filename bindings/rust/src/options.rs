//! The set of options.

use std::fmt;
use std::ops::{BitAnd, BitOr, BitOrAssign, Sub};

/// A set of extensions of CommonMark, by default [`Options::COMMONMARK`]. Names and bits of options are those of
/// pulldown-cmark.
///
/// ```
/// use first_pass::Options;
///
/// let options = Options::ENABLE_TABLES | Options::ENABLE_TASKLISTS;
/// assert!(options.contains(Options::ENABLE_TABLES));
/// assert_eq!(options.bits(), 18);
/// assert_eq!(Options::from_bits(18), Some(options));
/// assert_eq!(format!("{options:?}"), "Options(ENABLE_TABLES | ENABLE_TASKLISTS)");
/// ```
///
/// A set holds only bits that options have, so no set is refused:
///
/// ```compile_fail
/// let options = first_pass::Options(1);
/// ```
#[derive(Clone, Copy, Default, PartialEq, Eq, Hash)]
pub struct Options(u32);

/// Declares the options, and lists their names for `Debug`.
macro_rules! options {
    ($($(#[$attribute:meta])* $name:ident = $bits:literal;)*) => {
        impl Options {
            $($(#[$attribute])* pub const $name: Options = Options($bits);)*
        }
        const NAMES: &[(&str, Options)] = &[$((stringify!($name), Options($bits))),*];
        const KNOWN: u32 = $($bits)|*;
    };
}

options! {
    /// Tables of GitHub Flavored Markdown.
    ENABLE_TABLES = 2;
    /// Footnote definitions, as GitHub has them.
    ENABLE_FOOTNOTES = 4;
    /// Strikethrough: delimiter runs of `~`.
    ENABLE_STRIKETHROUGH = 8;
    /// Markers of task list items, as `- [x]`.
    ENABLE_TASKLISTS = 16;
    /// Smart punctuation: quotes, `...`, and runs of two and more hyphens.
    ENABLE_SMART_PUNCTUATION = 32;
    /// Attributes of headings: an id, classes and keys in braces.
    ENABLE_HEADING_ATTRIBUTES = 64;
    /// Metadata between lines of `---`.
    ENABLE_YAML_STYLE_METADATA_BLOCKS = 128;
    /// Metadata between lines of `+++`.
    ENABLE_PLUSES_DELIMITED_METADATA_BLOCKS = 256;
    /// Footnote definitions in their old form. It includes [`Options::ENABLE_FOOTNOTES`].
    ENABLE_OLD_FOOTNOTES = 516;
    /// Mathematics: dollar signs.
    ENABLE_MATH = 1024;
    /// Tags of block quotes, as `> [!NOTE]`.
    ENABLE_GFM = 2048;
    /// Definition lists.
    ENABLE_DEFINITION_LIST = 4096;
    /// Superscript: delimiter runs of `^`.
    ENABLE_SUPERSCRIPT = 8192;
    /// Subscript: delimiter runs of `~`.
    ENABLE_SUBSCRIPT = 16384;
    /// Has no effect. It is there because pulldown-cmark has it.
    ENABLE_WIKILINKS = 32768;
}

/// The sets that have a name.
impl Options {
    /// CommonMark: no option. This is the default.
    pub const COMMONMARK: Options = Options(0);
    /// Of GitHub: tables, footnotes, strikethrough, task lists, and tags of block quotes; no front matter, mathematics or
    /// bare addresses.
    pub const GITHUB: Options = Options(2078);
    /// What documentation uses: [`Options::GITHUB`], YAML metadata, heading attributes, mathematics and definition lists.
    pub const DOCS: Options = Options(7390);
    /// All options.
    pub const ALL: Options = Options(65534);
}

impl Options {
    /// The set without options: [`Options::COMMONMARK`].
    pub const fn empty() -> Options {
        Options::COMMONMARK
    }

    /// The set of all options: [`Options::ALL`]. With it `# impl {T}` is the heading `impl`, since attributes are read.
    pub const fn all() -> Options {
        Options::ALL
    }

    /// The bits of this set.
    pub const fn bits(self) -> u32 {
        self.0
    }

    /// The set with these bits, or `None` if one of them belongs to no option.
    pub const fn from_bits(bits: u32) -> Option<Options> {
        if bits & !KNOWN == 0 { Some(Options(bits)) } else { None }
    }

    /// The set with those of these bits that belong to an option.
    pub const fn from_bits_truncate(bits: u32) -> Options {
        Options(bits & KNOWN)
    }

    /// Whether this set has no option.
    pub const fn is_empty(self) -> bool {
        self.0 == 0
    }

    /// Whether this set has each bit of `other`.
    pub const fn contains(self, other: Options) -> bool {
        self.0 & other.0 == other.0
    }

    /// The options of either set. Unlike `|` it can be used in a constant.
    #[must_use]
    pub const fn union(self, other: Options) -> Options {
        Options(self.0 | other.0)
    }

    /// Adds the options of `other`.
    pub fn insert(&mut self, other: Options) {
        self.0 |= other.0;
    }

    /// Removes the bits of `other`.
    pub fn remove(&mut self, other: Options) {
        self.0 &= !other.0;
    }
}

impl BitOr for Options {
    type Output = Options;

    fn bitor(self, other: Options) -> Options {
        self.union(other)
    }
}

impl BitOrAssign for Options {
    fn bitor_assign(&mut self, other: Options) {
        self.insert(other);
    }
}

impl BitAnd for Options {
    type Output = Options;

    fn bitand(self, other: Options) -> Options {
        Options(self.0 & other.0)
    }
}

impl Sub for Options {
    type Output = Options;

    fn sub(self, other: Options) -> Options {
        Options(self.0 & !other.0)
    }
}

impl fmt::Debug for Options {
    fn fmt(&self, f: &mut fmt::Formatter<'_>) -> fmt::Result {
        let mut parts: Vec<String> = Vec::new();
        let mut left = *self;
        for (name, option) in NAMES {
            if self.contains(*option) {
                parts.push((*name).to_string());
                left.remove(*option);
            }
        }
        if !left.is_empty() || parts.is_empty() {
            parts.push(format!("{:#x}", left.bits()));
        }
        write!(f, "Options({})", parts.join(" | "))
    }
}
