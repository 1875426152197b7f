//! The blocks of a Markdown text as a tree with byte ranges, by a parser whose result is proved. Its [`Options`] are by
//! default [`Options::COMMONMARK`], which has no extension.
//!
//! [`parse`] reads a text, and returns a [`Document`]. Its [`Tree`] has the blocks as [`Node`]s: paragraphs, headings,
//! lists, quotes, code, tables and more. Each block holds the chain of its possible inline markup as tokens. Beside
//! the nodes there are the link [`Definitions`] and the labels of footnotes. A [`LineIndex`] has the lines and columns
//! of a text.
//!
//! ```
//! use first_pass::Options;
//!
//! let text = "# Fruit\n\n- [apple]\n- pear\n\n[apple]: /apple\n";
//! let document = first_pass::parse(text, Options::COMMONMARK)?;
//! let tree = document.tree();
//!
//! for heading in tree.outline() {
//!     assert_eq!((heading.level, heading.text().as_str()), (1, "Fruit"));
//! }
//! let kinds: Vec<_> = tree.root().children().map(|node| node.body().name()).collect();
//! assert_eq!(kinds, ["Heading", "List"]);
//! assert_eq!(tree.definitions().get("Apple")?.unwrap().destination, "/apple");
//! # Ok::<(), first_pass::Error>(())
//! ```
//!
//! # What the ranges mean
//!
//! Ranges are offsets in bytes, on character boundaries, so `&text[node.range()]` never panics. It lives as
//! long as the text, and [`Node::slice`] as long as the [`Document`]. Siblings don't overlap, and a node lies within
//! its parent. There is one exception: a [`Body::TaskListMarker`] may start before the paragraph, the heading or the
//! title of a definition list that it is the first child of. It then lies in the same list item. NUL is a byte of the
//! text like any other. So is a byte order mark, unless [`strip_bom`] leaves it out.
//!
//! # The linked library
//!
//! The parser is the static archive `libfirst_pass.a`. The build script takes it from the folder that the environment
//! variable `FIRST_PASS_DIR` names. Without that variable, it takes it from the folder that pkg-config knows, which is
//! right with the package `libfirst-pass-dev`. The build fails with a message if there is no archive, or one of another
//! version.
//!
//! The documents of the library are in `/usr/share/doc/libfirst-pass-dev`, or in `PREFIX/share/first_pass` if you ran
//! `./run lib PREFIX`. Of these `LIBRARY.md` has what a client of the tree needs to know, and `GRAMMAR.md` what each
//! kind of node is.
//!
//! What the archive returns is proved: the tree is the one that the block grammar derives from the text. This crate is
//! the layer that owns the memory and gives names, and is tested. It panics if an archive returns what no archive of
//! this version can return.

pub use attributes::{Alignment, Alignments, Attribute, Attributes};
pub use body::{BlockQuoteKind, Body, MetadataBlockKind};
pub use definitions::{Definition, DefinitionIter, Definitions};
pub use document::{Document, Parser, parse, strip_bom};
pub use error::Error;
pub use events::{Event, OffsetIter};
pub use options::Options;
pub use outline::Heading;
pub use place::{LineIndex, Place};
pub use tree::{Node, Tree};

mod archive;
mod attributes;
mod body;
mod definitions;
mod document;
mod error;
mod events;
mod options;
mod outline;
mod place;
mod records;
#[cfg(test)]
mod tests;
mod tree;

// Compiles and runs the example of the README with the other examples.
#[cfg(doctest)]
#[doc = include_str!("../README.md")]
struct Readme;
