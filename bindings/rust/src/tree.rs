//! The tree and its nodes.

use crate::records::{NodeRecord, Records};
use crate::{Body, Definitions, Heading, OffsetIter, archive};
use std::borrow::Cow;
use std::fmt;
use std::ops::Range;

/// The tree of a text, and what the text defines by label.
#[derive(Clone, Copy)]
pub struct Tree<'d> {
    text: &'d str,
    records: &'d Records,
}

impl<'d> Tree<'d> {
    pub(crate) fn new(text: &'d str, records: &'d Records) -> Tree<'d> {
        Tree { text, records }
    }

    /// The text.
    pub fn text(self) -> &'d str {
        self.text
    }

    /// The node around all others.
    pub fn root(self) -> Node<'d> {
        Node { tree: self, index: 0 }
    }

    /// How many nodes there are, with the root.
    pub fn node_count(self) -> usize {
        self.records.nodes.len()
    }

    /// The node at an index in reading order, or `None` if there are not so many.
    pub fn node(self, index: usize) -> Option<Node<'d>> {
        (index < self.node_count()).then_some(Node { tree: self, index })
    }

    /// All nodes in reading order. A node comes before those in it.
    pub fn nodes(self) -> impl ExactSizeIterator<Item = Node<'d>> + DoubleEndedIterator {
        (0..self.node_count()).map(move |index| Node { tree: self, index })
    }

    /// The tree as a sequence of events: where each block begins and ends, and the tokens in it.
    pub fn events(self) -> OffsetIter<'d> {
        OffsetIter::new(self)
    }

    /// The headings in reading order, at any depth.
    ///
    /// ```
    /// # use first_pass::Options;
    /// let document = first_pass::parse("# One\n\n> Two\n> ---\n", Options::empty())?;
    /// let outline: Vec<_> = document.tree().outline().map(|h| (h.level, h.text())).collect();
    /// assert_eq!(outline, [(1, "One".to_string()), (2, "Two".to_string())]);
    /// # Ok::<(), first_pass::Error>(())
    /// ```
    pub fn outline(self) -> impl Iterator<Item = Heading<'d>> {
        self.nodes().filter_map(Heading::of_node)
    }

    /// The link definitions: the first of each label.
    pub fn definitions(self) -> Definitions<'d> {
        Definitions::new(self.records)
    }

    /// The labels of the footnote definitions, each once, in the byte order of their foldings.
    pub fn footnotes(self) -> impl ExactSizeIterator<Item = &'d str> + DoubleEndedIterator {
        let records = self.records;
        records
            .footnotes()
            .iter()
            .map(move |footnote| records.string(footnote.label, footnote.label_length))
    }
}

impl fmt::Debug for Tree<'_> {
    /// All nodes, each with its depth. Trees may be deep, so nodes aren't nested.
    fn fmt(&self, f: &mut fmt::Formatter<'_>) -> fmt::Result {
        f.debug_list().entries(self.nodes()).finish()
    }
}

/// A node of a tree: a block, or a token of possible inline markup in a block.
#[derive(Clone, Copy)]
pub struct Node<'d> {
    tree: Tree<'d>,
    index: usize,
}

impl<'d> Node<'d> {
    pub(crate) fn record(self) -> &'d NodeRecord {
        &self.tree.records.nodes[self.index]
    }

    /// The tree that it is a node of.
    pub fn tree(self) -> Tree<'d> {
        self.tree
    }

    /// Its index in reading order. The root's is 0.
    pub fn index(self) -> usize {
        self.index
    }

    /// What it is.
    pub fn body(self) -> Body<'d> {
        Body::new(self.record(), self.tree.records)
    }

    /// Whether it is a token. A token has no children. A node of a kind that this version doesn't know is none.
    pub fn is_token(self) -> bool {
        Body::is_token_kind(self.record().kind)
    }

    /// How many nodes it lies in. The root's depth is 0.
    pub fn depth(self) -> usize {
        self.record().depth as usize
    }

    /// Its range in the text, in bytes. Siblings don't overlap, and a node lies within its parent, with [one
    /// exception](crate#what-the-ranges-mean).
    pub fn range(self) -> Range<usize> {
        self.record().range()
    }

    /// The text of its range. It has the prefixes of containers, as `> `, of each line but the first.
    ///
    /// The slice lives as long as the document. `&text[node.range()]`, of the text that was parsed, lives as long as that
    /// text.
    pub fn slice(self) -> &'d str {
        &self.tree.text[self.range()]
    }

    /// Where the text has the info string of a fenced code block, the label of a footnote definition, or the attributes
    /// of a heading, between the braces. `None` of a node of another kind, and of a heading without an attribute block.
    /// Of a code block without info string it is an empty range after the fence. [`Node::code`] has the code.
    ///
    /// The range has the bytes as they are written, with escapes and references. It begins and ends between two
    /// characters.
    ///
    /// ```
    /// # use first_pass::Options;
    /// let document = first_pass::parse("~~~ a&amp;b\n", Options::empty())?;
    /// let block = document.tree().root().children().next().unwrap();
    /// assert_eq!(block.string_range(), Some(4..11));
    /// # Ok::<(), first_pass::Error>(())
    /// ```
    pub fn string_range(self) -> Option<Range<usize>> {
        archive::string_range(self.tree.text, self.record())
    }

    /// The code of a fenced or an indented code block, and `None` of a node of another kind.
    ///
    /// It has no prefixes of containers, and no indentation that belongs to a container or the block: of a tab, the
    /// spaces that are left. Each line has its line ending, `\n` for `\r\n`, and the last line has one only if the text
    /// has it. It is borrowed if the text has it in one piece.
    ///
    /// ```
    /// # use first_pass::Options;
    /// let document = first_pass::parse("> ~~~ rust\r\n> a\r\n>\t\tb\r\n> ~~~\n", Options::COMMONMARK)?;
    /// let codes: Vec<_> = document.tree().nodes().filter_map(|node| node.code()).collect();
    /// assert_eq!(codes, ["a\n  \tb\n"]);
    /// # Ok::<(), first_pass::Error>(())
    /// ```
    pub fn code(self) -> Option<Cow<'d, str>> {
        if !matches!(self.body(), Body::FencedCodeBlock { .. } | Body::IndentCodeBlock) {
            return None;
        }
        let mut code = Cow::Borrowed("");
        for child in self.children() {
            code += match child.body() {
                Body::SynthesizeText { text } => text,
                _ => child.slice(),
            };
        }
        Some(code)
    }

    /// Its children in reading order.
    pub fn children(self) -> impl Iterator<Item = Node<'d>> {
        let mut rest = self.inside();
        std::iter::from_fn(move || {
            let child = self.tree.node(rest.start).filter(|_| !rest.is_empty())?;
            rest.start = child.inside().end;
            Some(child)
        })
    }

    /// All nodes in it, in reading order: its children, and those in them.
    pub fn descendants(self) -> impl ExactSizeIterator<Item = Node<'d>> + DoubleEndedIterator {
        let tree = self.tree;
        self.inside().map(move |index| Node { tree, index })
    }

    /// The node that it is a child of, or `None` of the root. It is sought among the nodes before this one, so a walk
    /// from the root is faster.
    pub fn parent(self) -> Option<Node<'d>> {
        let tree = self.tree;
        (0..self.index)
            .rev()
            .map(|index| Node { tree, index })
            .find(|node| node.depth() < self.depth())
    }

    /// The indices of the nodes in it.
    fn inside(self) -> Range<usize> {
        self.index + 1..self.record().next as usize
    }
}

impl fmt::Debug for Node<'_> {
    fn fmt(&self, f: &mut fmt::Formatter<'_>) -> fmt::Result {
        f.debug_struct("Node")
            .field("depth", &self.depth())
            .field("range", &self.range())
            .field("body", &self.body())
            .finish()
    }
}
