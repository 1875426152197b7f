//! A tree as a sequence of events.

use crate::{Node, Tree};
use std::iter::FusedIterator;
use std::ops::Range;

/// A step of a walk through a tree.
#[derive(Clone, Copy, Debug)]
pub enum Event<'d> {
    /// A block begins.
    Enter(Node<'d>),
    /// The block that was entered last, of those not yet left, ends.
    Leave(Node<'d>),
    /// A token.
    Token(Node<'d>),
}

/// The events of a tree, each with the range of its node. [`Tree::events`] makes it.
///
/// ```
/// use first_pass::{Event, Options};
///
/// let document = first_pass::parse("> a\n", Options::empty())?;
/// let mut lines = String::new();
/// for (event, range) in document.tree().events() {
///     let (sign, node) = match event {
///         Event::Enter(node) => ('+', node),
///         Event::Leave(node) => ('-', node),
///         Event::Token(node) => ('.', node),
///     };
///     lines += &format!("{sign}{} {range:?}\n", node.body().name());
/// }
/// assert_eq!(
///     lines,
///     "+Root 0..4\n+BlockQuote 0..4\n+Paragraph 2..4\n.Text 2..3\n\
///      -Paragraph 2..4\n-BlockQuote 0..4\n-Root 0..4\n"
/// );
/// # Ok::<(), first_pass::Error>(())
/// ```
#[derive(Clone, Debug)]
pub struct OffsetIter<'d> {
    tree: Tree<'d>,
    /// The index of the next node.
    place: usize,
    /// The blocks that are entered and not yet left.
    open: Vec<Node<'d>>,
}

impl<'d> OffsetIter<'d> {
    pub(crate) fn new(tree: Tree<'d>) -> OffsetIter<'d> {
        OffsetIter { tree, place: 0, open: Vec::new() }
    }

    /// Leaves the innermost open block, if all in it was gone through.
    fn leave(&mut self) -> Option<Node<'d>> {
        let last = *self.open.last()?;
        if self.place < last.record().next as usize {
            return None;
        }
        self.open.pop()
    }
}

impl<'d> Iterator for OffsetIter<'d> {
    type Item = (Event<'d>, Range<usize>);

    fn next(&mut self) -> Option<(Event<'d>, Range<usize>)> {
        if let Some(node) = self.leave() {
            return Some((Event::Leave(node), node.range()));
        }
        let node = self.tree.node(self.place)?;
        self.place += 1;
        if node.is_token() {
            return Some((Event::Token(node), node.range()));
        }
        self.open.push(node);
        Some((Event::Enter(node), node.range()))
    }
}

impl FusedIterator for OffsetIter<'_> {}
