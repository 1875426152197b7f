//! The headings of a tree.

use crate::{Body, Node};
use std::ops::Range;

/// A heading of an outline.
#[derive(Clone, Copy, Debug)]
#[non_exhaustive]
pub struct Heading<'d> {
    /// From 1 to 6.
    pub level: u8,
    /// The id that its attribute block gives it.
    pub id: Option<&'d str>,
    /// Its node.
    pub node: Node<'d>,
}

impl<'d> Heading<'d> {
    /// The heading that a node is.
    pub(crate) fn of_node(node: Node<'d>) -> Option<Heading<'d>> {
        match node.body() {
            Body::Heading { level, attributes } => {
                Some(Heading { level, id: attributes.id(), node })
            }
            _ => None,
        }
    }

    /// Its range in the text.
    pub fn range(self) -> Range<usize> {
        self.node.range()
    }

    /// Its content as Markdown, without its marks and its attribute block, each line ending as a space.
    ///
    /// ```
    /// # use first_pass::Options;
    /// let document = first_pass::parse("> \\*One* and\n> [two]\n> ===\n", Options::empty())?;
    /// let texts: Vec<_> = document.tree().outline().map(|h| h.text()).collect();
    /// assert_eq!(texts, ["\\*One* and [two]"]);
    /// # Ok::<(), first_pass::Error>(())
    /// ```
    pub fn text(self) -> String {
        let mut text = String::new();
        let mut line_end = None;
        for token in self.node.descendants() {
            if matches!(token.body(), Body::SoftBreak | Body::HardBreak { .. }) {
                text.push(' ');
                line_end = None;
                continue;
            }
            // What stands between two tokens of a line, as a backslash that was dropped, belongs to the content.
            let start = line_end.unwrap_or_else(|| whole_start(token));
            let end = token.range().end.max(start);
            text.push_str(&self.node.tree().text()[start..end]);
            line_end = Some(end);
        }
        text.trim_matches([' ', '\t']).to_string()
    }
}

/// Where a token begins, with the backslash that was dropped before it.
fn whole_start(token: Node<'_>) -> usize {
    let start = token.range().start;
    match token.body() {
        Body::Text { escaped: true } | Body::MaybeCode { escaped: true, .. } => start - 1,
        _ => start,
    }
}
