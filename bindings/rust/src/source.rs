//! Texts that are edited together with their trees.

use crate::change::Edited;
use crate::diagnostic::{self, Diagnostic};
use crate::error::Error;
use crate::handle::Handle;
use crate::node::{self, Node};
use crate::place::{ColumnUnit, LineColumn, LineEnds};
use crate::span::{FileId, Side, Span};
use std::cell::OnceCell;
use std::fmt;
use std::ops::Range;

/// A text of Typst with its tree. The tree is always the one that parsing the whole text makes.
pub struct Source {
    handle: Handle,
    // A copy of the text, once it was asked for.
    text: OnceCell<String>,
}

impl Source {
    /// Parses a text, and numbers its tree for a file.
    pub fn new(file: FileId, text: &str) -> Result<Source, Error> {
        let mut handle = Handle::new()?;
        handle.open(file.get(), text)?;
        Ok(Source {
            handle,
            text: OnceCell::new(),
        })
    }

    /// A copy with the same text and tree. All nodes have the same spans. This fails only if memory is refused, after
    /// which [`Clone::clone`] panics.
    pub fn try_clone(&self) -> Result<Source, Error> {
        Ok(Source {
            handle: self.handle.copy()?,
            text: OnceCell::new(),
        })
    }

    /// The text. The first call after an edit copies it.
    pub fn text(&self) -> &str {
        self.text.get_or_init(|| {
            let whole = self.text_in(0..self.len());
            whole.expect("a text holds all its bytes")
        })
    }

    /// The length of the text in bytes.
    pub fn len(&self) -> usize {
        self.root().len()
    }

    /// Whether the text is empty.
    pub fn is_empty(&self) -> bool {
        self.len() == 0
    }

    /// A part of the text, if it is a range of the text with both ends between characters. The cost is a copy of the part.
    pub fn text_in(&self, range: Range<usize>) -> Option<String> {
        self.handle.text(&range).ok()
    }

    /// The root of the tree.
    pub fn root(&self) -> Node<'_> {
        node::root(&self.handle)
    }

    /// The node that a path of child indices leads to, from the root down.
    pub fn at(&self, path: &[usize]) -> Option<Node<'_>> {
        node::at(&self.handle, path.to_vec())
    }

    /// The node with a span. After an edit, [`Edited::follow`] says which span a node has now. This fails only if memory
    /// is refused.
    pub fn find(&self, span: Span) -> Result<Option<Node<'_>>, Error> {
        node::find(&self.handle, span)
    }

    /// The bytes of the node with a span, if there is one. This fails only if memory is refused.
    pub fn range(&self, span: Span) -> Result<Option<Range<usize>>, Error> {
        self.find(span)?.map(|node| node.range()).transpose()
    }

    /// The outermost node whose text is exactly these bytes. A node without text that comes after a node with text is
    /// missed. This fails only if memory is refused.
    pub fn find_range(&self, range: Range<usize>) -> Result<Option<Node<'_>>, Error> {
        node::find_range(&self.handle, &range)
    }

    /// The smallest node whose text covers these bytes: no child of it covers them. `None` if they aren't all bytes of
    /// the text. This fails only if memory is refused.
    pub fn find_cover(&self, range: Range<usize>) -> Result<Option<Node<'_>>, Error> {
        node::find_cover(&self.handle, &range)
    }

    /// The leaf at a cursor, in bytes. This fails only if memory is refused.
    pub fn leaf_at(&self, cursor: usize, side: Side) -> Result<Option<Node<'_>>, Error> {
        node::leaf_at(&self.handle, cursor, side)
    }

    /// The errors in preorder, and then the warnings in preorder. The warnings of one node go from the outermost to the
    /// innermost. This fails only if memory is refused.
    pub fn diagnostics(&self) -> Result<Vec<Diagnostic>, Error> {
        diagnostic::all(&self.handle)
    }

    /// Replaces a range of bytes by a text, and parses anew only the blocks that this can touch. Nodes that go on keep
    /// their spans, and [`Edited::follow`] follows each span. `Error::Range` means that the range isn't a range of the
    /// text, or that one of its ends lies within a character. After an error the text is as it was.
    pub fn edit(&mut self, range: Range<usize>, with: &str) -> Result<Edited<'_>, Error> {
        let edited = self.handle.edit(range, with)?;
        self.text.take();
        Ok(Edited::new(&self.handle, &edited))
    }

    /// Sets the line ends of the text. At first these are [`LineEnds::Unicode`], and edits keep them. This takes time
    /// in proportion to the text, and fails only if memory is refused.
    pub fn set_line_ends(&mut self, ends: LineEnds) -> Result<(), Error> {
        self.handle.set_line_ends(ends.number())
    }

    /// How many lines the text has: one more than it has line ends.
    pub fn len_lines(&self) -> usize {
        self.handle.len_lines().expect("a document is held")
    }

    /// The bytes of a line with its line end, if there is such a line. Lines count from 0.
    pub fn line_to_range(&self, line: usize) -> Option<Range<usize>> {
        self.handle.line_to_range(line).ok()
    }

    /// The line and the column of a byte, if it lies between two characters or at an end of the text. The cost is a
    /// walk over the line up to the byte.
    pub fn byte_to_line_column(&self, byte: usize, unit: ColumnUnit) -> Option<LineColumn> {
        let place = self.handle.byte_to_line_column(byte, unit.number()).ok()?;
        Some(LineColumn {
            line: place.line,
            column: place.column,
        })
    }

    /// The byte at a line and a column, if there is one. The cost is a walk over the line.
    pub fn line_column_to_byte(&self, place: LineColumn, unit: ColumnUnit) -> Option<usize> {
        self.handle
            .line_column_to_byte(place.line, place.column, unit.number())
            .ok()
    }

    /// The same, but a column past the line's text means its end, which is before the line end. Editors ask for places
    /// in this way.
    pub fn line_column_to_byte_clamped(&self, place: LineColumn, unit: ColumnUnit) -> Option<usize> {
        self.handle
            .line_column_to_byte_clamped(place.line, place.column, unit.number())
            .ok()
    }

    /// How much of the text is before a byte, if it lies between two characters or at an end of the text. The cost is a
    /// walk over the text up to the byte.
    pub fn byte_to_offset(&self, byte: usize, unit: ColumnUnit) -> Option<usize> {
        self.handle.byte_to_offset(byte, unit.number()).ok()
    }

    /// The byte that has so much of the text before it, if there is one. The cost is a walk over the text up to the byte.
    pub fn offset_to_byte(&self, offset: usize, unit: ColumnUnit) -> Option<usize> {
        self.handle.offset_to_byte(offset, unit.number()).ok()
    }
}

impl Clone for Source {
    /// As [`Source::try_clone`]. It panics if memory is refused.
    fn clone(&self) -> Source {
        self.try_clone().expect("memory for a copy of a source")
    }
}

impl fmt::Debug for Source {
    fn fmt(&self, f: &mut fmt::Formatter<'_>) -> fmt::Result {
        write!(f, "Source({:?})", self.root())
    }
}
