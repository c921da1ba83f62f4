//! Spans, which identify nodes.

use std::num::{NonZeroU16, NonZeroU64};
use std::ops::Range;

/// The number of a file.
pub type FileId = NonZeroU16;

/// The number of a node of a tree. It identifies the node while other nodes are edited.
#[derive(Clone, Copy, Debug, PartialEq, Eq, PartialOrd, Ord, Hash)]
pub struct Span(pub(crate) NonZeroU64);

impl Span {
    /// The numbers that nodes may have.
    pub const FULL: Range<u64> = 2..1 << 47;

    /// The span of the node with a number, if it is one of [`Span::FULL`].
    pub fn from_number(number: u64) -> Option<Span> {
        let number = NonZeroU64::new(number)?;
        Span::FULL.contains(&number.get()).then_some(Span(number))
    }

    /// The node's number.
    pub fn number(self) -> u64 {
        self.0.get()
    }
}

/// Whether the leaf at a cursor holds the byte before the cursor or the byte after it.
#[derive(Clone, Copy, Debug, PartialEq, Eq, Hash)]
pub enum Side {
    /// The byte before the cursor.
    Before,
    /// The byte after it.
    After,
}

impl Side {
    /// The number of `typst.h`.
    pub(crate) fn number(self) -> u32 {
        match self {
            Side::Before => 0,
            Side::After => 1,
        }
    }
}
