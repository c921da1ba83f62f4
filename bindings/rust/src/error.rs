//! Why a call is refused.

use std::fmt;

/// Why a call is refused. A call that is refused has changed nothing.
#[derive(Clone, Copy, Debug, PartialEq, Eq, Hash)]
#[non_exhaustive]
pub enum Error {
    /// Memory was refused.
    Memory,
    /// The kind is `Error`, which no leaf and no inner node has.
    Kind,
    /// There are fewer nodes than the call is to wrap, or there is none to number.
    Stack,
    /// The length of the text or the number of nodes would not fit in a usize.
    Overflow,
    /// The range of numbers doesn't lie within `Span::FULL`.
    Numbers,
    /// There are fewer numbers than nodes.
    Unnumberable,
    /// The path leads to no node.
    NoNode,
    /// The path leads to a leaf or an error, which has no children.
    Leaf,
    /// The range isn't a range of the node's children, or not a range of the text with both ends between characters.
    Range,
    /// There is no such node.
    NotFound,
    /// The node can have no hints: it isn't an error, and has no warning.
    NoHints,
    /// The text has no such place: the byte is past its end or within a character, or no byte has that line and column.
    NoPlace,
}

impl Error {
    /// The error for a status of `typst.h`, if a call of this crate can end with it. After `TYPST_SHORT_BUFFER` the
    /// crate calls again with a longer buffer. The other statuses that are not here can't come: each handle is made and
    /// holds what its type says, texts are UTF-8, and files, sets and accessors have numbers.
    pub(crate) fn of(status: u32) -> Option<Error> {
        Some(match status {
            2 => Error::Memory,
            3 => Error::Kind,
            5 => Error::Stack,
            6 => Error::Overflow,
            11 => Error::Numbers,
            12 => Error::Unnumberable,
            13 => Error::NoNode,
            14 => Error::Leaf,
            15 => Error::Range,
            16 => Error::NotFound,
            18 => Error::NoHints,
            20 => Error::NoPlace,
            _ => return None,
        })
    }
}

impl fmt::Display for Error {
    fn fmt(&self, f: &mut fmt::Formatter<'_>) -> fmt::Result {
        f.write_str(match self {
            Error::Memory => "out of memory",
            Error::Kind => "no leaf or inner node can have this kind",
            Error::Stack => "there are too few nodes",
            Error::Overflow => "the tree is too large",
            Error::Numbers => "the numbers must lie in 2..2^47",
            Error::Unnumberable => "there are fewer numbers than nodes",
            Error::NoNode => "the path leads to no node",
            Error::Leaf => "the path leads to a leaf",
            Error::Range => "the range doesn't fit the children or the text",
            Error::NotFound => "there is no such node",
            Error::NoHints => "the node takes no hints",
            Error::NoPlace => "the text has no such place",
        })
    }
}

impl std::error::Error for Error {}
