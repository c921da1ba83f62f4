//! Places in a text, by their lines and columns.

/// What columns count.
#[derive(Clone, Copy, Debug, PartialEq, Eq, Hash)]
pub enum ColumnUnit {
    /// Bytes of UTF-8.
    Byte,
    /// Characters.
    Character,
    /// Units of UTF-16, of which a character has one or two. Editors count in them.
    Utf16,
}

impl ColumnUnit {
    /// The number of `typst.h`.
    pub(crate) fn number(self) -> u32 {
        match self {
            ColumnUnit::Byte => 0,
            ColumnUnit::Character => 1,
            ColumnUnit::Utf16 => 2,
        }
    }
}

/// What ends a line. A carriage return and a line feed after it end one line together.
#[derive(Clone, Copy, Debug, PartialEq, Eq, Hash)]
pub enum LineEnds {
    /// A line feed, a vertical tab, a form feed, a carriage return, U+0085, U+2028 or U+2029.
    Unicode,
    /// A line feed or a carriage return, as in the protocol between editors and language servers.
    Editor,
}

impl LineEnds {
    /// The number of `typst.h`.
    pub(crate) fn number(self) -> u32 {
        match self {
            LineEnds::Unicode => 0,
            LineEnds::Editor => 1,
        }
    }
}

/// A place in a text, by its line and column. Both count from 0.
#[derive(Clone, Copy, Debug, PartialEq, Eq, PartialOrd, Ord, Hash)]
pub struct LineColumn {
    /// The line.
    pub line: usize,
    /// How much of the line is before the place.
    pub column: usize,
}
