//! Classes of nodes, by which children are found.

use crate::kind::SyntaxKind;

/// A class of the children of a node.
#[derive(Clone, Copy, Debug, PartialEq, Eq, Hash)]
pub enum NodeClass {
    /// The children of one kind.
    Of(SyntaxKind),
    /// Expressions.
    Expr,
    /// Patterns: expressions, underscores, groups and destructurings.
    Pattern,
    /// Arguments of a call: expressions, named pairs and spreads.
    Arg,
    /// All but trivia.
    Solid,
}

impl NodeClass {
    /// The number of `typst.h`.
    pub(crate) fn number(self) -> u32 {
        match self {
            NodeClass::Of(kind) => kind.to_u8().into(),
            NodeClass::Expr => 256,
            NodeClass::Pattern => 257,
            NodeClass::Arg => 258,
            NodeClass::Solid => 259,
        }
    }
}
