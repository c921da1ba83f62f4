//! The syntax tree of Typst documents, from Rust: safe calls of a proved library.
//!
//! A [`Source`] is a text with its tree. An edit parses only the blocks anew that it touches. A [`Builder`] is a
//! stack of nodes, and [`Builder::number`] makes a [`Tree`] from its last node. A [`Node`] knows its place, and one call
//! reads it. The [`Span`] of a node identifies it, if it is followed after each edit ([`Edited::follow`]).
//!
//! A text is edited, and a heading is found again:
//!
//! ```
//! use typst_tree::{Error, FileId, NodeClass, Source, SyntaxKind};
//!
//! # fn main() -> Result<(), Error> {
//! let mut source = Source::new(FileId::MIN, "First words.\n\n= Trees\n")?;
//! let heading = source.root().child_of(NodeClass::Of(SyntaxKind::Heading), 0).unwrap().span();
//! let heading = source.edit(0..0, "A word before.\n\n")?.follow(heading).unwrap();
//! let node = source.find(heading)?.unwrap();
//! assert_eq!((node.text()?.as_str(), node.range()?), ("= Trees", 30..37));
//! # Ok(())
//! # }
//! ```
//!
//! A tree is built by hand:
//!
//! ```
//! use typst_tree::{Builder, Error, FileId, Span, SyntaxKind};
//!
//! # fn main() -> Result<(), Error> {
//! let mut builder = Builder::new()?;
//! builder.leaf(SyntaxKind::Text, "Hello")?.leaf(SyntaxKind::Text, "world")?.wrap(SyntaxKind::Markup, 2)?;
//! let mut tree = builder.number(FileId::MIN, Span::FULL)?;
//! let world = tree.root().children().next_back().map(|node| node.span());
//! tree.replace(&[], 1..1, |nodes| nodes.leaf(SyntaxKind::Space, " ").map(drop))?;
//! assert_eq!(tree.root().text()?, "Hello world");
//! assert_eq!(tree.find(world.unwrap())?.unwrap().offset()?, 6);
//! # Ok(())
//! # }
//! ```
#![deny(unsafe_code)]

mod accessor;
mod change;
mod classes;
mod cursor;
mod diagnostic;
mod error;
mod handle;
mod heap;
mod kind;
mod node;
mod node_class;
mod place;
mod raw;
mod source;
mod span;
mod tree;
mod view;

pub use accessor::Accessor;
pub use change::{Change, Edited, Touched};
pub use classes::{NoKind, SyntaxSet};
pub use cursor::Cursor;
pub use diagnostic::{Diagnostic, Hint, Severity};
pub use error::Error;
pub use kind::SyntaxKind;
pub use node::{Ancestors, Children, Node, Preorder};
pub use node_class::NodeClass;
pub use place::{ColumnUnit, LineColumn, LineEnds};
pub use source::Source;
pub use span::{FileId, Side, Span};
pub use tree::{Builder, Nodes, NotNumbered, NotTaken, Renumbered, Tree};
pub use view::Answer;
