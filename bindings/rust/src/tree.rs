//! Trees that are built node by node, and edited by their children.

use crate::change::Change;
use crate::diagnostic::{self, Diagnostic};
use crate::error::Error;
use crate::handle::Handle;
use crate::kind::SyntaxKind;
use crate::node::{self, Node};
use crate::span::{FileId, Side, Span};
use std::fmt;
use std::ops::Range;
use std::sync::{Mutex, PoisonError};

/// A stack of nodes that are being built.
pub struct Builder {
    handle: Handle,
    count: usize,
}

impl Builder {
    /// An empty stack.
    pub fn new() -> Result<Builder, Error> {
        Ok(Builder {
            handle: Handle::new()?,
            count: 0,
        })
    }

    /// How many nodes are on the stack.
    pub fn count(&self) -> usize {
        self.count
    }

    /// Puts a leaf on the stack.
    pub fn leaf(&mut self, kind: SyntaxKind, text: &str) -> Result<&mut Builder, Error> {
        self.handle.push_leaf(kind.to_u8(), text)?;
        self.count += 1;
        Ok(self)
    }

    /// Puts an error on the stack: a text that isn't valid syntax, and a message that says why.
    pub fn error(&mut self, message: &str, text: &str) -> Result<&mut Builder, Error> {
        self.handle.push_error(message, text)?;
        self.count += 1;
        Ok(self)
    }

    /// Replaces the last `count` nodes by an inner node. They become its children.
    pub fn wrap(&mut self, kind: SyntaxKind, count: usize) -> Result<&mut Builder, Error> {
        self.handle.wrap(kind.to_u8(), count)?;
        self.count = self.count - count + 1;
        Ok(self)
    }

    /// Puts one more warning around the last node, outside the warnings that it has.
    pub fn warn(&mut self, message: &str) -> Result<&mut Builder, Error> {
        self.handle.warn(message)?;
        Ok(self)
    }

    /// Adds a hint to the last node. The hint goes to the node's outermost warning. If the node has no warning but is
    /// an error, the hint goes to the error.
    pub fn hint(&mut self, text: &str) -> Result<&mut Builder, Error> {
        self.handle.hint(text)?;
        Ok(self)
    }

    /// Numbers the last node and the nodes below it in its tree, for a file and with numbers of a range within
    /// [`Span::FULL`], and makes a tree of it. The nodes before it on the stack are dropped.
    pub fn number(mut self, file: FileId, within: Range<u64>) -> Result<Tree, NotNumbered> {
        match self.handle.number(file.get(), within) {
            Ok(()) => {
                let popped = self.handle.pop(self.count - 1);
                debug_assert_eq!(popped, Ok(()));
                Ok(Tree { handle: self.handle })
            }
            Err(error) => Err(NotNumbered {
                error,
                builder: Mutex::new(self),
            }),
        }
    }
}

impl fmt::Debug for Builder {
    fn fmt(&self, f: &mut fmt::Formatter<'_>) -> fmt::Result {
        f.debug_struct("Builder").field("count", &self.count).finish()
    }
}

/// A node that wasn't numbered.
#[derive(Debug)]
pub struct NotNumbered {
    /// Why it wasn't numbered.
    pub error: Error,
    // Errors are `Sync`, and a builder isn't.
    builder: Mutex<Builder>,
}

impl NotNumbered {
    /// The stack, as it was.
    pub fn into_builder(self) -> Builder {
        self.builder.into_inner().unwrap_or_else(PoisonError::into_inner)
    }
}

impl fmt::Display for NotNumbered {
    fn fmt(&self, f: &mut fmt::Formatter<'_>) -> fmt::Result {
        self.error.fmt(f)
    }
}

impl std::error::Error for NotNumbered {}

impl From<NotNumbered> for Error {
    fn from(not_numbered: NotNumbered) -> Error {
        not_numbered.error
    }
}

/// A tree that couldn't become a builder.
#[derive(Debug)]
pub struct NotTaken {
    /// Why it couldn't.
    pub error: Error,
    // Errors are `Sync`, and a tree isn't.
    tree: Mutex<Tree>,
}

impl NotTaken {
    /// The tree, as it was.
    pub fn into_tree(self) -> Tree {
        self.tree.into_inner().unwrap_or_else(PoisonError::into_inner)
    }
}

impl fmt::Display for NotTaken {
    fn fmt(&self, f: &mut fmt::Formatter<'_>) -> fmt::Result {
        self.error.fmt(f)
    }
}

impl std::error::Error for NotTaken {}

impl From<NotTaken> for Error {
    fn from(not_taken: NotTaken) -> Error {
        not_taken.error
    }
}

/// The children that a replacement numbered anew, and the number of windows that it tried.
#[derive(Clone, Debug, PartialEq, Eq)]
pub struct Renumbered {
    /// The indices of the children that were numbered anew.
    pub window: Range<usize>,
    /// How many windows were tried, this one included.
    pub tried: usize,
}

/// A numbered tree.
pub struct Tree {
    handle: Handle,
}

impl Tree {
    /// A copy. All nodes have the same spans. This fails only if memory is refused, after which [`Clone::clone`] panics.
    pub fn try_clone(&self) -> Result<Tree, Error> {
        Ok(Tree {
            handle: self.handle.copy()?,
        })
    }

    /// The root.
    pub fn root(&self) -> Node<'_> {
        node::root(&self.handle)
    }

    /// The node that a path of child indices leads to, from the root down.
    pub fn at(&self, path: &[usize]) -> Option<Node<'_>> {
        node::at(&self.handle, path.to_vec())
    }

    /// The node with a span. After an edit, [`Change::follow`] says which span a node has now. This fails only if memory
    /// is refused.
    pub fn find(&self, span: Span) -> Result<Option<Node<'_>>, Error> {
        node::find(&self.handle, span)
    }

    /// The bytes of the node with a span, if there is one. This fails only if memory is refused.
    pub fn range(&self, span: Span) -> Result<Option<Range<usize>>, Error> {
        self.find(span)?.map(|node| node.range()).transpose()
    }

    /// The outermost node whose text is exactly these bytes. A node without text that comes after a node with text is
    /// missed. This fails only if memory is refused.
    pub fn find_range(&self, range: Range<usize>) -> Result<Option<Node<'_>>, Error> {
        node::find_range(&self.handle, &range)
    }

    /// The smallest node whose text covers these bytes: no child of it covers them. `None` if they aren't all bytes of
    /// the text. This fails only if memory is refused.
    pub fn find_cover(&self, range: Range<usize>) -> Result<Option<Node<'_>>, Error> {
        node::find_cover(&self.handle, &range)
    }

    /// The leaf at a cursor, in bytes. This fails only if memory is refused.
    pub fn leaf_at(&self, cursor: usize, side: Side) -> Result<Option<Node<'_>>, Error> {
        node::leaf_at(&self.handle, cursor, side)
    }

    /// The errors in preorder, and then the warnings in preorder. The warnings of one node go from the outermost to the
    /// innermost. This fails only if memory is refused.
    pub fn diagnostics(&self) -> Result<Vec<Diagnostic>, Error> {
        diagnostic::all(&self.handle)
    }

    /// Numbers the nodes anew, for a file and with numbers of a range within [`Span::FULL`]. After an error the nodes
    /// have the spans that they had.
    pub fn renumber(&mut self, file: FileId, within: Range<u64>) -> Result<(), Error> {
        self.handle.renumber(file.get(), within)
    }

    /// The tree as the only node of a stack, which can be wrapped. If memory is refused, the error returns the tree.
    pub fn into_builder(mut self) -> Result<Builder, NotTaken> {
        match self.handle.take_tree() {
            Ok(()) => Ok(Builder {
                handle: self.handle,
                count: 1,
            }),
            Err(error) => Err(NotTaken {
                error,
                tree: Mutex::new(self),
            }),
        }
    }

    /// Replaces a range of children of the inner node at a path by the nodes that `build` makes. Nodes at either end that
    /// equal the old children there count as the old ones. The others are numbered anew, with the first of 0, 1, 2, 4, ..
    /// of their neighbors on either side for which there is room. All other nodes keep their spans. After an error the
    /// tree is as it was. No span can be followed over this edit; [`Tree::reconcile`] makes the same edit, and says
    /// where each node is.
    pub fn replace(
        &mut self,
        path: &[usize],
        range: Range<usize>,
        build: impl FnOnce(&mut Nodes<'_>) -> Result<(), Error>,
    ) -> Result<Renumbered, Error> {
        let mut nodes = Nodes::on(&mut self.handle);
        build(&mut nodes)?;
        let window = nodes.handle.replace(path, range, nodes.count)?;
        nodes.count = 0;
        Ok(Renumbered {
            window: window.start..window.end,
            tried: window.tried,
        })
    }

    /// Makes the same edit as [`Tree::replace`], as far down in the tree as it can, so that the nodes that go on keep
    /// their spans. While all that changes is below one child, and that child and its new node are inner nodes of one
    /// kind with the same warnings, the child stays, and its children are replaced instead. If a single leaf or error
    /// then changes into another one of its kind, it keeps its span. After an error the tree is as it was.
    pub fn reconcile(
        &mut self,
        path: &[usize],
        range: Range<usize>,
        build: impl FnOnce(&mut Nodes<'_>) -> Result<(), Error>,
    ) -> Result<Change<'_>, Error> {
        let mut nodes = Nodes::on(&mut self.handle);
        build(&mut nodes)?;
        let told = nodes.handle.reconcile(path, range, nodes.count)?;
        nodes.count = 0;
        drop(nodes);
        Ok(Change::new(&self.handle, &told))
    }

    /// Puts the last node of a builder in place of the whole tree. The nodes before it on the stack are dropped. The nodes
    /// that go on can be followed, as after [`Tree::reconcile`] of all children of the root. So a parser that makes a whole
    /// tree anew after each edit of its text gets spans that can be followed. What stands between two changed siblings is
    /// gone, so update once for each place that changed. If the roots differ in their kinds or warnings, or if the old root has too few
    /// numbers for all nodes, no node goes on. After an error the tree is as it was, and the builder is gone.
    pub fn update(&mut self, mut builder: Builder) -> Result<Change<'_>, Error> {
        builder.handle.send(&mut self.handle)?;
        let mut nodes = Nodes::on(&mut self.handle);
        nodes.count = 1;
        let told = nodes.handle.update()?;
        nodes.count = 0;
        drop(nodes);
        Ok(Change::new(&self.handle, &told))
    }
}

impl Clone for Tree {
    /// As [`Tree::try_clone`]. It panics if memory is refused.
    fn clone(&self) -> Tree {
        self.try_clone().expect("memory for a copy of a tree")
    }
}

impl fmt::Debug for Tree {
    fn fmt(&self, f: &mut fmt::Formatter<'_>) -> fmt::Result {
        self.root().fmt(f)
    }
}

/// The nodes that a replacement brings.
pub struct Nodes<'t> {
    handle: &'t mut Handle,
    count: usize,
}

impl<'t> Nodes<'t> {
    /// No nodes yet.
    fn on(handle: &'t mut Handle) -> Nodes<'t> {
        Nodes { handle, count: 0 }
    }

    /// Adds a leaf.
    pub fn leaf(&mut self, kind: SyntaxKind, text: &str) -> Result<&mut Self, Error> {
        self.handle.push_leaf(kind.to_u8(), text)?;
        self.count += 1;
        Ok(self)
    }

    /// Adds an error: a text that isn't valid syntax, and a message that says why.
    pub fn error(&mut self, message: &str, text: &str) -> Result<&mut Self, Error> {
        self.handle.push_error(message, text)?;
        self.count += 1;
        Ok(self)
    }

    /// Adds a copy of the subtree of the tree that a path leads to.
    pub fn copy(&mut self, path: &[usize]) -> Result<&mut Self, Error> {
        self.handle.push_copy(path)?;
        self.count += 1;
        Ok(self)
    }

    /// Puts one more warning around the last node, outside the warnings that it has.
    pub fn warn(&mut self, message: &str) -> Result<&mut Self, Error> {
        self.handle.warn(message)?;
        Ok(self)
    }

    /// Adds a hint to the last node. The hint goes to the node's outermost warning. If the node has no warning but is
    /// an error, the hint goes to the error.
    pub fn hint(&mut self, text: &str) -> Result<&mut Self, Error> {
        self.handle.hint(text)?;
        Ok(self)
    }

    /// Replaces the last `count` nodes by an inner node. They become its children.
    pub fn wrap(&mut self, kind: SyntaxKind, count: usize) -> Result<&mut Self, Error> {
        if self.count < count {
            return Err(Error::Stack);
        }
        self.handle.wrap(kind.to_u8(), count)?;
        self.count = self.count - count + 1;
        Ok(self)
    }
}

impl Drop for Nodes<'_> {
    // Nodes that didn't come into the tree are taken off the stack.
    fn drop(&mut self) {
        let popped = self.handle.pop(self.count);
        debug_assert_eq!(popped, Ok(()));
    }
}
