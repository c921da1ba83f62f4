//! What edits change of a tree, and where its nodes are afterwards.

use crate::handle::Handle;
use crate::raw;
use crate::span::Span;
use crate::tree::Renumbered;
use std::fmt;
use std::ops::Range;

/// What an edit changed: the root itself, or children of one node.
#[derive(Clone, Debug, PartialEq, Eq)]
pub enum Touched {
    /// The root itself. No node goes on, or the tree was and is one leaf.
    Root,
    /// A leaf or an error, which changed into another one of its kind. It kept its span, and so did all other nodes.
    Leaf {
        /// How many child indices lead to its parent.
        depth: usize,
        /// Its index among the children there.
        index: usize,
    },
    /// Children of a node were replaced, and some were numbered anew: none if no child was replaced, also where nothing
    /// changed at all.
    Children {
        /// How many child indices lead to that node.
        depth: usize,
        /// Which of its children were numbered anew.
        renumbered: Renumbered,
    },
}

impl Touched {
    /// What the library returns.
    fn of(told: &raw::Change) -> Touched {
        let raw::Window { start, end, tried } = told.window;
        match (told.root, tried) {
            (1, _) => Touched::Root,
            (_, 0) if start == end => Touched::Leaf {
                depth: told.depth,
                index: start,
            },
            _ => Touched::Children {
                depth: told.depth,
                renumbered: Renumbered {
                    window: start..end,
                    tried,
                },
            },
        }
    }
}

/// What an edit of a tree changed. It borrows the tree: follow all spans first, and read or edit the tree then.
#[derive(Clone)]
pub struct Change<'t> {
    /// What was changed.
    pub touched: Touched,
    /// How many nodes that stay were numbered anew.
    pub moved: usize,
    depth: usize,
    handle: &'t Handle,
}

impl<'t> Change<'t> {
    pub(crate) fn new(handle: &'t Handle, told: &raw::Change) -> Change<'t> {
        Change {
            touched: Touched::of(told),
            moved: told.moved,
            depth: told.depth,
            handle,
        }
    }

    /// The path to the node whose children were changed, from the root down, as it is after the edit. It is empty if the
    /// root itself was changed.
    pub fn path(&self) -> Vec<usize> {
        self.handle.edited_path(self.depth).expect("an edit was made")
    }

    /// The span that a node has after the edit, by its span before the edit. `None` if the node is gone.
    ///
    /// Follow each span that you keep, once after each edit. A span that isn't followed may belong to another node. Any
    /// span that no node of the old tree had is followed as if a node had it. This needs no memory, and hardly any time.
    pub fn follow(&self, span: Span) -> Option<Span> {
        self.handle
            .follow(span.number())
            .map(|now| Span::from_number(now).expect("the number of a node lies within Span::FULL"))
    }
}

impl fmt::Debug for Change<'_> {
    fn fmt(&self, f: &mut fmt::Formatter<'_>) -> fmt::Result {
        self.touched.fmt(f)
    }
}

/// What an edit of a text did. It borrows the source, so no other edit comes in between.
#[derive(Clone, Debug)]
pub struct Edited<'s> {
    /// The bytes of the new text that were parsed anew.
    pub reparsed: Range<usize>,
    /// What changed of the tree.
    pub change: Change<'s>,
}

impl<'s> Edited<'s> {
    pub(crate) fn new(handle: &'s Handle, told: &raw::Edited) -> Edited<'s> {
        Edited {
            reparsed: told.start..told.end,
            change: Change::new(handle, &told.change),
        }
    }

    /// The span that a node has after the edit, by its span before the edit. `None` if the node is gone.
    ///
    /// Follow each span that you keep, once after each edit. A span that isn't followed may belong to another node.
    ///
    /// ```
    /// use typst_tree::{Error, FileId, NodeClass, Source, SyntaxKind};
    ///
    /// # fn main() -> Result<(), Error> {
    /// let mut source = Source::new(FileId::MIN, "= Trees\n")?;
    /// let heading = source.root().child_of(NodeClass::Of(SyntaxKind::Heading), 0).unwrap().span();
    /// let heading = source.edit(2..2, "Tall ")?.follow(heading).unwrap();
    /// assert_eq!(source.find(heading)?.unwrap().text()?, "= Tall Trees");
    /// assert_eq!(source.edit(0..12, "")?.follow(heading), None);
    /// # Ok(())
    /// # }
    /// ```
    pub fn follow(&self, span: Span) -> Option<Span> {
        self.change.follow(span)
    }
}
