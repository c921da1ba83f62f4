//! Nodes with their places.

use crate::accessor::Accessor;
use crate::cursor::Cursor;
use crate::error::Error;
use crate::handle::Handle;
use crate::kind::SyntaxKind;
use crate::node_class::NodeClass;
use crate::raw::NodeInfo;
use crate::span::{Side, Span};
use crate::view::Answer;
use std::fmt;
use std::hash::{Hash, Hasher};
use std::iter::{Enumerate, FusedIterator};
use std::ops::Range;
use std::ptr;
use std::vec;

/// A node of a [`Tree`](crate::Tree) or of a [`Source`](crate::Source), with its place.
///
/// It holds its path and what one call reads of a node: its kind, its span, its length, and the numbers of its children
/// and descendants.
#[derive(Clone)]
pub struct Node<'t> {
    handle: &'t Handle,
    path: Vec<usize>,
    info: NodeInfo,
}

/// The node that a path leads to.
pub(crate) fn at(handle: &Handle, path: Vec<usize>) -> Option<Node<'_>> {
    match handle.node(&path) {
        Ok(info) => Some(Node { handle, path, info }),
        Err(_) => None,
    }
}

/// The root.
pub(crate) fn root(handle: &Handle) -> Node<'_> {
    at(handle, Vec::new()).expect("a tree is held")
}

/// The node that a search found.
fn found(handle: &Handle, path: Result<Vec<usize>, Error>) -> Result<Option<Node<'_>>, Error> {
    match path {
        Ok(path) => Ok(at(handle, path)),
        Err(Error::NotFound) => Ok(None),
        Err(error) => Err(error),
    }
}

/// The node with a span.
pub(crate) fn find(handle: &Handle, span: Span) -> Result<Option<Node<'_>>, Error> {
    found(handle, handle.find(span.number()))
}

/// The node with a range of bytes.
pub(crate) fn find_range<'t>(handle: &'t Handle, range: &Range<usize>) -> Result<Option<Node<'t>>, Error> {
    found(handle, handle.find_range(range))
}

/// The smallest node that covers a range of bytes.
pub(crate) fn find_cover<'t>(handle: &'t Handle, range: &Range<usize>) -> Result<Option<Node<'t>>, Error> {
    found(handle, handle.find_cover(range))
}

/// The leaf at a cursor.
pub(crate) fn leaf_at(handle: &Handle, cursor: usize, side: Side) -> Result<Option<Node<'_>>, Error> {
    found(handle, handle.leaf_at(cursor, side.number()))
}

impl<'t> Node<'t> {
    /// The kind.
    pub fn kind(&self) -> SyntaxKind {
        let kind = u8::try_from(self.info.kind).ok().and_then(SyntaxKind::from_u8);
        kind.expect("a node's kind has a number below that of all kinds")
    }

    /// The span, which identifies this node while others are edited.
    pub fn span(&self) -> Span {
        Span::from_number(self.info.number).expect("a node that is held is numbered")
    }

    /// The node's bound: a number above the numbers of its subtree.
    pub fn upper(&self) -> u64 {
        self.info.bound
    }

    /// The length of the text in bytes.
    pub fn len(&self) -> usize {
        self.info.len
    }

    /// Whether the text is empty.
    pub fn is_empty(&self) -> bool {
        self.info.len == 0
    }

    /// Whether this is a leaf, or an error whose text isn't empty.
    pub fn is_leaf(&self) -> bool {
        self.info.leaf == 1
    }

    /// Whether this node has a list of children, which may be empty.
    pub fn is_inner(&self) -> bool {
        self.info.inner == 1
    }

    /// Whether there is an error here or below.
    pub fn has_errors(&self) -> bool {
        self.info.errors == 1
    }

    /// Whether there is a warning here or below.
    pub fn has_warnings(&self) -> bool {
        self.info.warnings == 1
    }

    /// Whether this subtree equals another one apart from spans: they have the same kinds, texts, messages, hints and
    /// warnings. The other one may be of the same tree or of another tree.
    pub fn spanless_eq(&self, other: &Node<'_>) -> bool {
        let equal = self.handle.spanless_eq(&self.path, other.handle, &other.path);
        equal.expect("both nodes are there")
    }

    /// How many nodes the subtree has, this one included.
    pub fn descendants(&self) -> usize {
        self.info.descendants
    }

    /// How many children the node has.
    pub fn child_count(&self) -> usize {
        self.info.children
    }

    /// The child of a class that has `index` others of the class before it. The cost is a walk over the children.
    pub fn child_of(&self, class: NodeClass, index: usize) -> Option<Node<'t>> {
        let child = self
            .handle
            .child_of_class(&self.path, class.number(), index, false)
            .ok()?;
        self.child(child)
    }

    /// The child of a class that has `index` others of the class after it. The cost is a walk over the children.
    pub fn child_of_from_end(&self, class: NodeClass, index: usize) -> Option<Node<'t>> {
        let child = self
            .handle
            .child_of_class(&self.path, class.number(), index, true)
            .ok()?;
        self.child(child)
    }

    /// What an accessor of a typed view returns for this node, or nothing if the node isn't of the accessor's view. Of an
    /// accessor of several nodes this is the first one. This fails only if memory is refused, and only the value of a
    /// string needs memory of the library.
    ///
    /// ```
    /// use typst_tree::{Accessor, Answer, Builder, Error, FileId, Span, SyntaxKind};
    ///
    /// # fn main() -> Result<(), Error> {
    /// let mut builder = Builder::new()?;
    /// builder.leaf(SyntaxKind::HeadingMarker, "==")?.leaf(SyntaxKind::Text, "Results")?.wrap(SyntaxKind::Heading, 2)?;
    /// let tree = builder.number(FileId::MIN, Span::FULL)?;
    /// assert_eq!(tree.root().view(Accessor::HeadingDepth)?, Some(Answer::Natural(2)));
    /// assert_eq!(tree.root().view(Accessor::StrGet)?, None);
    /// # Ok(())
    /// # }
    /// ```
    pub fn view(&self, accessor: Accessor) -> Result<Option<Answer>, Error> {
        self.view_at(accessor, 0)
    }

    /// The answer with an index, counted from 0. An accessor of several nodes has as many answers, and any other has one.
    pub fn view_at(&self, accessor: Accessor, index: usize) -> Result<Option<Answer>, Error> {
        let (told, text) = self.handle.view(&self.path, accessor as u32, index)?;
        Ok(Answer::of(told, text))
    }

    /// The node that an accessor returns with an index, if it returns a node. This fails only if memory is refused.
    ///
    /// ```
    /// use typst_tree::{Accessor, Error, FileId, Source};
    ///
    /// # fn main() -> Result<(), Error> {
    /// let source = Source::new(FileId::MIN, "A *bold* word")?;
    /// let root = source.root();
    /// let bold = root.view_node(Accessor::MarkupExprs, 2)?.expect("the third expression");
    /// let body = bold.view_node(Accessor::StrongBody, 0)?.expect("its content");
    /// assert_eq!(body.text()?, "bold");
    /// assert!(root.view_node(Accessor::MarkupExprs, 5)?.is_none());
    /// # Ok(())
    /// # }
    /// ```
    pub fn view_node(&self, accessor: Accessor, index: usize) -> Result<Option<Node<'t>>, Error> {
        match self.view_at(accessor, index)? {
            Some(Answer::Node(span)) => find(self.handle, span),
            _ => Ok(None),
        }
    }

    /// The child indices from the root down to this node.
    pub fn path(&self) -> &[usize] {
        &self.path
    }

    /// The index among the parent's children, or 0 for the root.
    pub fn index(&self) -> usize {
        self.path.last().copied().unwrap_or(0)
    }

    /// The text of a leaf or an error. For an inner node it is empty.
    pub fn leaf_text(&self) -> String {
        let len = if self.is_inner() { 0 } else { self.len() };
        let text = self.handle.leaf_text(&self.path, len);
        text.expect("a node has the text that it has")
    }

    /// The text of all leaves and errors of the subtree. This fails only if memory is refused.
    pub fn text(&self) -> Result<String, Error> {
        self.handle.full_text(&self.path, self.len())
    }

    /// Where the node's text begins in the root's text, in bytes. This fails only if memory is refused.
    pub fn offset(&self) -> Result<usize, Error> {
        Ok(self.range()?.start)
    }

    /// The bytes of the root's text that belong to this node. This fails only if memory is refused.
    pub fn range(&self) -> Result<Range<usize>, Error> {
        self.handle.range_of(&self.path)
    }

    /// The parent. The root has none.
    pub fn parent(&self) -> Option<Node<'t>> {
        let (_, above) = self.path.split_last()?;
        at(self.handle, above.to_vec())
    }

    /// The kind of the parent. The root has none.
    pub fn parent_kind(&self) -> Option<SyntaxKind> {
        self.parent().map(|parent| parent.kind())
    }

    /// The nodes above this one, from the parent up to the root.
    pub fn ancestors(&self) -> Ancestors<'t> {
        Ancestors { next: self.parent() }
    }

    /// The first leaf of the subtree, or error with a text. It is this node itself if this node is one.
    pub fn leftmost_leaf(&self) -> Option<Node<'t>> {
        if self.is_leaf() {
            return Some(self.clone());
        }
        self.children().find_map(|child| child.leftmost_leaf())
    }

    /// The last leaf of the subtree, or error with a text. It is this node itself if this node is one.
    pub fn rightmost_leaf(&self) -> Option<Node<'t>> {
        if self.is_leaf() {
            return Some(self.clone());
        }
        self.children().rev().find_map(|child| child.rightmost_leaf())
    }

    /// A cursor that begins at this node.
    pub fn walk(&self) -> Cursor<'t> {
        Cursor::new(self.clone())
    }

    /// The child with an index.
    pub fn child(&self, index: usize) -> Option<Node<'t>> {
        if self.info.children <= index {
            return None;
        }
        let mut path = Vec::with_capacity(self.path.len() + 1);
        path.extend_from_slice(&self.path);
        path.push(index);
        at(self.handle, path)
    }

    /// The children, from either end. One call reads them all.
    pub fn children(&self) -> Children<'t> {
        let infos = self.handle.children(&self.path, self.info.children);
        Children {
            handle: self.handle,
            parent: self.path.clone(),
            infos: infos
                .expect("a node has the children that it has")
                .into_iter()
                .enumerate(),
        }
    }

    /// The nodes of the subtree in preorder, this one first. One call reads them all, and takes time and memory in
    /// proportion to them. To see less of a tree, use a [`Cursor`].
    pub fn preorder(&self) -> Preorder<'t> {
        let infos = self.handle.preorder(&self.path, self.info.descendants);
        Preorder {
            handle: self.handle,
            infos: infos.expect("a node has the subtree that it has").into_iter(),
            path: self.path.clone(),
            left: Vec::new(),
        }
    }

    /// The nearest leaf after this node that isn't trivia, or error with a text. This fails only if memory is refused.
    pub fn next_leaf(&self) -> Result<Option<Node<'t>>, Error> {
        self.neighbor(0)
    }

    /// The nearest leaf before this node that isn't trivia, or error with a text. This fails only if memory is refused.
    pub fn prev_leaf(&self) -> Result<Option<Node<'t>>, Error> {
        self.neighbor(1)
    }

    /// The nearest sibling after this node that isn't trivia. This fails only if memory is refused.
    pub fn next_sibling(&self) -> Result<Option<Node<'t>>, Error> {
        self.neighbor(2)
    }

    /// The nearest sibling before this node that isn't trivia. This fails only if memory is refused.
    pub fn prev_sibling(&self) -> Result<Option<Node<'t>>, Error> {
        self.neighbor(3)
    }

    /// The node next to this one that a number of `typst.h` says.
    fn neighbor(&self, which: u32) -> Result<Option<Node<'t>>, Error> {
        found(self.handle, self.handle.neighbor(&self.path, which))
    }
}

impl fmt::Debug for Node<'_> {
    fn fmt(&self, f: &mut fmt::Formatter<'_>) -> fmt::Result {
        if self.is_inner() {
            write!(f, "{:?} ", self.kind())?;
            f.debug_list().entries(self.children()).finish()
        } else {
            write!(f, "{:?}: {:?}", self.kind(), self.leaf_text())
        }
    }
}

/// Two nodes are equal if they are the same node of the same tree.
impl PartialEq for Node<'_> {
    fn eq(&self, other: &Self) -> bool {
        ptr::eq(self.handle, other.handle) && self.path == other.path
    }
}

impl Eq for Node<'_> {}

impl Hash for Node<'_> {
    fn hash<H: Hasher>(&self, state: &mut H) {
        ptr::hash(self.handle, state);
        self.path.hash(state);
    }
}

/// The nodes above a node, from the parent up to the root.
#[derive(Clone, Debug)]
pub struct Ancestors<'t> {
    next: Option<Node<'t>>,
}

impl<'t> Iterator for Ancestors<'t> {
    type Item = Node<'t>;

    fn next(&mut self) -> Option<Node<'t>> {
        let node = self.next.take()?;
        self.next = node.parent();
        Some(node)
    }
}

impl FusedIterator for Ancestors<'_> {}

/// The children of a node, from either end.
#[derive(Clone)]
pub struct Children<'t> {
    handle: &'t Handle,
    parent: Vec<usize>,
    infos: Enumerate<vec::IntoIter<NodeInfo>>,
}

impl<'t> Children<'t> {
    /// The child with an index, from what was read of it.
    fn child(&self, (index, info): (usize, NodeInfo)) -> Node<'t> {
        let mut path = Vec::with_capacity(self.parent.len() + 1);
        path.extend_from_slice(&self.parent);
        path.push(index);
        Node {
            handle: self.handle,
            path,
            info,
        }
    }
}

impl fmt::Debug for Children<'_> {
    fn fmt(&self, f: &mut fmt::Formatter<'_>) -> fmt::Result {
        f.debug_list().entries(self.clone()).finish()
    }
}

impl<'t> Iterator for Children<'t> {
    type Item = Node<'t>;

    fn next(&mut self) -> Option<Node<'t>> {
        let next = self.infos.next()?;
        Some(self.child(next))
    }

    fn size_hint(&self) -> (usize, Option<usize>) {
        self.infos.size_hint()
    }
}

impl DoubleEndedIterator for Children<'_> {
    fn next_back(&mut self) -> Option<Self::Item> {
        let next = self.infos.next_back()?;
        Some(self.child(next))
    }
}

impl ExactSizeIterator for Children<'_> {}
impl FusedIterator for Children<'_> {}

/// The nodes of a subtree in preorder.
#[derive(Clone)]
pub struct Preorder<'t> {
    handle: &'t Handle,
    infos: vec::IntoIter<NodeInfo>,
    // The path of the next node.
    path: Vec<usize>,
    // How many siblings follow the next node, and each node above it within the subtree.
    left: Vec<usize>,
}

impl Preorder<'_> {
    /// Moves on after a node with so many children.
    fn step(&mut self, children: usize) {
        if children > 0 {
            self.path.push(0);
            self.left.push(children - 1);
            return;
        }
        while let Some(left) = self.left.last_mut() {
            if let (Some(more), Some(index)) = (left.checked_sub(1), self.path.last_mut()) {
                *left = more;
                *index += 1;
                return;
            }
            self.left.pop();
            self.path.pop();
        }
    }
}

impl fmt::Debug for Preorder<'_> {
    fn fmt(&self, f: &mut fmt::Formatter<'_>) -> fmt::Result {
        f.debug_struct("Preorder")
            .field("left", &self.len())
            .finish_non_exhaustive()
    }
}

impl<'t> Iterator for Preorder<'t> {
    type Item = Node<'t>;

    fn next(&mut self) -> Option<Node<'t>> {
        let info = self.infos.next()?;
        let path = self.path.clone();
        self.step(info.children);
        Some(Node {
            handle: self.handle,
            path,
            info,
        })
    }

    fn size_hint(&self) -> (usize, Option<usize>) {
        self.infos.size_hint()
    }
}

impl ExactSizeIterator for Preorder<'_> {}
impl FusedIterator for Preorder<'_> {}
