//! A cursor that goes from node to node.

use crate::node::Node;

/// A place in a tree, which can move to children, siblings and the parent, but never above the node where it began.
///
/// Each step down or to the side reads one node. A step up reads none.
#[derive(Clone, Debug)]
pub struct Cursor<'t> {
    // The nodes from the one where the cursor began down to the one where it is.
    nodes: Vec<Node<'t>>,
}

impl<'t> Cursor<'t> {
    /// A cursor that begins at a node.
    pub fn new(node: Node<'t>) -> Cursor<'t> {
        Cursor { nodes: vec![node] }
    }

    /// Moves the cursor to a node, where it then begins.
    pub fn reset(&mut self, node: Node<'t>) {
        self.nodes.clear();
        self.nodes.push(node);
    }

    /// The node where the cursor is.
    pub fn node(&self) -> &Node<'t> {
        self.nodes.last().expect("a cursor is at a node")
    }

    /// How many steps the cursor is below the node where it began.
    pub fn depth(&self) -> usize {
        self.nodes.len() - 1
    }

    /// Moves to the first child. If there is none, the cursor stays and this returns false.
    pub fn goto_first_child(&mut self) -> bool {
        self.goto_child(0)
    }

    /// Moves to the last child. If there is none, the cursor stays and this returns false.
    pub fn goto_last_child(&mut self) -> bool {
        match self.node().child_count().checked_sub(1) {
            Some(last) => self.goto_child(last),
            None => false,
        }
    }

    /// Moves to the child with an index. If there is none, the cursor stays and this returns false.
    pub fn goto_child(&mut self, index: usize) -> bool {
        let child = self.node().child(index);
        let is_there = child.is_some();
        self.nodes.extend(child);
        is_there
    }

    /// Moves to the next sibling, trivia included. If there is none, the cursor stays and this returns false.
    pub fn goto_next_sibling(&mut self) -> bool {
        self.goto_sibling(self.node().index().checked_add(1))
    }

    /// Moves to the sibling before, trivia included. If there is none, the cursor stays and this returns false.
    pub fn goto_prev_sibling(&mut self) -> bool {
        self.goto_sibling(self.node().index().checked_sub(1))
    }

    /// Moves to the parent. At the node where it began, the cursor stays and this returns false.
    pub fn goto_parent(&mut self) -> bool {
        self.depth() > 0 && self.nodes.pop().is_some()
    }

    fn goto_sibling(&mut self, index: Option<usize>) -> bool {
        let above = self.depth().checked_sub(1).map(|above| &self.nodes[above]);
        let sibling = above.and_then(|parent| parent.child(index?));
        let is_there = sibling.is_some();
        if let (Some(sibling), Some(node)) = (sibling, self.nodes.last_mut()) {
            *node = sibling;
        }
        is_there
    }
}
