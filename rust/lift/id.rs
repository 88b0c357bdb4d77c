//! Identifiers, and the calls on a node.

use crate::arena::result;
use crate::face::{self, Answer, Header};
use crate::walk::Traverse;
use crate::{Arena, Refusal};
use std::fmt;
use std::num::NonZeroU32;

/// A node of an arena: slot and stamp. Only an [`Arena`] makes one, when it answers it.
///
/// After the node is removed its identifier is never found again, whoever gets the slot. It does not know its arena: in another one it
/// is refused REMOVED, or is that one's node with the same number.
#[derive(Clone, Copy, PartialEq, Eq, PartialOrd, Ord, Hash)]
pub struct NodeId(NonZeroU32);

type Read = fn(&[u32], &Header, u32) -> Answer;
type Change = fn(&mut [u32], &mut Header, &mut [u32], u32) -> Answer;
type Change2 = fn(&mut [u32], &mut Header, &mut [u32], u32, u32) -> Answer;
type List = fn(&[u32], &Header, &mut [u32], u32, &mut [u32]) -> Answer;

impl NodeId {
    /// The number as document 01 writes it, slot × 65,536 + stamp: what a kiosk holds and a command carries.
    pub fn number(self) -> u32 {
        self.0.get()
    }

    /// An identifier that a call answered.
    pub(crate) fn answered(number: u32) -> Self {
        NodeId(NonZeroU32::new(number).expect("a node's identifier is not 0"))
    }

    /// A link that a call answered: 0 is none.
    fn link(self, arena: &Arena, call: Read) -> Result<Option<NodeId>, Refusal> {
        let (words, header) = arena.memory();
        result(call(words, header, self.number())).map(|id| NonZeroU32::new(id).map(NodeId))
    }

    fn change(self, arena: &mut Arena, call: Change) -> Result<(), Refusal> {
        arena.change(|words, header, scratch| call(words, header, scratch, self.number())).map(drop)
    }

    fn with(self, other: u32, arena: &mut Arena, call: Change2) -> Result<u32, Refusal> {
        arena.change(|words, header, scratch| call(words, header, scratch, self.number(), other))
    }

    fn list(self, arena: &Arena, call: List) -> Result<Vec<NodeId>, Refusal> {
        // No list is longer than the slots in use.
        let mut list = vec![0; arena.len()];
        let n = arena.read(|words, header, scratch| call(words, header, scratch, self.number(), &mut list))?;
        list.truncate(n as usize);
        Ok(list.into_iter().map(NodeId::answered).collect())
    }

    /// The parent.
    ///
    /// ```
    /// # use lift::{Arena, Refusal};
    /// # let mut arena = Arena::with_capacity(4);
    /// let car = arena.new_node(3)?;
    /// let call = car.append_value(5003, &mut arena)?;
    /// assert_eq!(call.parent(&arena), Ok(Some(car)));
    /// assert_eq!(car.parent(&arena), Ok(None));
    /// call.checked_remove(&mut arena)?;
    /// assert_eq!(call.parent(&arena), Err(Refusal::REMOVED));
    /// # Ok::<(), Refusal>(())
    /// ```
    pub fn parent(self, arena: &Arena) -> Result<Option<NodeId>, Refusal> {
        self.link(arena, face::parent)
    }

    /// The first child.
    pub fn first_child(self, arena: &Arena) -> Result<Option<NodeId>, Refusal> {
        self.link(arena, face::first_child)
    }

    /// The last child.
    pub fn last_child(self, arena: &Arena) -> Result<Option<NodeId>, Refusal> {
        self.link(arena, face::last_child)
    }

    /// The next sibling; of a node without parent, the next of its root chain.
    pub fn next_sibling(self, arena: &Arena) -> Result<Option<NodeId>, Refusal> {
        self.link(arena, face::next_sibling)
    }

    /// The previous sibling.
    pub fn previous_sibling(self, arena: &Arena) -> Result<Option<NodeId>, Refusal> {
        self.link(arena, face::previous_sibling)
    }

    /// A new last child with this number: REMOVED, FULL.
    pub fn append_value(self, number: u32, arena: &mut Arena) -> Result<NodeId, Refusal> {
        self.with(number, arena, face::append_value).map(NodeId::answered)
    }

    /// A new first child with this number: REMOVED, FULL.
    pub fn prepend_value(self, number: u32, arena: &mut Arena) -> Result<NodeId, Refusal> {
        self.with(number, arena, face::prepend_value).map(NodeId::answered)
    }

    /// A new sibling after this node, with this number: REMOVED, FULL.
    pub fn insert_after_value(self, number: u32, arena: &mut Arena) -> Result<NodeId, Refusal> {
        self.with(number, arena, face::insert_after_value).map(NodeId::answered)
    }

    /// A new sibling before this node, with this number: REMOVED, FULL.
    pub fn insert_before_value(self, number: u32, arena: &mut Arena) -> Result<NodeId, Refusal> {
        self.with(number, arena, face::insert_before_value).map(NodeId::answered)
    }

    /// Moves a node, with its subtree, to the end of this node's children: SELF, REMOVED, ANCESTOR.
    ///
    /// ```
    /// # use lift::{Arena, Refusal};
    /// # let mut arena = Arena::with_capacity(4);
    /// let car = arena.new_node(3)?;
    /// let call = arena.new_node(5003)?;
    /// car.checked_append(call, &mut arena)?;
    /// assert_eq!(car.children(&arena)?, [call]);
    /// assert_eq!(call.checked_append(call, &mut arena), Err(Refusal::SELF));
    /// assert_eq!(call.checked_append(car, &mut arena), Err(Refusal::ANCESTOR));
    /// # Ok::<(), Refusal>(())
    /// ```
    pub fn checked_append(self, new_child: NodeId, arena: &mut Arena) -> Result<(), Refusal> {
        self.with(new_child.number(), arena, face::checked_append).map(drop)
    }

    /// Moves a node, with its subtree, to the start of this node's children: SELF, REMOVED, ANCESTOR.
    pub fn checked_prepend(self, new_child: NodeId, arena: &mut Arena) -> Result<(), Refusal> {
        self.with(new_child.number(), arena, face::checked_prepend).map(drop)
    }

    /// Moves a node, with its subtree, to after this node: SELF, REMOVED, ANCESTOR.
    pub fn checked_insert_after(self, new_sibling: NodeId, arena: &mut Arena) -> Result<(), Refusal> {
        self.with(new_sibling.number(), arena, face::checked_insert_after).map(drop)
    }

    /// Moves a node, with its subtree, to before this node: SELF, REMOVED, ANCESTOR.
    pub fn checked_insert_before(self, new_sibling: NodeId, arena: &mut Arena) -> Result<(), Refusal> {
        self.with(new_sibling.number(), arena, face::checked_insert_before).map(drop)
    }

    /// Makes this node, with its subtree, a chain of one.
    pub fn checked_detach(self, arena: &mut Arena) -> Result<(), Refusal> {
        self.change(arena, face::checked_detach)
    }

    /// Makes each child, with its subtree, a chain of one.
    pub fn checked_detach_children(self, arena: &mut Arena) -> Result<(), Refusal> {
        self.change(arena, face::checked_detach_children)
    }

    /// Removes this node. Its children, in order, take its place.
    ///
    /// ```
    /// # use lift::{Arena, Refusal};
    /// # let mut arena = Arena::with_capacity(4);
    /// let car = arena.new_node(3)?;
    /// let stop = car.append_value(30, &mut arena)?;
    /// let ann = stop.append_value(5001, &mut arena)?;
    /// let bob = stop.append_value(5002, &mut arena)?;
    /// stop.checked_remove(&mut arena)?;
    /// assert_eq!(car.children(&arena)?, [ann, bob]);
    /// # Ok::<(), Refusal>(())
    /// ```
    pub fn checked_remove(self, arena: &mut Arena) -> Result<(), Refusal> {
        self.change(arena, face::checked_remove)
    }

    /// Removes this node and all below it.
    pub fn checked_remove_subtree(self, arena: &mut Arena) -> Result<(), Refusal> {
        self.change(arena, face::checked_remove_subtree)
    }

    /// Removes all below this node. (indextree: `checked_remove_children`; its `remove_children` says nothing of a stale identifier.)
    pub fn remove_children(self, arena: &mut Arena) -> Result<(), Refusal> {
        self.change(arena, face::remove_children)
    }

    /// How many nodes the subtree has, this one with them.
    pub fn descendant_count(self, arena: &Arena) -> Result<usize, Refusal> {
        arena.read(|words, header, scratch| face::descendant_count(words, header, scratch, self.number())).map(|n| n as usize)
    }

    /// This node and all below it, in preorder.
    ///
    /// ```
    /// # use lift::{Arena, Refusal};
    /// # let mut arena = Arena::with_capacity(8);
    /// let group = arena.new_node(100)?;
    /// let a = group.append_value(1, &mut arena)?;
    /// let b = group.append_value(2, &mut arena)?;
    /// let call = a.append_value(5001, &mut arena)?;
    /// assert_eq!(group.descendants(&arena)?, [group, a, call, b]);
    /// assert_eq!(group.breadth_first(&arena)?, [group, a, b, call]);
    /// assert_eq!(group.leaves(&arena)?, [call, b]);
    /// assert_eq!(call.ancestors(&arena)?, [call, a, group]);
    /// assert_eq!(b.predecessors(&arena)?, [b, a, group]);
    /// # Ok::<(), Refusal>(())
    /// ```
    pub fn descendants(self, arena: &Arena) -> Result<Vec<NodeId>, Refusal> {
        self.list(arena, face::descendants)
    }

    /// This node and all below it, level by level.
    pub fn breadth_first(self, arena: &Arena) -> Result<Vec<NodeId>, Refusal> {
        self.list(arena, face::breadth_first)
    }

    /// The leaves of the subtree; this node only where it is one.
    pub fn leaves(self, arena: &Arena) -> Result<Vec<NodeId>, Refusal> {
        self.list(arena, face::leaves)
    }

    /// This node, its parent, and so on up.
    pub fn ancestors(self, arena: &Arena) -> Result<Vec<NodeId>, Refusal> {
        self.list(arena, face::ancestors)
    }

    /// The children, first to last.
    pub fn children(self, arena: &Arena) -> Result<Vec<NodeId>, Refusal> {
        self.list(arena, face::children)
    }

    /// This node and the siblings after it.
    pub fn following_siblings(self, arena: &Arena) -> Result<Vec<NodeId>, Refusal> {
        self.list(arena, face::following_siblings)
    }

    /// This node and the siblings before it, away from it.
    pub fn preceding_siblings(self, arena: &Arena) -> Result<Vec<NodeId>, Refusal> {
        self.list(arena, face::preceding_siblings)
    }

    /// This node, then each one's previous sibling, or its parent where there is none.
    pub fn predecessors(self, arena: &Arena) -> Result<Vec<NodeId>, Refusal> {
        self.list(arena, face::predecessors)
    }

    /// A walk of the subtree by edges, a start and an end for each node.
    pub fn traverse(self, arena: &Arena) -> Result<Traverse<'_>, Refusal> {
        Traverse::start(arena, self)
    }

    /// Whether two subtrees have the same shape and the same numbers.
    ///
    /// ```
    /// # use lift::{Arena, Refusal};
    /// # let mut arena = Arena::with_capacity(4);
    /// let a = arena.new_node(3)?;
    /// a.append_value(30, &mut arena)?;
    /// let mut other = Arena::with_capacity(4);
    /// let b = other.new_node(3)?;
    /// assert_eq!(a.subtree_eq(b, &arena, &other), Ok(false));
    /// b.append_value(30, &mut other)?;
    /// assert_eq!(a.subtree_eq(b, &arena, &other), Ok(true));
    /// # Ok::<(), Refusal>(())
    /// ```
    pub fn subtree_eq(self, other: NodeId, arena: &Arena, other_arena: &Arena) -> Result<bool, Refusal> {
        let (other_words, other_header) = other_arena.memory();
        // One scratch serves both: that of the arena with more slots in use.
        let longer = if other_arena.len() > arena.len() { other_arena } else { arena };
        let (words, header) = arena.memory();
        longer
            .read(|_, _, scratch| face::subtree_eq(words, header, self.number(), other_words, other_header, other.number(), scratch))
            .map(|answer| answer == 1)
    }
}

/// Slot and stamp.
impl fmt::Debug for NodeId {
    fn fmt(&self, f: &mut fmt::Formatter<'_>) -> fmt::Result {
        write!(f, "NodeId({}, {})", self.number() >> 16, self.number() & 0xffff)
    }
}

/// The number.
impl fmt::Display for NodeId {
    fn fmt(&self, f: &mut fmt::Formatter<'_>) -> fmt::Result {
        write!(f, "{}", self.number())
    }
}
