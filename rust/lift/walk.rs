//! The stepped walk.

use crate::arena::result;
use crate::{Arena, NodeId, Refusal, face};

/// An edge of a walk.
#[derive(Clone, Copy, Debug, PartialEq, Eq, Hash)]
pub enum NodeEdge {
    /// The walk comes to a node, before its children.
    Start(NodeId),
    /// It leaves the node, after its children.
    End(NodeId),
}

impl NodeEdge {
    /// Start is written as the identifier, End as that plus 32,768.
    fn of_word(word: u32) -> Self {
        match word & 0x8000 {
            0 => NodeEdge::Start(NodeId::answered(word)),
            _ => NodeEdge::End(NodeId::answered(word & !0x8000)),
        }
    }
}

/// What a walk says after some edges.
#[derive(Clone, Copy, Debug, PartialEq, Eq)]
pub enum Mark {
    /// It can be continued.
    More,
    /// No edge follows.
    Over,
    /// The next edge's node is not found. On an arena's memory, which is always ready, this is never said.
    Broken,
}

/// A walk that goes on where it stopped. It holds its arena, so that nothing changes meanwhile.
///
/// ```
/// # use lift::{Arena, Mark, NodeEdge::{End, Start}, Refusal};
/// # let mut arena = Arena::with_capacity(4);
/// let car = arena.new_node(3)?;
/// let call = car.append_value(5003, &mut arena)?;
///
/// // At most three edges at a time.
/// let mut walk = car.traverse(&arena)?;
/// assert_eq!(walk.edges(3), (vec![Start(car), Start(call), End(call)], Mark::More));
/// assert_eq!(walk.edges(3), (vec![End(car)], Mark::Over));
///
/// // Or as an iterator.
/// assert_eq!(car.traverse(&arena)?.count(), 4);
/// # Ok::<(), Refusal>(())
/// ```
pub struct Traverse<'a> {
    arena: &'a Arena,
    state: [u32; 3],
    /// Edges that the iterator has asked for and not given yet, the next one last.
    ahead: Vec<u32>,
}

impl<'a> Traverse<'a> {
    /// Edges that the iterator asks for at a time.
    const AHEAD: u32 = 256;

    pub(crate) fn start(arena: &'a Arena, root: NodeId) -> Result<Self, Refusal> {
        let mut state = [0; 3];
        let (words, header) = arena.memory();
        Refusal::answered(face::walk_start(words, header, root.number(), &mut state))?;
        Ok(Traverse { arena, state, ahead: Vec::new() })
    }

    /// Up to `budget` edges from the walk itself.
    fn step(&mut self, budget: u32) -> Vec<u32> {
        let (words, header) = self.arena.memory();
        // A walk of n nodes has 2 n edges, and so no more places are needed; the walk wants as many as its budget.
        let budget = budget.min(2 * header[0] + 1);
        let mut list = vec![0; budget as usize];
        let n =
            result(face::walk(words, header, &mut self.state, budget, &mut list)).expect("used is within the capacity, the list has room");
        list.truncate(n as usize);
        list
    }

    /// The next `budget` edges, or what is left, and what the walk then says.
    pub fn edges(&mut self, budget: u32) -> (Vec<NodeEdge>, Mark) {
        let from = self.ahead.len().saturating_sub(budget as usize);
        let mut words: Vec<u32> = self.ahead.drain(from..).rev().collect();
        words.extend(self.step(budget - words.len() as u32));
        let mark = match self.state[2] {
            _ if !self.ahead.is_empty() => Mark::More,
            0 => Mark::More,
            1 => Mark::Over,
            _ => Mark::Broken,
        };
        (words.into_iter().map(NodeEdge::of_word).collect(), mark)
    }
}

impl Iterator for Traverse<'_> {
    type Item = NodeEdge;

    fn next(&mut self) -> Option<NodeEdge> {
        if self.ahead.is_empty() {
            self.ahead = self.step(Self::AHEAD);
            self.ahead.reverse();
        }
        self.ahead.pop().map(NodeEdge::of_word)
    }
}
