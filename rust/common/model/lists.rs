//! The lists, descendant count, `subtree_eq`.

use super::forest::Forest;
use super::{Answer, Header, ROOM, answer, named, ready};

#[derive(Clone, Copy, PartialEq, Eq, Debug)]
pub enum List {
    Descendants,
    BreadthFirst,
    Leaves,
    Ancestors,
    Children,
    FollowingSiblings,
    PrecedingSiblings,
    Predecessors,
}

pub const LISTS: [List; 8] = [
    List::Descendants,
    List::BreadthFirst,
    List::Leaves,
    List::Ancestors,
    List::Children,
    List::FollowingSiblings,
    List::PrecedingSiblings,
    List::Predecessors,
];

fn slots(list: List, forest: &mut Forest, slot: u32) -> Vec<u32> {
    let preorder = || forest.preorder(slot).into_iter();
    match list {
        List::Descendants => preorder().map(|p| p.0).collect(),
        List::BreadthFirst => {
            // Within a level, preorder goes from left to right.
            let mut order: Vec<_> = preorder().collect();
            order.sort_by_key(|p| p.1);
            order.into_iter().map(|p| p.0).collect()
        }
        List::Leaves => preorder().map(|p| p.0).filter(|&s| forest.children[s as usize].is_empty()).collect(),
        List::Ancestors => [vec![slot], forest.ancestors(slot)].concat(),
        List::Children => forest.children[slot as usize].clone(),
        List::FollowingSiblings => {
            let (home, at) = forest.home(slot);
            forest.chain(home)[at..].to_vec()
        }
        List::PrecedingSiblings => {
            let (home, at) = forest.home(slot);
            forest.chain(home)[..=at].iter().rev().copied().collect()
        }
        List::Predecessors => {
            let up = [vec![slot], forest.ancestors(slot)].concat();
            up.into_iter().flat_map(|s| slots(List::PrecedingSiblings, forest, s)).collect()
        }
    }
}

pub fn list(kind: List, words: &[u32], header: &Header, scratch: &mut [u32], id: u32, out: &mut [u32]) -> Answer {
    answer(ready(words, header, scratch).and_then(|()| {
        let slot = named(words, header, id)?;
        let slots = slots(kind, &mut Forest::read(words, header), slot);
        if out.len() < slots.len() {
            return Err(ROOM);
        }
        for (place, s) in out.iter_mut().zip(&slots) {
            *place = s * 65_536 + words[(*s as usize - 1) * 7];
        }
        Ok(slots.len() as u32)
    }))
}

pub fn descendant_count(words: &[u32], header: &Header, scratch: &mut [u32], id: u32) -> Answer {
    answer(ready(words, header, scratch).and_then(|()| {
        let slot = named(words, header, id)?;
        Ok(Forest::read(words, header).preorder(slot).len() as u32)
    }))
}

/// A subtree by depths and numbers in preorder: that determines its shape.
fn shape(words: &[u32], header: &Header, slot: u32) -> Vec<(usize, u32)> {
    Forest::read(words, header).preorder(slot).into_iter().map(|(s, depth)| (depth, words[(s as usize - 1) * 7 + 1])).collect()
}

/// The first memory is judged, then the second, then the two identifiers.
pub fn subtree_eq(
    (words, header, id): (&[u32], &Header, u32),
    (other_words, other_header, other_id): (&[u32], &Header, u32),
    scratch: &mut [u32],
) -> Answer {
    answer(ready(words, header, scratch).and_then(|()| ready(other_words, other_header, scratch)).and_then(|()| {
        let (slot, other) = (named(words, header, id)?, named(other_words, other_header, other_id)?);
        Ok(u32::from(shape(words, header, slot) == shape(other_words, other_header, other)))
    }))
}
