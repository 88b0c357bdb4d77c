//! Document 01's commands, done by the crate indextree: its own calls, with numbers for its identifiers and its errors. Where an
//! identifier is not found no call of the crate is made, for many of them do not look at the stamp (docs/DIFFERENCES.md, F4 to F6, F11).

// Not every program here uses all of it.
#![allow(dead_code)]

use indextree::{Arena, NodeError, NodeId};

pub const REMOVED: u32 = 4;
pub const SELF: u32 = 5;
pub const ANCESTOR: u32 = 6;
pub const FULL: u32 = 7;
pub const COMMAND: u32 = 9;
pub const PART: u32 = 10;

/// Arguments used, by code.
pub const ARGUMENTS: [u8; 25] = [0, 1, 1, 2, 2, 2, 2, 2, 1, 1, 1, 1, 1, 1, 1, 1, 1, 1, 0, 1, 0, 2, 2, 2, 2];

#[derive(Clone, Copy, Debug, PartialEq, Eq)]
pub struct Command {
    pub code: u8,
    pub a: u32,
    pub b: u32,
}

impl Command {
    pub fn bytes(self) -> [u8; 12] {
        let mut bytes = [0; 12];
        bytes[0] = self.code;
        bytes[4..8].copy_from_slice(&self.a.to_le_bytes());
        bytes[8..].copy_from_slice(&self.b.to_le_bytes());
        bytes
    }

    /// None where the command is refused COMMAND.
    pub fn of_bytes(bytes: &[u8; 12]) -> Option<Self> {
        let a = u32::from_le_bytes([bytes[4], bytes[5], bytes[6], bytes[7]]);
        let b = u32::from_le_bytes([bytes[8], bytes[9], bytes[10], bytes[11]]);
        let code = bytes[0];
        if code == 0 || code > 24 || bytes[1] | bytes[2] | bytes[3] != 0 {
            return None;
        }
        let used = ARGUMENTS[code as usize];
        (used == 2 || b == 0 && (used == 1 || a == 0)).then_some(Self { code, a, b })
    }
}

/// The identifier of a number, where it is found.
pub fn found(arena: &Arena<u32>, id: u32) -> Option<NodeId> {
    if id & 0x8000 != 0 {
        return None;
    }
    NodeId::of_number(id).filter(|x| !x.is_removed(arena))
}

pub fn number(id: Option<NodeId>) -> u32 {
    id.map_or(0, NodeId::number)
}

fn error(e: NodeError) -> u32 {
    match e {
        NodeError::Removed => REMOVED,
        NodeError::AppendSelf | NodeError::PrependSelf | NodeError::InsertAfterSelf | NodeError::InsertBeforeSelf => SELF,
        NodeError::AppendAncestor | NodeError::PrependAncestor => ANCESTOR,
    }
}

fn done(r: Result<(), NodeError>) -> (u32, u32) {
    (r.map_or_else(error, |()| 0), 0)
}

/// Whether a creation finds no slot: the crate would grow.
fn full(arena: &Arena<u32>, capacity: usize) -> bool {
    arena.len() == capacity && arena.live_count() == capacity
}

/// The number and the result.
#[inline]
pub fn command(arena: &mut Arena<u32>, capacity: usize, Command { code, a, b }: Command) -> (u32, u32) {
    match code {
        1 if full(arena, capacity) => (FULL, 0),
        1 => (0, arena.new_node(a).number()),
        18 => (0, arena.live_count() as u32),
        20 => (0, u32::from(arena.validate())),
        4..=7 => moved(arena, code, a, b),
        _ => match found(arena, a) {
            None => (REMOVED, 0),
            Some(id) => named(arena, capacity, code, id, b),
        },
    }
}

/// The four moves. Of identifiers that its types can hold, stale ones too, the crate itself says SELF, Removed or Ancestor.
fn moved(arena: &mut Arena<u32>, code: u8, a: u32, b: u32) -> (u32, u32) {
    let held = |id: u32| if id & 0x8000 == 0 { NodeId::of_number(id) } else { None };
    let (Some(target), Some(node)) = (held(a), held(b)) else { return (if a == b { SELF } else { REMOVED }, 0) };
    done(match code {
        4 => target.checked_append(node, arena),
        5 => target.checked_prepend(node, arena),
        6 => target.checked_insert_after(node, arena),
        _ => target.checked_insert_before(node, arena),
    })
}

fn named(arena: &mut Arena<u32>, capacity: usize, code: u8, id: NodeId, b: u32) -> (u32, u32) {
    match code {
        2 => (0, *arena[id].get()),
        3 => {
            *arena[id].get_mut() = b;
            (0, 0)
        }
        8 => done(id.checked_detach(arena)),
        9 => done(id.checked_detach_children(arena)),
        10 => done(id.checked_remove(arena)),
        11 => done(id.checked_remove_subtree(arena)),
        12 => done(id.checked_remove_children(arena)),
        13 => (0, number(id.parent(arena))),
        14 => (0, number(id.first_child(arena))),
        15 => (0, number(id.last_child(arena))),
        16 => (0, number(id.next_sibling(arena))),
        17 => (0, number(id.previous_sibling(arena))),
        19 => (0, id.descendant_count(arena) as u32),
        _ if full(arena, capacity) => (FULL, 0),
        21 => (0, id.append_value(b, arena).number()),
        22 => (0, id.prepend_value(b, arena).number()),
        23 => (0, id.insert_after_value(b, arena).number()),
        _ => (0, id.insert_before_value(b, arena).number()),
    }
}
