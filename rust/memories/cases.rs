//! The groups of memories, each with what document 01 says of all of them.

use crate::forests::{arranged, shapes};
use crate::paper::Sentence;
use crate::sketch::*;
use crate::{chain, lent, nodes};

/// What holds of every memory of a group.
pub enum Says {
    Ready,
    Spent,
    /// Unsound: exactly these sentences do not hold.
    Breaks(&'static [Sentence]),
    /// FRAME or SCRATCH.
    Refused(u32),
    /// Each as it is.
    Mixed,
}

pub struct Group {
    pub about: String,
    pub says: Says,
    pub memories: Vec<Memory>,
}

pub fn group(about: impl Into<String>, says: Says, memories: Vec<Memory>) -> Group {
    Group { about: about.into(), says, memories }
}

/// A forest with something of everything: five nodes, two free slots.
pub fn base() -> Memory {
    Memory::drawn("1(2 3(4)) | 5 free 6 7")
}

pub fn all() -> Vec<Group> {
    let mut groups = sound();
    groups.extend(nodes::groups());
    groups.extend(chain::groups());
    groups.extend(lent::groups());
    groups.push(group("Every other link in every place of 1(2 3(4)): none, or one of the four nodes", Says::Mixed, swept("1(2 3(4))")));
    groups
}

fn sound() -> Vec<Group> {
    let mut groups = Vec::new();
    for (n, nodes) in ["no nodes", "one node", "two nodes", "three nodes"].iter().enumerate() {
        groups.push(group(format!("Every forest of {nodes}, in every arrangement of slots"), Says::Ready, arranged(n as u32)));
    }
    let stamp = |slot: u32| [0, 3, 32_767, 1, 0, 12][slot as usize % 6];
    groups.extend([
        group("Every shape of four nodes, slots in preorder", Says::Ready, shapes(4, 4, &[1, 2, 3, 4], &[], |_| 0)),
        group("Every shape of four nodes, slots in no order, with stamps", Says::Ready, shapes(4, 4, &[3, 1, 4, 2], &[], stamp)),
        group("Every shape of four nodes, among free slots", Says::Ready, shapes(4, 7, &[6, 2, 5, 4], &[7, 1, 3], stamp)),
        group("What document 01 leaves behind in its second example", Says::Ready, vec![p2()]),
    ]);
    groups
}

/// P2's words and header.
fn p2() -> Memory {
    let mut m = Memory::empty(3).headed([3, 1, 1]);
    m.words = vec![131_071, 0, 0, 0, 0, 0, 0, 0, 20, 0, 0, 196_608, 0, 0, 0, 30, 0, 131_072, 0, 0, 0];
    m
}

/// Every link of every slot, in turn, replaced by none and by every node.
fn swept(text: &str) -> Vec<Memory> {
    let m = Memory::drawn(text);
    let mut all = Vec::new();
    for slot in 1..=m.header[0] {
        for k in PARENT..=LAST {
            let ids = (0..=m.header[0]).map(|to| if to == 0 { 0 } else { m.id(to) });
            all.extend(ids.map(|id| m.clone().with(slot, k, id)).filter(|other| other.words != m.words));
        }
    }
    all
}
