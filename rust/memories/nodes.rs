//! Live slots and their links, sentence by sentence.

use crate::cases::{Group, Says, base, group};
use crate::paper::Sentence::*;
use crate::sketch::*;

pub fn groups() -> Vec<Group> {
    [slots(), children(), siblings(), once()].into_iter().flatten().collect()
}

fn each(m: &Memory, edits: &[(u32, usize, u32)]) -> Vec<Memory> {
    edits.iter().map(|&(slot, k, word)| m.clone().with(slot, k, word)).collect()
}

fn slots() -> Vec<Group> {
    let kinds = |kind: u32| base().with(5, STAMP, kind * 65_536);
    let mut groups = vec![
        group("A live slot of kind 1, of kind 2, of kind 65,535", Says::Breaks(&[Kind]), vec![kinds(1), kinds(2), kinds(65_535)]),
        group(
            "A link to a live slot of kind 1",
            Says::Breaks(&[Kind, Links]),
            vec![base().linked(4, FIRST, 5).linked(4, LAST, 5).with(5, STAMP, 65_536)],
        ),
    ];
    let unfound = [
        ("slot 0 with a stamp", 5),
        ("a slot beyond those used", 8 * 65_536),
        ("the highest identifier there is", u32::MAX),
        ("a later stamp of a live slot", 5 * 65_536 + 1),
        ("a live slot with the low half 32,768", 5 * 65_536 + 32_768),
        ("a removed slot by its own stamp", 6 * 65_536 + 65_535),
        ("a removed slot by the stamp that it had", 6 * 65_536),
    ];
    for (name, id) in unfound {
        // Both ends of a leaf's children: nothing else speaks of these two links.
        let alone = base().with(4, FIRST, id).with(4, LAST, id);
        groups.push(group(format!("First and last child: {name}"), Says::Breaks(&[Links]), vec![alone]));
        let others = each(&base(), &[(2, PARENT, id), (3, PREVIOUS, id), (2, NEXT, id), (3, FIRST, id), (3, LAST, id)]);
        groups.push(group(format!("Parent, previous, next, first child, last child: {name}"), Says::Mixed, others));
    }
    groups
}

fn children() -> Vec<Group> {
    vec![
        group("A last child and no first", Says::Breaks(&[Both]), vec![base().linked(5, LAST, 4), base().linked(2, LAST, 2)]),
        group("A first child and no last", Says::Breaks(&[Both, Ends]), vec![base().with(1, LAST, 0), base().with(3, LAST, 0)]),
        group(
            "A first child with a previous: the one before it is reached from nowhere",
            Says::Breaks(&[Starts, Once]),
            vec![base().linked(1, FIRST, 3)],
        ),
        group(
            "The child chain does not end at the last child",
            Says::Breaks(&[Ends]),
            vec![base().linked(1, LAST, 2), base().linked(1, LAST, 4), base().linked(1, LAST, 1), base().linked(3, LAST, 5)],
        ),
        group(
            "An only child, two children that name another parent",
            Says::Breaks(&[Named]),
            vec![base().linked(4, PARENT, 5), base().linked(4, PARENT, 1), base().linked(2, PARENT, 5).linked(3, PARENT, 5)],
        ),
        group(
            "An only child that names none: it is a start as well, and reached twice",
            Says::Breaks(&[Named, Once]),
            vec![base().with(4, PARENT, 0)],
        ),
    ]
}

fn siblings() -> Vec<Group> {
    let root_chain = || Memory::drawn("1 2 3 | 4");
    vec![
        group(
            "A next sibling whose previous is none, or another",
            Says::Breaks(&[Agree]),
            vec![
                base().with(3, PREVIOUS, 0),
                Memory::drawn("1(2 3 4)").linked(4, PREVIOUS, 2),
                base().linked(3, PREVIOUS, 3),
                root_chain().linked(3, PREVIOUS, 1),
            ],
        ),
        group(
            "The same on a root chain: the next sibling is a start as well",
            Says::Breaks(&[Agree, Once]),
            vec![root_chain().with(2, PREVIOUS, 0), root_chain().with(3, PREVIOUS, 0)],
        ),
        group(
            "A root whose previous does not know it",
            Says::Breaks(&[Agree, Once]),
            vec![root_chain().linked(4, PREVIOUS, 3), root_chain().linked(4, PREVIOUS, 1), root_chain().linked(4, PREVIOUS, 4)],
        ),
        group("Two nodes with one next", Says::Breaks(&[Agree, Once]), vec![root_chain().linked(4, NEXT, 3)]),
        group(
            "Siblings with different parents",
            Says::Breaks(&[Share]),
            vec![
                root_chain().linked(2, PARENT, 4).linked(3, PARENT, 4),
                root_chain().linked(3, PARENT, 4),
                root_chain().linked(3, PARENT, 1),
            ],
        ),
        group(
            "A child chain whose second names another parent, or none",
            Says::Breaks(&[Named, Share]),
            vec![base().linked(3, PARENT, 5), base().with(3, PARENT, 0), base().linked(3, PARENT, 2)],
        ),
    ]
}

fn once() -> Vec<Group> {
    let alone = || Memory::drawn("1 | 2 | 3 | 4");
    let only_child =
        |m: Memory, parent: u32, child: u32| m.linked(parent, FIRST, child).linked(parent, LAST, child).linked(child, PARENT, parent);
    let next = |m: Memory, a: u32, b: u32| m.linked(a, NEXT, b).linked(b, PREVIOUS, a);
    let children_of_own = next(alone().linked(2, PARENT, 1).linked(3, PARENT, 1), 2, 3)
        .linked(1, PARENT, 3)
        .linked(1, FIRST, 2)
        .linked(1, LAST, 3)
        .linked(3, FIRST, 1)
        .linked(3, LAST, 1);
    vec![
        group(
            "A cycle of parents: one node its own only child, two, three, four in a ring",
            Says::Breaks(&[Once]),
            vec![
                only_child(alone(), 1, 1),
                only_child(only_child(alone(), 1, 2), 2, 1),
                only_child(only_child(only_child(alone(), 1, 3), 3, 2), 2, 1),
                only_child(only_child(only_child(only_child(alone(), 4, 3), 3, 2), 2, 1), 1, 4),
            ],
        ),
        group("A cycle of parents with a sibling on the way", Says::Breaks(&[Once]), vec![children_of_own]),
        group(
            "A cycle of next: one node its own next, two, three, four in a ring",
            Says::Breaks(&[Once]),
            vec![
                next(alone(), 1, 1),
                next(next(alone(), 1, 2), 2, 1),
                next(next(next(alone(), 1, 3), 3, 2), 2, 1),
                next(next(next(next(alone(), 4, 3), 3, 2), 2, 1), 1, 4),
            ],
        ),
        group("A cycle of next under a parent", Says::Breaks(&[Starts, Ends, Once]), vec![next(base(), 3, 2)]),
        group(
            "Children that their parent does not know",
            Says::Breaks(&[Once]),
            vec![alone().linked(2, PARENT, 1), next(alone(), 2, 3).linked(2, PARENT, 1).linked(3, PARENT, 1)],
        ),
        group(
            "A node that is first child of two",
            Says::Breaks(&[Named, Once]),
            vec![only_child(alone(), 1, 2).linked(3, FIRST, 2).linked(3, LAST, 2)],
        ),
        group(
            "A node that is both next and first child of one",
            Says::Breaks(&[Starts, Share, Once]),
            vec![next(only_child(alone(), 1, 2), 1, 2)],
        ),
    ]
}
