//! Headers, and how much is lent.

use crate::cases::{Group, Says, base, group};
use crate::paper::Sentence::*;
use crate::sketch::*;

pub fn groups() -> Vec<Group> {
    [headers(), lent()].into_iter().flatten().collect()
}

fn headers() -> Vec<Group> {
    let rubbish: Vec<u32> = (1..=9).map(|i| i * 456_789_123 % 4_000_000_000).collect();
    vec![
        group(
            "Nothing used: over no words, over any words",
            Says::Ready,
            vec![Memory::empty(0), Memory::empty(0).and(&[0; 7]), Memory::empty(0).and(&rubbish), base().headed([0, 0, 0])],
        ),
        group(
            "Nothing used, and first free is not none",
            Says::Breaks(&[FreeBoth, FreeWithin]),
            vec![Memory::empty(0).headed([0, 1, 0]), base().headed([0, 6, 0]), Memory::empty(0).headed([0, u32::MAX, 0])],
        ),
        group(
            "Nothing used, and last free is not none",
            Says::Breaks(&[FreeBoth, FreeEnds]),
            vec![Memory::empty(0).headed([0, 0, 1]), base().headed([0, 0, 7])],
        ),
        group(
            "Nothing used, and neither is none",
            Says::Breaks(&[FreeWithin]),
            vec![Memory::empty(0).headed([0, 1, 1]), base().headed([0, 6, 7])],
        ),
        group(
            "Fewer slots used than there are words for: the others are fresh, whatever is in them",
            Says::Ready,
            vec![
                Memory::drawn("1(2)").and(&rubbish[..7]),
                Memory::drawn("1(2)").and(&rubbish),
                Memory::drawn("1(2) | 3").headed([2, 0, 0]),
            ],
        ),
        group(
            "Used leaves out a slot that is linked to",
            Says::Breaks(&[Links, Both]),
            vec![Memory::drawn("1 2(3)").headed([2, 0, 0]).with(2, LAST, 0)],
        ),
    ]
}

fn lent() -> Vec<Group> {
    let tight = || Memory::drawn("1(2) free 3");
    let cut = |n: usize| {
        let mut m = tight();
        m.words.truncate(n);
        m
    };
    let unsound = || tight().with(2, PARENT, 9);
    vec![
        group(
            "Used exceeds the whole slots lent",
            Says::Refused(1),
            vec![
                cut(20),
                cut(14),
                cut(0),
                tight().headed([4, 3, 3]),
                tight().headed([4, 3, 3]).and(&[0; 6]),
                tight().headed([65_536, 3, 3]),
                tight().headed([u32::MAX, 0, 0]),
                Memory::empty(0).headed([1, 0, 0]),
            ],
        ),
        group(
            "The same with too little scratch, and with memory that is not sound",
            Says::Refused(1),
            vec![cut(20).lent(5), cut(20).lent(0), unsound().headed([4, 3, 3]), unsound().headed([4, 3, 3]).lent(0)],
        ),
        group(
            "Scratch under 2 x used words",
            Says::Refused(2),
            vec![tight().lent(5), tight().lent(3), tight().lent(0), Memory::drawn("1").lent(1)],
        ),
        group("The same with memory that is not sound", Says::Refused(2), vec![unsound().lent(5), unsound().lent(0)]),
        group(
            "Scratch of 2 x used words, and of many more",
            Says::Ready,
            vec![tight().lent(6), tight().lent(40), Memory::drawn("1").lent(2), Memory::empty(0).lent(0)],
        ),
        group("The same with memory that is not sound", Says::Breaks(&[Links, Named]), vec![unsound().lent(6), unsound().lent(40)]),
    ]
}
