//! The free chain.

use crate::cases::{Group, Says, base, group};
use crate::paper::Sentence::*;
use crate::sketch::*;

pub fn groups() -> Vec<Group> {
    [free_chain(), spent()].into_iter().flatten().collect()
}

fn free_chain() -> Vec<Group> {
    let three = || Memory::drawn("1 free 4 2 3");
    let off = || Memory::drawn("1(2) free 5");
    vec![
        group(
            "Free chains: of one slot, of every slot, in another order; a free slot with words in it",
            Says::Ready,
            vec![
                Memory::drawn("free 1"),
                Memory::drawn("free 3 1 2"),
                three(),
                three().with(2, PARENT, 65_536),
                three().with(4, FIRST, 131_071).with(4, PREVIOUS, 9),
            ],
        ),
        group(
            "Removed slots off the chain: of any kind and stamp, with any words",
            Says::Ready,
            vec![
                off(),
                off().with(3, STAMP, 65_535).with(3, NUMBER, 77),
                off().with(3, STAMP, 40_000).with(3, PARENT, 65_536).with(3, FIRST, 131_072),
                off().with(4, STAMP, u32::MAX).with(4, NUMBER, 5),
                off().with(4, STAMP, 131_072 + 32_768).with(4, NUMBER, u32::MAX),
                off().with(3, STAMP, SPENT),
            ],
        ),
        group(
            "Last free and no first",
            Says::Breaks(&[FreeBoth, FreeEnds]),
            vec![three().headed([4, 0, 3]), off().headed([5, 0, 5]), base().headed([7, 0, u32::MAX])],
        ),
        group("First free and no last", Says::Breaks(&[FreeBoth, FreeEnds]), vec![three().headed([4, 4, 0]), off().headed([5, 5, 0])]),
        group(
            "A cycle of the free chain: of one slot, two, three",
            Says::Breaks(&[FreeDistinct]),
            vec![
                Memory::drawn("free 1").with(1, NUMBER, 1),
                three().with(2, NUMBER, 2),
                three().with(3, NUMBER, 2),
                three().with(3, NUMBER, 4),
            ],
        ),
        group(
            "The chain leads beyond the slots used",
            Says::Breaks(&[FreeWithin]),
            vec![
                three().with(3, NUMBER, 5),
                three().with(2, NUMBER, 65_535),
                three().with(4, NUMBER, 65_536 + 2),
                three().with(3, NUMBER, u32::MAX),
                three().headed([4, 5, 3]),
                three().headed([4, u32::MAX, 3]),
                three().headed([4, 65_536 + 4, 3]),
            ],
        ),
        group(
            "The chain leads to a live slot",
            Says::Breaks(&[FreeRemoved, FreeKind]),
            vec![three().with(3, NUMBER, 1).with(1, NUMBER, 0).headed([4, 4, 1]), three().headed([4, 1, 3]).with(1, NUMBER, 4)],
        ),
        group(
            "The chain leads to a live slot of kind 1",
            Says::Breaks(&[Kind, FreeRemoved]),
            vec![three().headed([4, 1, 3]).with(1, NUMBER, 4).with(1, STAMP, 65_536)],
        ),
        group(
            "The chain leads to a removed slot of kind 0, of kind 2, of kind 65,535",
            Says::Breaks(&[FreeKind]),
            vec![
                three().with(2, STAMP, 65_535),
                three().with(4, STAMP, 32_768),
                three().with(3, STAMP, 131_072 + 65_535),
                three().with(3, STAMP, u32::MAX),
            ],
        ),
        group(
            "Last free is not the chain's last: on it, off it, live, beyond",
            Says::Breaks(&[FreeEnds]),
            vec![
                three().headed([4, 4, 2]),
                three().headed([4, 4, 4]),
                off().headed([5, 5, 4]),
                three().headed([4, 4, 1]),
                three().headed([4, 4, 5]),
                three().headed([4, 4, u32::MAX]),
                three().with(2, NUMBER, 0),
            ],
        ),
    ]
}

fn spent() -> Vec<Group> {
    let three = || Memory::drawn("1 free 4 2 3");
    vec![
        group(
            "A spent slot on the chain: sound, and not ready",
            Says::Spent,
            vec![
                three().with(4, STAMP, SPENT),
                three().with(2, STAMP, SPENT),
                three().with(3, STAMP, SPENT),
                Memory::drawn("free 1").with(1, STAMP, SPENT),
                three().with(2, STAMP, SPENT).with(4, STAMP, SPENT),
            ],
        ),
        group(
            "Stamps beside it on the chain: -32,767 and -1",
            Says::Ready,
            vec![three().with(4, STAMP, SPENT + 1), three().with(3, STAMP, FREED)],
        ),
        group(
            "A spent slot on a chain that does not end at last free",
            Says::Breaks(&[FreeEnds]),
            vec![three().with(4, STAMP, SPENT).headed([4, 4, 2])],
        ),
    ]
}
