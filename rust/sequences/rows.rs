//! Each row of docs/DIFFERENCES.md on its smallest input: what the crate does, and what the library answers.

use crate::theirs::found;
use indextree::{Arena, NodeEdge, NodeId};
use lift::face;
use std::panic::{AssertUnwindSafe, catch_unwind};

/// A library's memory of some slots, with scratch.
struct Ours {
    words: Vec<u32>,
    header: [u32; 3],
    scratch: Vec<u32>,
}

impl Ours {
    fn new(slots: usize) -> Self {
        Ours { words: vec![0; 7 * slots], header: [0; 3], scratch: vec![0; 2 * slots] }
    }

    fn create(&mut self, number: u32) -> (u32, u32) {
        face::new_node(&mut self.words, &mut self.header, &mut self.scratch, number)
    }

    fn remove(&mut self, id: u32) -> (u32, u32) {
        face::checked_remove(&mut self.words, &mut self.header, &mut self.scratch, id)
    }

    fn append_value(&mut self, target: u32, number: u32) -> (u32, u32) {
        face::append_value(&mut self.words, &mut self.header, &mut self.scratch, target, number)
    }
}

fn node(id: u32) -> NodeId {
    NodeId::of_number(id).expect("slot not 0")
}

fn panics<T>(call: impl FnOnce() -> T) -> bool {
    catch_unwind(AssertUnwindSafe(call)).is_err()
}

fn row(name: &str, holds: bool) {
    assert!(holds, "row {name} of docs/DIFFERENCES.md is not as it says");
    println!("{name}: as the row says");
}

pub fn all() {
    // The panics that F6 speaks of are not to be seen.
    let hook = std::panic::take_hook();
    std::panic::set_hook(Box::new(|_| {}));
    let rows: [(&str, fn() -> bool); 11] = [
        ("F1", f1),
        ("F2", f2),
        ("F3", f3),
        ("F4", f4),
        ("F5", f5),
        ("F6", f6),
        ("F7", f7),
        ("F8", f8),
        ("F9", f9),
        ("F10", f10),
        ("F11", f11),
    ];
    let said: Vec<bool> = rows.iter().map(|(_, f)| catch_unwind(f).unwrap_or(false)).collect();
    std::panic::set_hook(hook);
    for ((name, _), holds) in rows.iter().zip(said) {
        row(name, holds);
    }
}

fn f1() -> bool {
    let (mut theirs, mut ours) = (Arena::new(), Ours::new(2));
    for _ in 0..32_767 {
        theirs.new_node(0).remove(&mut theirs);
        let (_, id) = ours.create(0);
        ours.remove(id);
    }
    let spends = theirs.new_node(0).number() == 131_072 && ours.create(0) == (0, 98_303);
    spends && ours.remove(98_303) == (0, 0) && ours.words[0] == 98_304 && ours.header == [1, 0, 0]
}

fn f2() -> bool {
    let words = [32_767, 0, 0, 0, 0, 0, 0];
    let mut theirs = Arena::from_words(&words, [1, 0, 0]).expect("the crate can hold it");
    node(98_303).remove(&mut theirs);
    let mut ours = Ours { words: words.to_vec(), header: [1, 0, 0], scratch: vec![0; 2] };
    ours.remove(98_303) == (0, 0) && ours.words[0] == 98_304 && theirs.to_words().0[0] == 98_305
}

fn f3() -> bool {
    let words = [98_305u32, 0, 0, 0, 0, 0, 0];
    let mut theirs = Arena::from_words(&words, [1, 1, 1]).expect("the crate can hold it").loaded();
    let mut image = b"LFT\x01\x00\x01\x00\x01\x00\x01\x00".to_vec();
    image.extend(words.iter().flat_map(|word| word.to_le_bytes()));
    let mut ours = Ours::new(1);
    let loaded = face::load(&image, &mut ours.words, &mut ours.header, &mut ours.scratch);
    let stays = loaded == (0, 0) && ours.header == [1, 1, 1] && ours.create(5) == (0, 98_303);
    stays && theirs.to_words().1 == [1, 0, 0] && theirs.new_node(5).number() == 131_072
}

/// new 1 (X), remove X, new 2, append_value 3 to that.
fn stale() -> (Arena<u32>, Ours, u32, u32, u32) {
    let (mut theirs, mut ours) = (Arena::new(), Ours::new(4));
    let x = theirs.new_node(1);
    x.remove(&mut theirs);
    let two = theirs.new_node(2);
    let three = two.append_value(3, &mut theirs);
    let (_, id) = ours.create(1);
    ours.remove(id);
    let (_, b) = ours.create(2);
    let (_, c) = ours.append_value(b, 3);
    assert_eq!((id, b, c), (x.number(), two.number(), three.number()));
    (theirs, ours, id, b, c)
}

fn f4() -> bool {
    let (theirs, mut ours, x, two, three) = stale();
    let reads = [face::get, face::parent, face::first_child, face::last_child, face::next_sibling, face::previous_sibling];
    let refused = reads.iter().all(|read| read(&ours.words, &ours.header, x) == (4, 0));
    let mut list = [0; 4];
    let listed = crate::ours::LISTS.iter().all(|call| call(&ours.words, &ours.header, &mut ours.scratch, x, &mut list) == (4, 0));
    let counted = face::descendant_count(&ours.words, &ours.header, &mut ours.scratch, x) == (4, 0);
    let equal = face::subtree_eq(&ours.words, &ours.header, x, &ours.words, &ours.header, two, &mut ours.scratch) == (4, 0);
    let old = node(x);
    let crate_reads = old.first_child(&theirs) == Some(node(three))
        && old.descendants(&theirs).count() == 2
        && old.descendant_count(&theirs) == 2
        && *theirs[old].get() == 2
        && old.subtree_eq(node(two), &theirs, &theirs)
        && theirs.get(old).is_none();
    refused && listed && counted && equal && crate_reads
}

fn f5() -> bool {
    let (mut theirs, ours, x, two, _) = stale();
    let top = theirs.new_node(4);
    top.append(node(two), &mut theirs);
    let edges: Vec<NodeEdge> = node(x).traverse(&theirs).collect();
    face::walk_start(&ours.words, &ours.header, x, &mut [0; 3]) == 4
        && edges.last() == Some(&NodeEdge::End(top))
        && !edges.contains(&NodeEdge::End(node(x)))
}

fn f6() -> bool {
    let (mut theirs, mut ours) = (Arena::new(), Ours::new(2));
    let x = theirs.new_node(1);
    x.remove(&mut theirs);
    let (_, id) = ours.create(1);
    ours.remove(id);
    let refused = ours.append_value(id, 2) == (4, 0);
    let value = panics(|| x.append_value(2, &mut theirs));
    let equal = panics(|| x.subtree_eq(x, &theirs, &theirs));
    let data = panics(|| *theirs[x].get());
    theirs.clear();
    face::clear(&mut ours.header);
    let link = panics(|| x.parent(&theirs));
    let list = panics(|| x.children(&theirs).count());
    refused && value && equal && data && link && list && face::parent(&ours.words, &ours.header, id) == (4, 0)
}

fn f7() -> bool {
    let (mut theirs, mut ours) = (Arena::new(), Ours::new(2));
    let (a, (_, b)) = (theirs.new_node(1).number(), ours.create(1));
    theirs.clear();
    face::clear(&mut ours.header);
    a == 65_536 && b == a && theirs.new_node(2).number() == a && ours.create(2) == (0, a)
}

fn f8() -> bool {
    let words = [0, 1, 0, 0, 0, 131_072, 196_608, 0, 2, 65_536, 0, 196_608, 0, 0, 0, 3, 65_536, 0, 0, 0, 0];
    let theirs = Arena::from_words(&words, [3, 0, 0]).expect("the crate can hold it");
    let parent = found(&theirs, 65_536).expect("found");
    let back: Vec<u32> = parent.children(&theirs).rev().map(NodeId::number).collect();
    let forward: Vec<u32> = parent.children(&theirs).map(NodeId::number).collect();
    let (mut list, mut scratch) = ([0; 4], [0; 6]);
    let answer = face::children(&words, &[3, 0, 0], &mut scratch, 65_536, &mut list);
    answer == (3, 0) && back == [196_608] && forward == [131_072, 196_608]
}

fn f9() -> bool {
    let (mut theirs, mut ours) = (Arena::new(), Ours::new(1));
    theirs.new_node(1);
    ours.create(1);
    theirs.new_node(2).number() == 131_072 && ours.create(2) == (7, 0)
}

fn f10() -> bool {
    let mut theirs = Arena::new();
    let last = (0..65_536).map(|i| theirs.new_node(i)).last().expect("some");
    let mut ours = Ours { words: vec![0; 7 * 65_536], header: [65_535, 0, 0], scratch: vec![0; 2 * 65_535] };
    // 65,535 live slots without links, and words for one more.
    usize::from(last) == 65_536 && ours.create(1) == (7, 0)
}

fn f11() -> bool {
    let (mut theirs, mut ours) = (Arena::new(), Ours::new(1));
    let x = theirs.new_node(1);
    x.remove(&mut theirs);
    let before = theirs.to_words();
    x.remove_children(&mut theirs);
    let (_, id) = ours.create(1);
    ours.remove(id);
    let answer = face::remove_children(&mut ours.words, &mut ours.header, &mut ours.scratch, id);
    theirs.to_words() == before && x.checked_remove_children(&mut theirs).is_err() && answer == (4, 0)
}
