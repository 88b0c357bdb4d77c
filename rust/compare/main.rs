//! The exported validator against a slow reading of document 01, and against the crate's `validate` wherever its types can hold the
//! memory: number, result, every scratch word, and that words and header stay. It stops at the first difference.
//! compare [MILLIONS [SEED]]: two slots with every choice of links, memories of the crate's own calls, damaged and random ones, large ones
//! compare three: three live slots, every choice of their fifteen links, 4^15 memories

#[path = "../common/damage.rs"]
mod damage;
#[path = "../common/dice.rs"]
mod dice;
#[path = "../common/paper.rs"]
mod paper;
#[path = "../common/shapes.rs"]
mod shapes;

use damage::{damage, lent, pair_ring, random_words};
use dice::Dice;
use indextree::Arena;
use lift::face;
use paper::Sentence;
use shapes::*;
use std::hint::black_box;

#[derive(Default)]
struct Tally {
    tried: u64,
    frame: u64,
    scratch: u64,
    unsound: u64,
    spent: u64,
    ready: u64,
    held: u64,
    /// Memories of which one sentence alone does not hold.
    alone: Vec<(Sentence, u64)>,
}

impl Tally {
    fn count_alone(&mut self, sentence: Sentence) {
        match self.alone.iter_mut().find(|a| a.0 == sentence) {
            Some(a) => a.1 += 1,
            None => self.alone.push((sentence, 1)),
        }
    }

    fn print(&mut self, what: &str) {
        println!("{what}: {} memories, no difference", self.tried);
        println!(
            "  FRAME {}, SCRATCH {}, unsound {}, spent {}, ready {}; {} held by the crate too",
            self.frame, self.scratch, self.unsound, self.spent, self.ready, self.held
        );
        self.alone.sort();
        let alone: Vec<String> = self.alone.iter().map(|(s, n)| format!("{s:?} {n}")).collect();
        println!("  one sentence alone broken: {}", alone.join(", "));
    }

    /// One memory, with that many scratch words lent.
    fn compare(&mut self, words: &[u32], header: [u32; 3], lent: usize, with_crate: bool) {
        self.tried += 1;
        let before: Vec<u32> = (0..lent as u32).map(|i| i.wrapping_add(self.tried as u32) | 1).collect();
        let mut scratch = before.clone();
        let (mut words_lent, mut header_lent) = (words.to_vec(), header);
        let got = face::validate(&words_lent, &header_lent, &mut scratch);
        // That it only reads is looked at below, not believed.
        black_box((&mut words_lent, &mut header_lent));
        let mut after = before;
        let want = match paper::unfit(words, header, lent) {
            0 => {
                after[..2 * header[0] as usize].fill(0);
                (0, u32::from(self.read(words, header, with_crate)))
            }
            number => {
                *(if number == 1 { &mut self.frame } else { &mut self.scratch }) += 1;
                (number, 0)
            }
        };
        assert!(got == want, "answered {got:?}, document 01 {want:?}: {lent} scratch words, {header:?} {words:?}");
        assert!(scratch == after, "scratch: {lent} words, {header:?} {words:?}");
        assert!(words == words_lent && header == header_lent, "words or header are written: {header:?} {words:?}");
    }

    /// Whether memory is sound, by the reading and by the crate.
    fn read(&mut self, words: &[u32], header: [u32; 3], with_crate: bool) -> bool {
        let reading = paper::read(words, header);
        if let Some(arena) = with_crate.then(|| Arena::from_words(words, header)).flatten() {
            self.held += 1;
            assert!(arena.validate() == reading.sound(), "the crate differs from the reading: {header:?} {words:?}");
        }
        if let [sentence] = reading.broken[..] {
            self.count_alone(sentence);
        }
        *(if reading.ready() {
            &mut self.ready
        } else if reading.sound() {
            &mut self.spent
        } else {
            &mut self.unsound
        }) += 1;
        reading.sound()
    }
}

/// Two slots of some kinds and stamps, every choice of their links among none and the two.
fn two_slots(t: &mut Tally) {
    let firsts = [0u32, 5, 98_304, 65_535, 65_536];
    for a in firsts {
        for b in firsts {
            let ids = [0, 65_536 | a & 0xffff, 131_072 | b & 0xffff];
            for choice in 0..3u32.pow(10) {
                let mut words = [0u32; 14];
                (words[0], words[7]) = (a, b);
                let mut rest = choice;
                for k in 0..10 {
                    words[k / 5 * 7 + 2 + k % 5] = ids[(rest % 3) as usize];
                    rest /= 3;
                }
                t.compare(&words, [2, 0, 0], 4, true);
            }
        }
    }
}

fn three_slots(t: &mut Tally) {
    let mut words = [0u32; 21];
    for choice in 0..1u32 << 30 {
        for k in 0..15 {
            words[k / 5 * 7 + 2 + k % 5] = (choice >> (2 * k) & 3) << 16;
        }
        t.compare(&words, [3, 0, 0], 6, false);
    }
}

fn small(d: &mut Dice, t: &mut Tally, most: u64) {
    while t.tried < most {
        let size = d.one_of(&[3, 5, 8, 14, 30]);
        let calls = 1 + d.below(size * 6);
        let (words, header) = random_calls(d, size, calls).to_words();
        for i in 0..45 {
            let (mut words, mut header) = if i < 41 { (words.clone(), header) } else { random_words(d) };
            for _ in 0..if i == 0 { 0 } else { 1 + d.below(3) } {
                damage(d, &mut words, &mut header);
            }
            let (words, header, scratch) = lent(d, &words, header);
            t.compare(&words, header, scratch, true);
        }
    }
}

/// Damaged forests of up to 65,535 slots, and more words lent than that.
fn large(d: &mut Dice, t: &mut Tally) {
    for slots in [2_048, 65_534, 65_535] {
        for arena in [churned(d, slots), removed(d, slots), chain(d, slots, true, true), chain(d, slots, false, true), single(slots)] {
            let (words, header) = arena.to_words();
            for i in 0..40 {
                let (mut words, mut header) = (words.clone(), header);
                for _ in 0..i % 3 {
                    damage(d, &mut words, &mut header);
                }
                if i % 5 == 4 {
                    pair_ring(&mut words, slots - 1, slots - 1 - d.below(slots / 2));
                }
                if i % 4 == 3 {
                    words.extend([0x1_0001; 20]);
                }
                t.compare(&words, header, 2 * slots + i % 2, true);
            }
        }
    }
    // One slot more than there can be: used 65,535 is within the capacity, used 65,536 is not.
    let words = vec![0; 65_536 * 7];
    t.compare(&words, [65_535, 0, 0], 131_072, true);
    t.compare(&words, [65_536, 0, 0], 131_072, true);
}

fn main() {
    let arguments: Vec<String> = std::env::args().skip(1).collect();
    let mut t = Tally::default();
    if arguments.first().is_some_and(|a| a == "three") {
        three_slots(&mut t);
        return t.print("three slots, every choice of links");
    }
    let millions: f64 = arguments.first().map_or(5.0, |a| a.parse().expect("MILLIONS is a number"));
    let d = &mut Dice(arguments.get(1).map_or(88_172_645_463_325_252, |a| a.parse().expect("SEED is a number")));
    two_slots(&mut t);
    t.print("two slots, every choice of links");
    let mut t = Tally::default();
    small(d, &mut t, (millions * 1e6) as u64);
    t.print("small memories");
    let mut t = Tally::default();
    large(d, &mut t);
    t.print("large memories");
}
