//! The arena: it owns the words, the header and the scratch that the calls are lent.

use crate::face::{self, Answer, Header};
use crate::{NodeId, Refusal};
use std::cell::RefCell;
use std::fmt;

/// The slots of an arena by what they are; they add up to the capacity.
#[derive(Clone, Copy, Debug, PartialEq, Eq)]
pub struct Census {
    /// Nodes.
    pub live: u32,
    /// Removed, to be handed out again.
    pub free: u32,
    /// Removed after 32,768 handings-out, never to be handed out again.
    pub spent: u32,
    /// Not handed out yet.
    pub fresh: u32,
}

/// A forest of numbers in slots, at most as many as its capacity.
///
/// Its memory starts empty and is changed by the calls alone, so it is always ready: FRAME, SCRATCH and INVALID are never answered.
#[derive(Clone)]
pub struct Arena {
    words: Box<[u32]>,
    header: Header,
    scratch: RefCell<Box<[u32]>>,
}

/// Words to a slot.
const WORDS: usize = 7;

/// More slots than this no arena has.
const MOST: usize = 65_535;

/// The answer of a call, where it cannot be refused.
fn always<T>(answer: Result<T, Refusal>) -> T {
    answer.unwrap_or_else(|refusal| unreachable!("an arena's memory is always ready; answered {refusal}"))
}

pub(crate) fn result((number, result): Answer) -> Result<u32, Refusal> {
    Refusal::answered(number).map(|()| result)
}

impl Arena {
    /// An empty arena of `n` slots, at most 65,535.
    ///
    /// ```
    /// use lift::Arena;
    ///
    /// let arena = Arena::with_capacity(10);
    /// assert_eq!(arena.capacity(), 10);
    /// assert_eq!(Arena::with_capacity(100_000).capacity(), 65_535);
    /// ```
    pub fn with_capacity(n: usize) -> Self {
        let n = n.min(MOST);
        Arena { words: vec![0; WORDS * n].into(), header: [0; 3], scratch: RefCell::new(vec![0; 2 * n].into()) }
    }

    /// The number of slots.
    pub fn capacity(&self) -> usize {
        self.words.len() / WORDS
    }

    /// The slots in use, removed ones with them.
    pub fn len(&self) -> usize {
        self.header[0] as usize
    }

    /// Whether no slot is in use.
    pub fn is_empty(&self) -> bool {
        self.len() == 0
    }

    /// A new node, a chain of one. It takes the slot that was freed first, else the next fresh one; FULL where there is none.
    ///
    /// ```
    /// use lift::{Arena, Refusal};
    ///
    /// let mut arena = Arena::with_capacity(1);
    /// let a = arena.new_node(10)?;
    /// assert_eq!(arena.get(a), Ok(10));
    /// assert_eq!(arena.new_node(20), Err(Refusal::FULL));
    /// # Ok::<(), Refusal>(())
    /// ```
    pub fn new_node(&mut self, number: u32) -> Result<NodeId, Refusal> {
        self.change(|words, header, scratch| face::new_node(words, header, scratch, number)).map(NodeId::answered)
    }

    /// The number that a node carries. (indextree: `get_data`.)
    pub fn get(&self, id: NodeId) -> Result<u32, Refusal> {
        result(face::get(&self.words, &self.header, id.number()))
    }

    /// Stores another number in a node. (indextree: `get_data_mut`.)
    ///
    /// ```
    /// # use lift::{Arena, Refusal};
    /// # let mut arena = Arena::with_capacity(1);
    /// let a = arena.new_node(10)?;
    /// arena.set(a, 11)?;
    /// assert_eq!(arena.get(a), Ok(11));
    /// # Ok::<(), Refusal>(())
    /// ```
    pub fn set(&mut self, id: NodeId, number: u32) -> Result<(), Refusal> {
        result(face::set(&mut self.words, &self.header, id.number(), number)).map(drop)
    }

    /// The identifier that has this number, where it is found: for one that comes back from a kiosk.
    ///
    /// ```
    /// # use lift::{Arena, Refusal};
    /// # let mut arena = Arena::with_capacity(1);
    /// let a = arena.new_node(10)?;
    /// assert_eq!(a.number(), 65_536);
    /// assert_eq!(arena.node_id(65_536), Ok(a));
    /// a.checked_remove(&mut arena)?;
    /// assert_eq!(arena.node_id(65_536), Err(Refusal::REMOVED));
    /// # Ok::<(), Refusal>(())
    /// ```
    pub fn node_id(&self, number: u32) -> Result<NodeId, Refusal> {
        result(face::get(&self.words, &self.header, number)).map(|_| NodeId::answered(number))
    }

    /// How many nodes there are.
    pub fn live_count(&self) -> usize {
        always(self.read(face::live_count)) as usize
    }

    /// How many slots are live, free, spent, fresh.
    ///
    /// ```
    /// # use lift::{Arena, Census, Refusal};
    /// let mut arena = Arena::with_capacity(5);
    /// let a = arena.new_node(1)?;
    /// arena.new_node(2)?;
    /// a.checked_remove(&mut arena)?;
    /// assert_eq!(arena.census(), Census { live: 1, free: 1, spent: 0, fresh: 3 });
    /// # Ok::<(), Refusal>(())
    /// ```
    pub fn census(&self) -> Census {
        let (number, [live, free, spent, fresh]) = face::census(&self.words, &self.header, &mut self.scratch.borrow_mut());
        always(Refusal::answered(number));
        Census { live, free, spent, fresh }
    }

    /// Whether memory is sound, in document 01's words. By theorem it is; this looks.
    pub fn validate(&self) -> bool {
        always(self.read(face::validate)) == 1
    }

    /// Takes every slot out of use. Slots and stamps start again, so that an identifier from before may come again: forget them all.
    pub fn clear(&mut self) {
        always(Refusal::answered(face::clear(&mut self.header)));
    }

    /// The image: 11 bytes and 28 for each slot in use.
    ///
    /// ```
    /// # use lift::{Arena, Refusal};
    /// let mut arena = Arena::with_capacity(4);
    /// let a = arena.new_node(10)?;
    /// let image = arena.save();
    /// assert_eq!(image.len(), 39);
    ///
    /// let standby = Arena::load(&image, 4)?;
    /// assert_eq!(standby.get(a), Ok(10));
    /// assert_eq!(Arena::load(&image, 0).unwrap_err(), Refusal::ROOM);
    /// assert_eq!(Arena::load(b"LFT", 4).unwrap_err(), Refusal::LENGTH);
    /// # Ok::<(), Refusal>(())
    /// ```
    pub fn save(&self) -> Vec<u8> {
        let mut bytes = vec![0; 11 + 4 * WORDS * self.len()];
        let written = always(self.read(|words, header, scratch| face::save(words, header, scratch, &mut bytes)));
        debug_assert_eq!(written as usize, bytes.len());
        bytes
    }

    /// An arena of that many slots with the forest of an image: LENGTH, MARK, VERSION, ROOM, INVALID.
    pub fn load(image: &[u8], capacity: usize) -> Result<Arena, Refusal> {
        let mut arena = Arena::with_capacity(capacity);
        arena.change(|words, header, scratch| face::load(image, words, header, scratch))?;
        Ok(arena)
    }

    /// Does the 12-byte commands of a trace one after the other, and answers for each what it answered: a refusal does not stop it.
    ///
    /// ```
    /// # use lift::{Arena, Refusal};
    /// let mut arena = Arena::with_capacity(4);
    /// let new_10 = [1, 0, 0, 0, 10, 0, 0, 0, 0, 0, 0, 0];
    /// let no_code = [0; 12];
    /// let answers = arena.batch(&[new_10, no_code].concat());
    /// assert_eq!(answers, [Ok(65_536), Err(Refusal::COMMAND)]);
    /// ```
    pub fn batch(&mut self, trace: &[u8]) -> Vec<Result<u32, Refusal>> {
        let mut answers = vec![0; 2 * trace.len().div_ceil(12)];
        let count = self.change(|words, header, scratch| face::batch(words, header, scratch, trace, &mut answers));
        debug_assert_eq!(always(count) as usize * 2, answers.len());
        answers.chunks_exact(2).map(|answer| result((answer[0], answer[1]))).collect()
    }

    /// A call that changes the forest.
    pub(crate) fn change(&mut self, call: impl FnOnce(&mut [u32], &mut Header, &mut [u32]) -> Answer) -> Result<u32, Refusal> {
        result(call(&mut self.words, &mut self.header, self.scratch.get_mut()))
    }

    /// A call that reads, with scratch.
    pub(crate) fn read(&self, call: impl FnOnce(&[u32], &Header, &mut [u32]) -> Answer) -> Result<u32, Refusal> {
        result(call(&self.words, &self.header, &mut self.scratch.borrow_mut()))
    }

    /// The memory, for calls that need no scratch.
    pub(crate) fn memory(&self) -> (&[u32], &Header) {
        (&self.words, &self.header)
    }
}

/// The header; not the words.
impl fmt::Debug for Arena {
    fn fmt(&self, f: &mut fmt::Formatter<'_>) -> fmt::Result {
        let [used, first_free, last_free] = self.header;
        let mut shown = f.debug_struct("Arena");
        shown.field("capacity", &self.capacity()).field("used", &used).field("first_free", &first_free).field("last_free", &last_free);
        shown.finish_non_exhaustive()
    }
}

// An arena can be sent to another thread, an identifier shared.
const _: () = {
    const fn sent<T: Send>() {}
    const fn shared<T: Send + Sync>() {}
    sent::<Arena>();
    shared::<NodeId>();
};
