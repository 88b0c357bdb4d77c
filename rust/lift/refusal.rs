//! The numbers of document 01's table, apart from DONE.

use std::fmt;

/// Why a call was refused, by the names of document 01. A refused call changes no node.
///
/// ```
/// use lift::{Arena, Refusal};
///
/// let mut arena = Arena::with_capacity(8);
/// let call = arena.new_node(10)?;
/// call.checked_remove(&mut arena)?;
/// let refusal = call.checked_remove(&mut arena).unwrap_err();
/// assert_eq!(refusal, Refusal::REMOVED);
/// assert_eq!(refusal.number(), 4);
/// assert_eq!(refusal.to_string(), "REMOVED: a named identifier is not found");
/// # Ok::<(), Refusal>(())
/// ```
#[derive(Clone, Copy, Debug, PartialEq, Eq, Hash)]
#[repr(u32)]
pub enum Refusal {
    /// Used exceeds the capacity.
    FRAME = 1,
    /// Scratch is under 2 × used words.
    SCRATCH = 2,
    /// Memory is not ready; in a load, the image is not sound.
    INVALID = 3,
    /// A named identifier is not found.
    REMOVED = 4,
    /// A move's two identifiers are equal.
    SELF = 5,
    /// The node to move is an ancestor of the target.
    ANCESTOR = 6,
    /// A creation, with every slot live or spent.
    FULL = 7,
    /// An output or a destination is too short.
    ROOM = 8,
    /// An unknown code, or an unused byte or argument that is not zero.
    COMMAND = 9,
    /// 1 to 11 bytes are left at the end of a trace.
    PART = 10,
    /// The image's mark is not LFT.
    MARK = 11,
    /// The image's version is not 1.
    VERSION = 12,
    /// The image is under 11 bytes, or not 11 + 28 × used.
    LENGTH = 13,
}

use Refusal::*;

impl Refusal {
    const ALL: [Refusal; 13] = [FRAME, SCRATCH, INVALID, REMOVED, SELF, ANCESTOR, FULL, ROOM, COMMAND, PART, MARK, VERSION, LENGTH];

    /// The number in document 01's table, 1 to 13.
    pub fn number(self) -> u32 {
        self as u32
    }

    /// What a number of the table says: 0 is DONE. None of a number above 13.
    pub fn of_number(number: u32) -> Option<Result<(), Refusal>> {
        match number {
            0 => Some(Ok(())),
            _ => Self::ALL.get(number as usize - 1).map(|&refusal| Err(refusal)),
        }
    }

    /// The same of a number that a call answered.
    pub(crate) fn answered(number: u32) -> Result<(), Refusal> {
        Self::of_number(number).expect("a call answers a number of document 01's table")
    }

    fn reason(self) -> &'static str {
        match self {
            FRAME => "used exceeds the capacity",
            SCRATCH => "scratch is too short",
            INVALID => "memory is not ready, or the image is not sound",
            REMOVED => "a named identifier is not found",
            SELF => "a node cannot be moved to itself",
            ANCESTOR => "the node to move is an ancestor of the target",
            FULL => "no slot is left",
            ROOM => "an output or a destination is too short",
            COMMAND => "an unknown code, or an unused byte or argument that is not zero",
            PART => "the trace ends within a command",
            MARK => "the image's mark is not LFT",
            VERSION => "the image's version is not 1",
            LENGTH => "the image is too short, or of another length than its slots need",
        }
    }
}

impl fmt::Display for Refusal {
    fn fmt(&self, f: &mut fmt::Formatter<'_>) -> fmt::Result {
        write!(f, "{self:?}: {}", self.reason())
    }
}

impl std::error::Error for Refusal {}
