//! A tree for lift dispatch over a proved core: group, car, stop and call in one arena of fixed capacity, with numbers as the data.
//!
//! Each call is one exported function of `liblift_c.a`, which is proved to meet its statement for every input. This crate
//! owns the memory that those functions are lent, gives identifiers a type of their own and refusals an error type. It decides nothing.
//!
//! ```
//! use lift::{Arena, Refusal};
//!
//! let mut arena = Arena::with_capacity(2_048);
//! let group = arena.new_node(100)?;
//! let car = group.append_value(3, &mut arena)?;
//! let call = car.append_value(5003, &mut arena)?;
//! assert_eq!(call.parent(&arena)?, Some(car));
//!
//! // The visitor cancels, and the slot goes to somebody else.
//! call.checked_remove(&mut arena)?;
//! let other = car.append_value(5006, &mut arena)?;
//!
//! // The same cancel once more: the old identifier is not found, and the other ride stays.
//! assert_eq!(call.checked_remove(&mut arena), Err(Refusal::REMOVED));
//! assert_eq!(arena.get(other), Ok(5006));
//! # Ok::<(), Refusal>(())
//! ```
//!
//! Names are those of indextree 4.9.2 where a call has a counterpart there, and calls on a node stand at [`NodeId`] and take the arena
//! last, as they do there. What differs: a call that names a node answers a [`Result`], since an identifier may be stale, and reads look
//! at the stamp too; the capacity is fixed; lists come as a `Vec`.
//!
//! [`Arena`] can be sent to another thread and not shared between two: calls that only read use its scratch.

#![warn(missing_docs)]
#![deny(unsafe_op_in_unsafe_fn)]

mod arena;
pub mod face;
mod id;
mod refusal;
mod walk;

pub use arena::{Arena, Census};
pub use id::NodeId;
pub use refusal::Refusal;
pub use walk::{Mark, NodeEdge, Traverse};
