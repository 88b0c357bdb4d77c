//! Stands in for a module that docs/src leaves out: a name, and no printing.

use crate::{Arena, NodeId};

/// What `debug_pretty_print` answers.
#[derive(Clone, Copy)]
pub struct DebugPrettyPrint<'a, T> {
    /// The root.
    pub id: &'a NodeId,
    /// The arena.
    pub arena: &'a Arena<T>,
}

impl<'a, T> DebugPrettyPrint<'a, T> {
    pub(crate) fn new(id: &'a NodeId, arena: &'a Arena<T>) -> Self {
        Self { id, arena }
    }
}
