//! The exported functions, over slices: each call of document 01 on lent memory, as `include/lift.h` has it.
//!
//! [`Arena`](crate::Arena) is the comfortable way. This one is for a controller that holds its memory itself. It is safe all the same: a
//! call takes any words, any header and any lengths, and answers a number of document 01's table and a result. A list, the bytes of an
//! image or the answers of a batch are written to the slice that is lent.

use std::ffi::c_uint;

/// Used, first free, last free.
pub type Header = [u32; 3];

/// The number of document 01's table, and the result.
pub type Answer = (u32, u32);

/// What `result` holds before a call. Every call writes it.
const UNWRITTEN: u32 = 0xdead_beef;

// `fn ours = exported (parameter: kind, ..)`: declares the exported function and calls it. A slice goes as pointer and length. `@` is
// followed by what was made so far, of the declaration or of the call, and the parameters that are left.
macro_rules! face {
    ($(#[$about:meta])* fn $name:ident = $export:ident ($($p:ident: $kind:ident),*)) => {
        $(#[$about])*
        pub fn $name($($p: face!(@taken $kind)),*) -> Answer {
            face!(@declared $export [] $($p: $kind,)*);
            let mut result = UNWRITTEN;
            let number = face!(@called $export result [] $($p: $kind,)*);
            (number, result)
        }
    };

    (@taken words) => { &[u32] };
    (@taken words_mut) => { &mut [u32] };
    (@taken bytes) => { &[u8] };
    (@taken bytes_mut) => { &mut [u8] };
    (@taken three) => { &[u32; 3] };
    (@taken three_mut) => { &mut [u32; 3] };
    (@taken number) => { u32 };

    (@declared $e:ident [$($d:tt)*]) => { unsafe extern "C" { fn $e($($d)* result: *mut u32) -> c_uint; } };
    (@declared $e:ident [$($d:tt)*] $p:ident: words, $($r:tt)*) => { face!(@declared $e [$($d)* $p: *const u32, _: usize,] $($r)*) };
    (@declared $e:ident [$($d:tt)*] $p:ident: words_mut, $($r:tt)*) => { face!(@declared $e [$($d)* $p: *mut u32, _: usize,] $($r)*) };
    (@declared $e:ident [$($d:tt)*] $p:ident: bytes, $($r:tt)*) => { face!(@declared $e [$($d)* $p: *const u8, _: usize,] $($r)*) };
    (@declared $e:ident [$($d:tt)*] $p:ident: bytes_mut, $($r:tt)*) => { face!(@declared $e [$($d)* $p: *mut u8, _: usize,] $($r)*) };
    (@declared $e:ident [$($d:tt)*] $p:ident: three, $($r:tt)*) => { face!(@declared $e [$($d)* $p: *const u32,] $($r)*) };
    (@declared $e:ident [$($d:tt)*] $p:ident: three_mut, $($r:tt)*) => { face!(@declared $e [$($d)* $p: *mut u32,] $($r)*) };
    (@declared $e:ident [$($d:tt)*] $p:ident: number, $($r:tt)*) => { face!(@declared $e [$($d)* $p: u32,] $($r)*) };

    // Safe: slices with their lengths, three words, one word; what is written overlaps nothing.
    (@called $e:ident $to:ident [$($a:expr,)*]) => { unsafe { $e($($a,)* &mut $to) } };
    (@called $e:ident $to:ident [$($a:expr,)*] $p:ident: number, $($r:tt)*) => { face!(@called $e $to [$($a,)* $p,] $($r)*) };
    (@called $e:ident $to:ident [$($a:expr,)*] $p:ident: three, $($r:tt)*) => { face!(@called $e $to [$($a,)* $p.as_ptr(),] $($r)*) };
    (@called $e:ident $to:ident [$($a:expr,)*] $p:ident: three_mut, $($r:tt)*) => { face!(@called $e $to [$($a,)* $p.as_mut_ptr(),] $($r)*) };
    (@called $e:ident $to:ident [$($a:expr,)*] $p:ident: words, $($r:tt)*) => { face!(@called $e $to [$($a,)* $p.as_ptr(), $p.len(),] $($r)*) };
    (@called $e:ident $to:ident [$($a:expr,)*] $p:ident: bytes, $($r:tt)*) => { face!(@called $e $to [$($a,)* $p.as_ptr(), $p.len(),] $($r)*) };
    // Words or bytes that are written.
    (@called $e:ident $to:ident [$($a:expr,)*] $p:ident: $k:ident, $($r:tt)*) => {
        face!(@called $e $to [$($a,)* $p.as_mut_ptr(), $p.len(),] $($r)*)
    };
}

macro_rules! reads {
    ($($name:ident = $export:ident;)*) => { $(face! {
        #[doc = concat!("`", stringify!($export), "`: FRAME, REMOVED; else the word read.")]
        fn $name = $export (words: words, header: three, id: number)
    })* };
}
reads! {
    get = lift_get;
    parent = lift_parent;
    first_child = lift_first_child;
    last_child = lift_last_child;
    next_sibling = lift_next_sibling;
    previous_sibling = lift_previous_sibling;
}

macro_rules! two {
    ($($name:ident = $export:ident ($second:ident);)*) => { $(face! {
        #[doc = concat!("`", stringify!($export), "`.")]
        fn $name = $export (words: words_mut, header: three_mut, scratch: words_mut, target: number, $second: number)
    })* };
}
two! {
    append_value = lift_append_value (number);
    prepend_value = lift_prepend_value (number);
    insert_after_value = lift_insert_after_value (number);
    insert_before_value = lift_insert_before_value (number);
    checked_append = lift_checked_append (moved);
    checked_prepend = lift_checked_prepend (moved);
    checked_insert_after = lift_checked_insert_after (moved);
    checked_insert_before = lift_checked_insert_before (moved);
}

macro_rules! one {
    ($($name:ident = $export:ident ($named:ident);)*) => { $(face! {
        #[doc = concat!("`", stringify!($export), "`.")]
        fn $name = $export (words: words_mut, header: three_mut, scratch: words_mut, $named: number)
    })* };
}
one! {
    new_node = lift_new_node (number);
    checked_detach = lift_checked_detach (id);
    checked_detach_children = lift_checked_detach_children (id);
    checked_remove = lift_checked_remove (id);
    checked_remove_subtree = lift_checked_remove_subtree (id);
    remove_children = lift_remove_children (id);
}

macro_rules! lists {
    ($($name:ident = $export:ident;)*) => { $(face! {
        #[doc = concat!("`", stringify!($export), "`: the identifiers go to the list, whole or not at all (ROOM); the result is how many.")]
        fn $name = $export (words: words, header: three, scratch: words_mut, id: number, list: words_mut)
    })* };
}
lists! {
    descendants = lift_descendants;
    breadth_first = lift_breadth_first;
    leaves = lift_leaves;
    ancestors = lift_ancestors;
    children = lift_children;
    following_siblings = lift_following_siblings;
    preceding_siblings = lift_preceding_siblings;
    predecessors = lift_predecessors;
}

face! {
    /// `lift_validate`: DONE with 1 for sound memory and 0 for any other; FRAME, SCRATCH.
    fn validate = lift_validate (words: words, header: three, scratch: words_mut)
}
face! {
    /// `lift_set`: FRAME, REMOVED.
    fn set = lift_set (words: words_mut, header: three, id: number, number: number)
}
face! {
    /// `lift_live_count`: FRAME, SCRATCH, INVALID.
    fn live_count = lift_live_count (words: words, header: three, scratch: words_mut)
}
face! {
    /// `lift_descendant_count`, the node with it: FRAME, SCRATCH, INVALID, REMOVED.
    fn descendant_count = lift_descendant_count (words: words, header: three, scratch: words_mut, id: number)
}
face! {
    /// `lift_subtree_eq`: 1 or 0; one scratch serves both memories.
    fn subtree_eq = lift_subtree_eq (
        words: words, header: three, id: number, other_words: words, other_header: three, other_id: number, scratch: words_mut
    )
}
face! {
    /// `lift_walk`: up to `budget` edges go to the list, the result is how many. State: root, next edge, mark.
    fn walk = lift_walk (words: words, header: three, state: three_mut, budget: number, list: words_mut)
}
face! {
    /// `lift_save`: the image goes to the bytes, whole or not at all (ROOM); the result is its length.
    fn save = lift_save (words: words, header: three, scratch: words_mut, bytes: bytes_mut)
}
face! {
    /// `lift_load`: the header is written by every load, by a refused one with zeros.
    fn load = lift_load (bytes: bytes, words: words_mut, header: three_mut, scratch: words_mut)
}
face! {
    /// `lift_batch`: a number and a result for each command go to the answers; the result is how many commands were answered.
    fn batch = lift_batch (words: words_mut, header: three_mut, scratch: words_mut, trace: bytes, answers: words_mut)
}

/// `lift_clear`: the header becomes zero.
pub fn clear(header: &mut Header) -> u32 {
    unsafe extern "C" {
        fn lift_clear(header: *mut u32) -> c_uint;
    }
    // Safe: three words.
    unsafe { lift_clear(header.as_mut_ptr()) }
}

/// `lift_census`: the number; live, free, spent, fresh, four zeros where refused.
pub fn census(words: &[u32], header: &Header, scratch: &mut [u32]) -> (u32, [u32; 4]) {
    unsafe extern "C" {
        fn lift_census(words: *const u32, _: usize, header: *const u32, scratch: *mut u32, _: usize, counts: *mut u32) -> c_uint;
    }
    let mut counts = [UNWRITTEN; 4];
    // Safe: wordss with their lengths, three words, four words.
    let number =
        unsafe { lift_census(words.as_ptr(), words.len(), header.as_ptr(), scratch.as_mut_ptr(), scratch.len(), counts.as_mut_ptr()) };
    (number, counts)
}

/// `lift_walk_start`: FRAME, REMOVED; else the state is that of a walk from `root`.
pub fn walk_start(words: &[u32], header: &Header, root: u32, state: &mut [u32; 3]) -> u32 {
    unsafe extern "C" {
        fn lift_walk_start(words: *const u32, _: usize, header: *const u32, root: u32, state: *mut u32) -> c_uint;
    }
    // Safe: a slice with its length, three words, three words.
    unsafe { lift_walk_start(words.as_ptr(), words.len(), header.as_ptr(), root, state.as_mut_ptr()) }
}
