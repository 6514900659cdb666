//! Stands in for: the standard library's `alloc`, under that name, for the crate's text alone.
//!
//! Why: document 01 counts one step for each entry taken off the work list. decode.rs keeps its work list in a `Vec` and must stay
//! as supplied, so the `Vec` that it sees does the counting. It is the standard `Vec` in a wrapper: every method but `pop` is the
//! standard one, reached through `Deref`, and `pop` is the standard one with a counter beside it.
//!
//! What rests on it: the step counts of the oracle, and the length of the work list in one test. A verdict or a tree doesn't, unless the wrapper were to lose or invent an
//! element, and it has no code that could.

use std::cell::Cell;

pub use std::string;

thread_local! {
    static STEPS: Cell<u64> = const { Cell::new(0) };
    static MOST: Cell<usize> = const { Cell::new(0) };
}

/// Entries taken off a work list since the last call, in this thread; starts again at 0.
pub fn take_steps() -> u64 { STEPS.with(|s| s.replace(0)) }

/// The most entries that a work list had at once since the last call, in this thread; starts again at 0. It is looked at before each
/// entry is taken off, and decode.rs takes one off before it enters more.
pub fn take_most() -> usize { MOST.with(|m| m.replace(0)) }

pub mod vec {
    use core::fmt;
    use core::ops::{Deref, DerefMut};

    pub use std::vec::{Drain, IntoIter};

    #[derive(Clone, PartialEq, Eq, PartialOrd, Ord, Hash)]
    pub struct Vec<T>(std::vec::Vec<T>);

    impl<T> Vec<T> {
        pub fn new() -> Self { Vec(std::vec::Vec::new()) }

        pub fn with_capacity(n: usize) -> Self { Vec(std::vec::Vec::with_capacity(n)) }

        pub fn from_standard(v: std::vec::Vec<T>) -> Self { Vec(v) }

        /// Counts what is taken off a list of `NonTerm`, and nothing else: tokens and finished trees are kept in `Vec`s too. The
        /// type is private to decode.rs, so its name is all there is to go by. A `pop` that finds the list empty takes nothing off.
        #[inline]
        pub fn pop(&mut self) -> Option<T> {
            if cfg!(not(feature = "uncounted")) && !self.0.is_empty() && core::any::type_name::<T>().ends_with("::decode::NonTerm") {
                super::STEPS.with(|s| s.set(s.get() + 1));
                super::MOST.with(|m| m.set(m.get().max(self.0.len())));
            }
            self.0.pop()
        }
    }

    impl<T> Default for Vec<T> {
        fn default() -> Self { Self::new() }
    }

    impl<T> Deref for Vec<T> {
        type Target = std::vec::Vec<T>;
        #[inline]
        fn deref(&self) -> &Self::Target { &self.0 }
    }

    impl<T> DerefMut for Vec<T> {
        #[inline]
        fn deref_mut(&mut self) -> &mut Self::Target { &mut self.0 }
    }

    impl<T: fmt::Debug> fmt::Debug for Vec<T> {
        fn fmt(&self, f: &mut fmt::Formatter<'_>) -> fmt::Result { self.0.fmt(f) }
    }

    impl<T> FromIterator<T> for Vec<T> {
        fn from_iter<I: IntoIterator<Item = T>>(iter: I) -> Self { Vec(iter.into_iter().collect()) }
    }

    impl<T> IntoIterator for Vec<T> {
        type Item = T;
        type IntoIter = IntoIter<T>;
        fn into_iter(self) -> IntoIter<T> { self.0.into_iter() }
    }
}

#[macro_export]
macro_rules! vec {
    ($($x:expr),* $(,)?) => { $crate::vec::Vec::from_standard(::std::vec![$($x),*]) };
}
