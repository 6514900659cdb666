//! Stands in for: src/iter/tree.rs of miniscript 13.2.0: a node's children by their number, and a walk over a tree.
//!
//! What rests on it: nothing that the oracle answers. decode.rs compares and hashes whole trees with it, which the oracle doesn't
//! do; the decoder, the type rules and the encoder don't use it, and the oracle lists nodes by a walk of its own, in script order.

pub enum Tree<T, NT> {
    Nullary,
    Unary(T),
    Binary(T, T),
    Ternary(T, T, T),
    Nary(NT),
}

pub trait TreeLike: Clone + Sized {
    type NaryChildren: Clone;

    fn nary_len(tc: &Self::NaryChildren) -> usize;
    fn nary_index(tc: Self::NaryChildren, idx: usize) -> Self;
    fn as_node(&self) -> Tree<Self, Self::NaryChildren>;

    /// Each node before its children, the first child first.
    fn pre_order_iter(self) -> PreOrderIter<Self> { PreOrderIter { waiting: vec![self] } }
}

/// Keeps what is still to come, next on top: no recursion, so the depth of a tree doesn't matter.
pub struct PreOrderIter<T> {
    waiting: Vec<T>,
}

impl<T: TreeLike> Iterator for PreOrderIter<T> {
    type Item = T;

    fn next(&mut self) -> Option<T> {
        let top = self.waiting.pop()?;
        match top.as_node() {
            Tree::Nullary => {}
            Tree::Unary(a) => self.waiting.push(a),
            Tree::Binary(a, b) => self.waiting.extend([b, a]),
            Tree::Ternary(a, b, c) => self.waiting.extend([c, b, a]),
            Tree::Nary(children) => {
                for i in (0..T::nary_len(&children)).rev() {
                    self.waiting.push(T::nary_index(children.clone(), i));
                }
            }
        }
        Some(top)
    }
}

// Names that iter/mod.rs hands on, and that nothing here asks for.
pub struct PostOrderIter;
pub struct PostOrderIterItem;
pub struct PreOrderIterItem;
pub struct VerbosePreOrderIter;
