//! Stand-ins for the tree types, texts and visitor of swc that the reference uses: the same names, as far as it names
//! them. [`Part`] and the `Other` cases hold what no rule looks at; the visitor walks over it all the same.

pub mod atoms;
mod names;
mod tree;
pub mod visit;

pub use names::{BoundNames, find_pat_ids};
pub use tree::*;
