//! Tree blocks: their rows, their check, trees made by hand, and a notation for these in words. All of it is written
//! from docs/TREE.md and docs/TEXT.md and shares nothing with the crates that are proved.

mod check;
pub mod kinds;
mod notation;
mod rows;
mod stream;
mod tree;

pub use check::{Fault, check};
pub use kinds::Kind;
pub use notation::{Mistake, parse};
pub use rows::{Row, Rows};
pub use stream::{next_block, write_block};
pub use tree::Tree;
