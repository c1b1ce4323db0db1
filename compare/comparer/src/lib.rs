//! What compares two programs that answer for tree blocks: makes trees, runs both, and shrinks what they disagree on.

pub mod compare;
pub mod damage;
pub mod differences;
pub mod generate;
pub mod random;
pub mod shrink;
pub mod sides;
pub mod texts;
pub mod twist;
pub mod wrong;
