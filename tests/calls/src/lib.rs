//! What the comparisons of calls share: their arguments and their loop, lent memory with margins, counts of what a run has
//! reached.

pub mod compare;
pub mod lent;
pub mod tally;

pub use compare::{compare, Compared};
pub use lent::Lent;
pub use tally::Tally;
