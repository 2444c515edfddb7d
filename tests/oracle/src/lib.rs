//! The second decoder: written from document 01, Wishes 1 and 2 of document 02, the settled open points
//! (docs/DECISIONS.md), the standard's clause 3.14 and its tables alone, so that the product can be compared with something
//! that shares no line with it.
//!
//! It decodes into owned structures and prints those. Nothing is clever, nothing is lent.

pub mod alphabet;
pub mod deletions;
pub mod frame;
pub mod hex;
pub mod kind;
pub mod limits;
pub mod listing;
pub mod pairing;
pub mod program;
pub mod record;
pub mod reference;
pub mod refusal;
pub mod resume;
pub mod segment;
pub mod splices;
pub mod unit;

pub use deletions::Bare;
pub use listing::{listing, listing_and_refusal};
pub use pairing::{pair, Link, Mate, State, Symbols, Taker};
pub use record::record;
pub use reference::Reference;
pub use refusal::Refusal;
pub use resume::{kept, resume};
pub use segment::{aligned_segment, unaligned_segment, Segment};
pub use splices::Fault;
pub use unit::{Class, Unit, UnitNumbers};
