//! The test bed: random units, good and damaged, cut-off listings, and single calls, all from a seed.
//!
//! A model is a unit as its author means it; frames are its bytes with a note of where each field lies; lines and
//! files are text. Damage can be done at each of these steps, so that a case fails in the way it was meant to.

pub mod answers;
pub mod calls;
pub mod cases;
pub mod compare;
pub mod damage;
pub mod faults;
pub mod features;
pub mod found;
pub mod frames;
pub mod largest;
pub mod model;
pub mod rng;
pub mod shrink;
pub mod valid;

pub use calls::{pair_call, record_call, segment_call, PairCall, RecordCall, SegmentCall};
pub use cases::{listing_case, resume_case, Files};
pub use rng::Rng;
