//! Damage, at each step from model to file.

mod deletions;
mod frame;
mod record;
mod splices;
mod text;
mod unit;

pub use frame::{cut_frame, damage_frame, damage_reference};
pub use record::{damage_model, damage_record, own_symbol};
pub use text::{damage_file, damage_line, damage_lines};
pub use unit::damage_unit;
