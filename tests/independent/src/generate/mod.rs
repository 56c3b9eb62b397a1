//! Seeded records, damaged records, lists of calls, handed nets and first nets.

pub mod caller;
pub mod damage;
pub mod first;
pub mod mixed;
pub mod nets;
pub mod polynomials;
pub mod records;

pub use caller::{Caller, Mood};
pub use damage::{damaged, everywhere};
pub use first::any_first;
pub use nets::{any_claim, any_found, any_room, any_run, four_numbers, handed, in_order, near_tie, with_zero};
pub use records::{any_record, any_shape, bare, encode, fields, made, Made};
