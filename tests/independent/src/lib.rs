//! Document 01 written a second time, in plain Rust, from its definitions.
//!
//! Nothing here is taken from the product. The comparison machine works over the
//! record's polynomials and an unbounded frame (`machine`); the same calls on a
//! handed net work over its entries alone (`handed`). That the two agree along
//! every list is the third demand, tested here and compared with a library
//! through the trait in `library`. What holds of flips and replaces in another
//! order is asked of a library without either (`laws`).

pub mod bound;
pub mod calls;
pub mod closing;
pub mod compare;
pub mod compare_text;
pub mod counts;
pub mod exact;
pub mod first;
pub mod generate;
pub mod handed;
pub mod law_counts;
pub mod laws;
pub mod left;
pub mod library;
pub mod machine;
pub mod named;
pub mod polar;
pub mod projection;
pub mod random;
pub mod record;
pub mod samples;
pub mod selftest;
pub mod shape;
pub mod text;
