//! Exact control nets of rational curves, triangular patches and rectangular patches.
//!
//! A control net is made from a record ([`Net::open`]), from polynomials and a frame ([`Net::first`]) or
//! from its own frame and entries ([`Net::of_entries`]). It is moved to other frames by [`Net::replace`] and
//! [`Net::flip`], carries the frame that it has reached ([`Net::frame`]) and the largest component of its entries
//! ([`Net::largest`]), and is asked for points by [`Net::point`]; [`Found::project`] says where a point lies,
//! and [`project`] does the same for any four components. All numbers are whole, and nothing is rounded
//! before the projection.
//!
//! What each call answers is proved, for all inputs: the functions here pass on what a proved static
//! library says. A call is refused ([`Refused`]) or it is not, and what is refused changes nothing.
//!
//! ```
//! use gadwemosh::{Kind, Net, Projection, Vertex};
//!
//! // x = Z² − T², y = 2TZ, z = 0, w = Z² + T² over r = (0, 1) and s = (1, 1): a part of the circle
//! let coefficients = [[1, 0, 0, 1], [0, 2, 0, 0], [-1, 0, 0, 1]];
//! let mut net = Net::first(Kind::Curve, 2, &[0, 1, 1, 1], &coefficients)?;
//! assert!(net.entries().eq([[2, 0, 0, 2], [2, 2, 0, 2], [0, 4, 0, 4]]));
//!
//! // its middle, and its first half
//! let middle = net.point([1, 1, 0, 0])?;
//! assert_eq!(middle.components(), [6, 8, 0, 10]);
//! assert_eq!(middle.project(), Projection::Finite([0.6, 0.8, 0.0]));
//! net.replace(Vertex::S, [1, 1, 0, 0])?;
//! assert_eq!(net.frame(), [0, 1, 1, 2]);
//! assert!(net.entries().eq([[2, 0, 0, 2], [4, 2, 0, 4], [6, 8, 0, 10]]));
//! assert_eq!(net.largest(), 10);
//! # Ok::<(), gadwemosh::Refused>(())
//! ```
//!
//! A rectangular patch has two degrees and two pairs of vertices, each with weights of its own:
//!
//! ```
//! use gadwemosh::{Kind, Net, Projection, Vertex};
//!
//! // x = T₁Z₂, y = Z₁T₂, z = T₁T₂, w = Z₁Z₂ over r₁ = r₂ = (0, 1) and s₁ = s₂ = (1, 1): a part of z = xy
//! let coefficients = [[0, 0, 0, 1], [0, 1, 0, 0], [1, 0, 0, 0], [0, 0, 1, 0]];
//! let mut net = Net::first(Kind::Rectangular, [1, 1], &[0, 1, 1, 1, 0, 1, 1, 1], &coefficients)?;
//! assert!(net.entries().eq([[0, 0, 0, 1], [0, 1, 0, 1], [1, 0, 0, 1], [1, 1, 1, 1]]));
//!
//! // its middle, and its half towards r₂
//! let middle = net.point([1, 1, 1, 1])?;
//! assert_eq!(middle.project(), Projection::Finite([0.5, 0.5, 0.25]));
//! net.replace(Vertex::S2, [1, 1, 0, 0])?;
//! assert_eq!(net.frame(), [0, 1, 1, 1, 0, 1, 1, 2]);
//! assert!(net.entries().eq([[0, 0, 0, 1], [0, 1, 0, 2], [1, 0, 0, 1], [2, 1, 1, 2]]));
//! # Ok::<(), gadwemosh::Refused>(())
//! ```
//!
//! A curve that is entered at a higher degree than it needs may pass through a common zero, where its four
//! polynomials vanish together. It has no gap there: [`Found`] says what is projected.
//!
//! ```
//! use gadwemosh::{Kind, Net, Projection};
//!
//! // the same circle at degree 4: x, y, z and w times (2T − Z)(3T − Z) = Z² − 5TZ + 6T², with its roots at
//! // the weights (1, 1) and (2, 1)
//! let coefficients = [[1, 0, 0, 1], [-5, 2, 0, -5], [5, -10, 0, 7], [5, 12, 0, -5], [-6, 0, 0, 6]];
//! let net = Net::first(Kind::Curve, 4, &[0, 1, 1, 1], &coefficients)?;
//! let middle = net.point([1, 1, 0, 0])?;
//! assert_eq!(middle.components(), [0, 0, 0, 0]);
//! assert_eq!(middle.projected(), [-9, -12, 0, -15]);
//! assert_eq!(middle.project(), Projection::Finite([0.6, 0.8, 0.0]));
//! assert_eq!(net.point([2, 1, 0, 0])?.project(), Projection::Finite([0.8, 0.6, 0.0]));
//! # Ok::<(), gadwemosh::Refused>(())
//! ```
//!
//! A coordinate of a finite point is the nearest `f64` to the quotient x ÷ w of the numbers projected,
//! and at most |x ÷ w| ÷ 2⁵³ away from it; zero is exact. On a board of two metres that is less than a
//! millionth of a millionth of a millimetre, after any number of splits, as nothing else is rounded
//! (`docs/ACCURACY.md`). It is proved for round to nearest without traps. Rust code runs in no other
//! floating-point environment: to change the rounding mode or to unmask a trap is undefined behaviour,
//! as the documentation of `std::arch::x86_64::_mm_setcsr` says. A program in C that has done it puts
//! the environment back before it calls Rust; `include/gadwemosh.h` shows how.
//!
//! [`raw`] has the library's functions one to one, for callers who lend buffers of their own.

#![warn(missing_docs)]
#![deny(unsafe_code)]

#[allow(unsafe_code)]
pub mod raw;

mod net;
mod projection;
mod record;
mod refused;

pub use net::{Degrees, Kind, Move, Net, Vertex};
pub use projection::{project, Found, Projection};
pub use record::{text, write_text, Field, Record};
pub use refused::{RecordRefused, Refused};

/// The components x, y, z and w of an entry, of a point or of a monomial's coefficients; w is the weight.
pub type Components = [i64; 4];

/// The weights of vertices; those that are not used are 0. A point's are those of r and s of a curve, of r, s
/// and t of a triangular patch, of r1, s1, r2 and s2 of a rectangular one. A move's are the same, but on a
/// rectangular patch the first two are those of the vertex's own pair, and no others are used.
pub type Weights = [i64; 4];
