//! Where points lie.

use crate::raw;
use crate::refused::{answer, Refused};
use crate::Components;

/// Where four components lie.
#[derive(Clone, Copy, Debug, PartialEq)]
pub enum Projection {
    /// x, y and z divided by w, each rounded once, to the nearest `f64`: so it is at most the
    /// quotient's absolute value ÷ 2⁵³ away from the exact quotient, and never a NaN, infinite or
    /// subnormal. A quotient of 0 is exact, and positive zero.
    Finite([f64; 3]),
    /// w is 0 and another component is not.
    Direction {
        /// x, y and z without their greatest common divisor, the first that is not 0 being positive.
        vector: [i64; 3],
        /// That divisor, which is positive. Its products with the vector are x, y and z, all three negated
        /// where the first of them that is not 0 is negative. For a point at a common zero of a curve it is
        /// 1, whatever the divisor is ([`Found::project`]).
        length: i64,
    },
    /// All four components are 0.
    Nowhere,
}

/// Where four components lie, as those of an entry. A component beyond 2 to the 48th is refused
/// ([`Refused::RANGE`]). Four zeros are nowhere: nothing says here which curve they are a point of. A
/// point that a net found is projected by [`Found::project`]. How near a finite point is, is said at
/// [`Projection::Finite`].
pub fn project(components: Components) -> Result<Projection, Refused> {
    projected(|outcome, bits, direction| raw::project(components, outcome, bits, direction))
}

/// A point that [`Net::point`](crate::Net::point) found: its components, and the numbers that are projected.
///
/// The two differ at a common zero of a curve, where all four polynomials vanish and the components are four
/// zeros. There the linear form that vanishes is taken out of all four polynomials, as often as all four have
/// it, and the numbers projected are the values of what is left, times a number that is not 0. So a curve has
/// no gap at a common zero; only the zero curve is nowhere. Everywhere else, and always on patches, the
/// numbers projected are the components.
///
/// ```
/// use gadwemosh::{Kind, Net, Projection};
///
/// // the line x = T, w = Z, entered at degree 2: both times 2T − Z
/// let coefficients = [[0, 0, 0, -1], [-1, 0, 0, 2], [2, 0, 0, 0]];
/// let net = Net::first(Kind::Curve, 2, &[0, 1, 1, 1], &coefficients)?;
/// let middle = net.point([1, 1, 0, 0])?;
/// assert_eq!(middle.components(), [0, 0, 0, 0]);
/// assert_eq!(middle.projected(), [-1, 0, 0, -2]);
/// assert_eq!(middle.project(), Projection::Finite([0.5, 0.0, 0.0]));
/// # Ok::<(), gadwemosh::Refused>(())
/// ```
#[derive(Clone, Copy, Debug, PartialEq, Eq, Hash)]
pub struct Found {
    components: Components,
    projected: Components,
}

impl Found {
    /// By the numbers that [`raw::point`] wrote.
    pub(crate) fn of([x, y, z, w, a, b, c, d]: [i64; raw::FOUND]) -> Found {
        Found {
            components: [x, y, z, w],
            projected: [a, b, c, d],
        }
    }

    /// The values of the four polynomials at the weights, on the scale of the net's entries.
    pub fn components(&self) -> Components {
        self.components
    }

    /// The numbers projected: the components, or what is left at a common zero of a curve. On a curve of
    /// degree m these are the first of b₁, …, bₘ that is not four zeros, b_d being the polar value of m − d
    /// copies of the parameter point at the weights and d copies of r, or of s where the point's weight of s
    /// is 0.
    pub fn projected(&self) -> Components {
        self.projected
    }

    /// Where the point lies: the projection of the numbers projected. A direction that was found at a
    /// common zero has length 1, as the numbers projected are known there up to a factor. The bound of
    /// [`Projection::Finite`] is about the numbers projected.
    pub fn project(&self) -> Projection {
        let mut numbers = [0; raw::FOUND];
        numbers[..4].copy_from_slice(&self.components);
        numbers[4..].copy_from_slice(&self.projected);
        projected(|outcome, bits, direction| raw::project_found(&numbers, outcome, bits, direction))
            .expect("what a net found is in range")
    }
}

/// The projection that a function of [`raw`] tells.
fn projected(
    tell: impl FnOnce(&mut u8, &mut [u64], &mut [i64]) -> u8,
) -> Result<Projection, Refused> {
    let (mut outcome, mut bits, mut direction) = (0, [0; 3], [0; 4]);
    answer(tell(&mut outcome, &mut bits, &mut direction))?;
    Ok(match outcome {
        raw::FINITE => Projection::Finite(bits.map(f64::from_bits)),
        raw::DIRECTION => {
            let [x, y, z, length] = direction;
            Projection::Direction {
                vector: [x, y, z],
                length,
            }
        }
        _ => Projection::Nowhere,
    })
}
