//! Calls on a net, their answers, and what is refused before frame and size are looked at.

use crate::projection::Projection;
use crate::shape::{Kind, MOST_VERTICES};

pub const REPLACE: u8 = 1;
pub const FLIP: u8 = 2;

/// Either sign; one more is refused, 8.
pub const LARGEST_WEIGHT: i64 = 4096;

/// Of a point, one for each vertex; of a move, one for each vertex of the moved one's
/// group. The places after them are unused.
pub type Weights = [i64; MOST_VERTICES];

pub const NO_WEIGHTS: Weights = [0; MOST_VERTICES];

#[derive(Clone, Copy, Debug, PartialEq, Eq)]
pub enum Call {
    Move { operation: u8, vertex: u8, weights: Weights },
    Point { weights: Weights },
}

#[derive(Clone, Copy, Debug, PartialEq, Eq)]
pub enum Answer {
    Taken,
    /// The point's four numbers, the numbers projected, which are others at a common zero of a curve alone,
    /// and their projection.
    Point { x: i64, y: i64, z: i64, w: i64, projected: [i64; 4], projection: Projection },
    Refused(u8),
}

/// The number of a refusal that needs neither a frame nor a polar value, if there is one;
/// where both causes hold, 8 goes before 9.
pub fn refused_by_itself(kind: Kind, call: &Call) -> Option<u8> {
    let (outside, idle) = match *call {
        Call::Move { operation, vertex, .. } if operation_or_vertex_outside(kind, operation, vertex) => (true, false),
        Call::Move { operation, vertex, weights } => {
            let (used, own) = seats(kind, vertex);
            let outside = weight_outside(used, weights) || (operation == FLIP && weights != NO_WEIGHTS);
            (outside, operation == REPLACE && weights[own] == 0)
        }
        Call::Point { weights } => (weight_outside(kind.vertices(), weights), names_nothing(kind, weights)),
    };
    match (outside, idle) {
        (true, _) => Some(8),
        (false, true) => Some(9),
        (false, false) => None,
    }
}

/// Vertex bytes count from 1, places in a frame from 0.
pub fn place_of(vertex: u8) -> usize {
    usize::from(vertex) - 1
}

/// How many weights a move of this vertex uses, and which of them is its own.
pub fn seats(kind: Kind, vertex: u8) -> (usize, usize) {
    let place = place_of(vertex);
    let span = &kind.spans()[kind.group_of(place)];
    (span.len(), place - span.start)
}

fn operation_or_vertex_outside(kind: Kind, operation: u8, vertex: u8) -> bool {
    !(operation == REPLACE || operation == FLIP) || vertex == 0 || usize::from(vertex) > kind.vertices()
}

/// An unused weight other than 0 counts as outside too.
fn weight_outside(used: usize, weights: Weights) -> bool {
    let large = weights.iter().any(|weight| !(-LARGEST_WEIGHT..=LARGEST_WEIGHT).contains(weight));
    large || weights[used..].iter().any(|&weight| weight != 0)
}

/// Whether the weights of some group are all 0.
fn names_nothing(kind: Kind, weights: Weights) -> bool {
    kind.grouped(&weights).iter().any(|group| group.iter().all(|&weight| weight == 0))
}

#[cfg(test)]
mod tests {
    use super::*;

    fn moved(operation: u8, vertex: u8, weights: Weights) -> Call {
        Call::Move { operation, vertex, weights }
    }

    fn point(weights: Weights) -> Call {
        Call::Point { weights }
    }

    #[test]
    fn eight_comes_before_nine() {
        let curve = |call| refused_by_itself(Kind::Curve, &call);
        let patch = |call| refused_by_itself(Kind::Patch, &call);
        assert_eq!(curve(moved(1, 1, [4096, -4096, 0, 0])), None);
        assert_eq!(curve(moved(1, 1, [4097, 0, 0, 0])), Some(8));
        assert_eq!(curve(moved(1, 1, [0, 1, 0, 0])), Some(9));
        assert_eq!(curve(moved(1, 1, [0, 1, 1, 0])), Some(8));
        assert_eq!(curve(moved(1, 1, [0, 1, 0, 1])), Some(8));
        assert_eq!(curve(moved(1, 3, [1, 1, 0, 0])), Some(8));
        assert_eq!(patch(moved(1, 3, [1, 1, 0, 0])), Some(9));
        assert_eq!(patch(moved(1, 4, [1, 1, 1, 0])), Some(8));
        assert_eq!(patch(moved(1, 3, [1, 1, 1, 1])), Some(8));
        assert_eq!(patch(moved(2, 3, NO_WEIGHTS)), None);
        assert_eq!(patch(moved(2, 3, [0, 1, 0, 0])), Some(8));
        assert_eq!(patch(moved(3, 1, [1, 0, 0, 0])), Some(8));
        assert_eq!(curve(point(NO_WEIGHTS)), Some(9));
        assert_eq!(curve(point([0, 0, 1, 0])), Some(8));
        assert_eq!(patch(point([0, 0, i64::MIN, 0])), Some(8));
        assert_eq!(patch(point([0, 0, -4096, 0])), None);
        assert_eq!(patch(point([1, 1, 1, -1])), Some(8));
    }

    /// A move's two weights are its own pair's, whichever that is; a point has two pairs.
    #[test]
    fn a_rectangular_patch_has_two_weights_a_pair() {
        let rect = |call| refused_by_itself(Kind::Rect, &call);
        assert_eq!(rect(moved(1, 3, [4096, -4096, 0, 0])), None);
        assert_eq!(rect(moved(1, 3, [0, 1, 0, 0])), Some(9));
        assert_eq!(rect(moved(1, 4, [0, 1, 0, 0])), None);
        assert_eq!(rect(moved(1, 4, [1, 0, 0, 0])), Some(9));
        assert_eq!(rect(moved(1, 4, [1, 0, 1, 0])), Some(8));
        assert_eq!(rect(moved(1, 1, [1, 0, 0, -1])), Some(8));
        assert_eq!(rect(moved(1, 3, [0, 4097, 0, 0])), Some(8));
        assert_eq!(rect(moved(1, 5, [1, 1, 0, 0])), Some(8));
        assert_eq!(rect(moved(2, 4, NO_WEIGHTS)), None);
        assert_eq!(rect(moved(2, 4, [0, 0, 0, 1])), Some(8));
        assert_eq!(rect(point([1, 0, 0, -4096])), None);
        assert_eq!(rect(point([1, 1, 0, 0])), Some(9));
        assert_eq!(rect(point([0, 0, 1, 1])), Some(9));
        assert_eq!(rect(point([0, 0, 1, 4097])), Some(8));
    }
}
