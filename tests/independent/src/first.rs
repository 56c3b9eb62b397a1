//! A first net of numbers that are lent, without a record.

use crate::handed::Net;
use crate::record::{coefficients, frame, Record};
use crate::shape::Shape;

/// So many numbers a frame and the coefficients have at least, whatever the kind and
/// degree take of them.
pub const FRAME: usize = 9;
pub const COEFFICIENTS: usize = 180;

/// What a first net is made of: a curve takes four numbers of the frame, a patch nine, a
/// rectangular patch eight, and the coefficients stand four to a monomial in the record's
/// order.
#[derive(Clone, Debug)]
pub struct Given {
    pub kind: u8,
    pub degree: u8,
    pub second: u8,
    pub frame: Vec<i64>,
    pub coefficients: Vec<i64>,
}

impl Given {
    /// The net in its places, or the number of the refusal: room (11), then 4, 5, 6, 7.
    pub fn make(&self, net: &mut Net) -> Result<(), u8> {
        if self.frame.len() < FRAME || self.coefficients.len() < COEFFICIENTS || net.is_short() {
            return Err(11);
        }
        let shape = Shape::named(self.kind.into(), self.degree.into(), self.second.into()).ok_or(4)?;
        let frame = frame(shape.kind, &self.frame[..shape.kind.frame_numbers()]).ok_or(5)?;
        let coefficients = coefficients(&self.coefficients[..4 * shape.places()]).ok_or(6)?;
        let record = Record { shape, frame, coefficients, moves: Vec::new(), point: None, coefficients_at: 0 };
        let entries = record.first_net().map_err(|refusal| refusal.number)?;
        net.write_first(&record, &entries);
        Ok(())
    }
}

#[cfg(test)]
mod tests {
    use super::*;

    /// All coefficients of x at the largest, over (4, 4) and (1, 0) in both pairs.
    fn large(degree: u8, second: u8) -> Given {
        let coefficients = (0..COEFFICIENTS).map(|place| if place % 4 == 0 { 1 << 20 } else { 0 }).collect();
        Given { kind: 3, degree, second, frame: vec![4, 4, 1, 0, 4, 4, 1, 0, i64::MAX], coefficients }
    }

    #[test]
    fn only_the_highest_degrees_of_a_rectangular_patch_can_be_too_large() {
        for shape in crate::shape::Kind::Rect.shapes() {
            let [p, q] = shape.degrees.map(|degree| degree as u8);
            let wanted = if p + q >= 9 { Err(7) } else { Ok(()) };
            assert_eq!(large(p, q).make(&mut Net::empty()), wanted, "{p} {q}");
        }
        let mut net = Net::empty();
        large(4, 4).make(&mut net).unwrap();
        assert_eq!((&net.0[..3], net.0[12]), (&[3, 4, 4][..], 25 * 144 << (2 * 8 + 20)));
        assert_eq!(net.0[3..12], [4, 4, 1, 0, 4, 4, 1, 0, 0]);
        assert_eq!(net.claimed(), net.0[12]);
    }

    /// T - 3Z in x and 2Z in w over (0, 1), (1, 1): entries -3 and -2 in x, 2 and 2 in w.
    #[test]
    fn a_first_net_stores_its_largest_component() {
        let mut coefficients = vec![i64::MIN; COEFFICIENTS];
        coefficients[..8].copy_from_slice(&[-3, 0, 0, 2, 1, 0, 0, 0]);
        let given = Given { kind: 1, degree: 1, second: 0, frame: vec![0, 1, 1, 1, 9, 9, 9, 9, 9], coefficients };
        for claim in [0, 3, 4, -3, i64::MAX, i64::MIN] {
            let mut net = Net(vec![claim; 200]);
            given.make(&mut net).unwrap();
            assert_eq!((net.claimed(), net.0[191], net.0[193]), (3, claim, claim));
            let before = net.clone();
            assert_eq!(Given { degree: 0, ..given.clone() }.make(&mut net), Err(4));
            assert_eq!(net, before);
        }
    }

    #[test]
    fn a_first_net_is_tested_from_its_head_on() {
        let spoil = |change: fn(&mut Given)| {
            let mut given = large(5, 5);
            change(&mut given);
            given.make(&mut Net::empty())
        };
        assert_eq!(spoil(|given| (given.second, given.frame[0]) = (6, 5)), Err(4));
        assert_eq!(spoil(|given| (given.kind, given.frame[0]) = (1, 5)), Err(4));
        assert_eq!(spoil(|given| (given.frame[0], given.coefficients[143]) = (5, 1 << 21)), Err(5));
        assert_eq!(spoil(|given| (given.frame[7], given.coefficients[143]) = (1, 1 << 21)), Err(5));
        assert_eq!(spoil(|given| given.coefficients[143] = (1 << 20) + 1), Err(6));
        assert_eq!(spoil(|given| given.coefficients[144] = (1 << 20) + 1), Err(7));
        assert_eq!(spoil(|given| given.frame.truncate(FRAME - 1)), Err(11));
    }
}
