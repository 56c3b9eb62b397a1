//! The reader: any bytes, to a record or a numbered refusal with an offset.

use crate::calls::{Call, Weights, NO_WEIGHTS};
use crate::polar::{parameters, Polynomials};
use crate::shape::{Kind, Shape};

/// 2 to the 20th, either sign.
pub const LARGEST_COEFFICIENT: i64 = 1_048_576;
/// Either sign, and only as read: moves may take the frame past it, up to 2 to the 48th.
pub const LARGEST_FRAME_NUMBER: i64 = 4;
pub const LARGEST_MOVE_COUNT: usize = 32;

#[derive(Clone, Copy, Debug, PartialEq, Eq)]
pub struct Refusal {
    pub number: u8,
    pub offset: usize,
}

/// What an accepted record says. A vertex (T, Z) of a curve or of a pair is (T, 0, Z),
/// and the weights that a move or the point does not have are 0.
#[derive(Clone, Debug, PartialEq, Eq)]
pub struct Record {
    pub shape: Shape,
    pub frame: Vec<[i64; 3]>,
    pub coefficients: Vec<[i64; 4]>,
    pub moves: Vec<Call>,
    pub point: Option<Weights>,
    /// Where the field of tag 3 begins; 7 is refused there.
    pub coefficients_at: usize,
}

impl Record {
    pub fn polynomials(&self) -> Polynomials {
        Polynomials::new(self.shape, &self.coefficients)
    }

    /// The numbers of the frame, vertex by vertex: T, Z or U, V, Z.
    pub fn frame_numbers(&self) -> Vec<i64> {
        self.frame.iter().flat_map(|vertex| self.shape.kind.numbers_of(vertex)).collect()
    }

    /// Polar values of the frame's own vertices, in the net's order; 7 if one of them
    /// is too large.
    pub fn first_net(&self) -> Result<Vec<[i64; 4]>, Refusal> {
        let refused = Refusal { number: 7, offset: self.coefficients_at };
        self.polynomials().values(&parameters(self.shape, &self.frame)).ok_or(refused)
    }
}

/// The net is made only of a record that is whole, so 7 is the last refusal to try.
pub fn read_with_net(bytes: &[u8]) -> Result<(Record, Vec<[i64; 4]>), Refusal> {
    let record = read(bytes)?;
    let net = record.first_net()?;
    Ok((record, net))
}

/// The kind that the bytes say they are of, refused or not.
pub fn told_kind(bytes: &[u8]) -> Option<Kind> {
    match *bytes {
        [1, _, _, kind, ..] => Kind::numbered(kind.into()),
        _ => None,
    }
}

/// One field after the other; what is missing shows only when all are read.
pub fn read(bytes: &[u8]) -> Result<Record, Refusal> {
    let mut found = Found::default();
    let mut at = 0;
    while at < bytes.len() {
        at = found.take_field(bytes, at)?;
    }
    found.whole(bytes.len())
}

/// What a lookup answers: the record's refusal or 0, and where the field's value lies.
#[derive(Clone, Copy, Debug, PartialEq, Eq)]
pub struct Lookup {
    pub number: u8,
    pub start: usize,
    pub length: usize,
}

/// The lookup of a field. A record without a first net is refused too.
pub fn field(bytes: &[u8], tag: u8) -> Lookup {
    field_of(bytes, read_with_net(bytes).err(), tag)
}

/// The same, where it is known what the record is refused for. With nothing to point
/// at, the value is the empty part at the end.
pub fn field_of(bytes: &[u8], refusal: Option<Refusal>, tag: u8) -> Lookup {
    let number = refusal.map_or(0, |refusal| refusal.number);
    let mut at = if number == 0 { 0 } else { bytes.len() };
    while at < bytes.len() {
        let length = usize::from(length_at(bytes, at));
        if bytes[at] == tag {
            return Lookup { number, start: at + 3, length };
        }
        at += 3 + length;
    }
    Lookup { number, start: bytes.len(), length: 0 }
}

#[derive(Default)]
struct Found {
    last_tag: u8,
    shape: Option<Shape>,
    frame: Option<Vec<[i64; 3]>>,
    coefficients: Option<(usize, Vec<[i64; 4]>)>,
    moves: Vec<Call>,
    point: Option<Weights>,
}

impl Found {
    /// The tests below stand in the order that decides which number is given.
    /// Hands back where the next field begins.
    fn take_field(&mut self, bytes: &[u8], at: usize) -> Result<usize, Refusal> {
        let refuse = |number| Err(Refusal { number, offset: at });
        if bytes.len() - at < 3 {
            return refuse(1);
        }
        let tag = bytes[at];
        if !self.tag_may_follow(tag) {
            return refuse(2);
        }
        let length = usize::from(length_at(bytes, at));
        if !self.length_is_allowed(tag, length) {
            return refuse(3);
        }
        let Some(value) = bytes.get(at + 3..at + 3 + length) else {
            return refuse(1);
        };
        if let Err(number) = self.take_value(tag, value, at) {
            return refuse(number);
        }
        self.last_tag = tag;
        Ok(at + 3 + length)
    }

    /// Known, higher than the last, and no required lower one still to come: with
    /// 1, 2, 3 required, a tag up to 3 follows its neighbour, 4 and 5 follow 3 or more.
    fn tag_may_follow(&self, tag: u8) -> bool {
        match tag {
            1..=3 => self.last_tag + 1 == tag,
            4 | 5 => self.last_tag >= 3 && self.last_tag < tag,
            _ => false,
        }
    }

    fn length_is_allowed(&self, tag: u8, length: usize) -> bool {
        match (tag, self.shape) {
            (1, _) => length == 2 || length == 3,
            (2, Some(shape)) => length == 2 * shape.kind.frame_numbers(),
            (3, Some(shape)) => length == 16 * shape.places(),
            (4, _) => length % 8 == 0 && length / 8 <= LARGEST_MOVE_COUNT,
            (5, Some(shape)) => length == 2 * shape.vertices(),
            _ => false,
        }
    }

    fn take_value(&mut self, tag: u8, value: &[u8], at: usize) -> Result<(), u8> {
        match (tag, self.shape) {
            (1, _) => self.shape = Some(shape(value).ok_or(4)?),
            (2, Some(shape)) => self.frame = Some(frame(shape.kind, &short_numbers(value)).ok_or(5)?),
            (3, Some(_)) => self.coefficients = Some((at, coefficients(&long_numbers(value)).ok_or(6)?)),
            (4, _) => self.moves = value.chunks(8).map(one_move).collect(),
            (_, _) => self.point = Some(weights(value)),
        }
        Ok(())
    }

    /// Nothing is left to read, so a missing field is reported past the last byte.
    fn whole(self, length: usize) -> Result<Record, Refusal> {
        match (self.shape, self.frame, self.coefficients) {
            (Some(shape), Some(frame), Some((coefficients_at, coefficients))) => {
                Ok(Record { shape, frame, coefficients, moves: self.moves, point: self.point, coefficients_at })
            }
            _ => Err(Refusal { number: 2, offset: length }),
        }
    }
}

fn length_at(bytes: &[u8], at: usize) -> u16 {
    u16::from_be_bytes([bytes[at + 1], bytes[at + 2]])
}

fn short_numbers(value: &[u8]) -> Vec<i64> {
    value.chunks(2).map(|two| i64::from(i16::from_be_bytes([two[0], two[1]]))).collect()
}

fn long_numbers(value: &[u8]) -> Vec<i64> {
    value.chunks(4).map(|four| i64::from(i32::from_be_bytes([four[0], four[1], four[2], four[3]]))).collect()
}

/// The shape that field 1 names: a rectangular patch by three bytes, the others by two.
fn shape(value: &[u8]) -> Option<Shape> {
    let named = match *value {
        [kind, degree] => Shape::named(kind.into(), degree.into(), 0),
        [kind, degree, second] => Shape::named(kind.into(), degree.into(), second.into()),
        _ => None,
    };
    named.filter(|shape| (shape.kind == Kind::Rect) == (value.len() == 3))
}

/// The vertices, if every number is within its limits and each group is a frame.
pub fn frame(kind: Kind, numbers: &[i64]) -> Option<Vec<[i64; 3]>> {
    let limits = -LARGEST_FRAME_NUMBER..=LARGEST_FRAME_NUMBER;
    if !numbers.iter().all(|number| limits.contains(number)) {
        return None;
    }
    let frame: Vec<[i64; 3]> = numbers.chunks(kind.vertex_numbers()).map(vertex).collect();
    is_frame(kind, &frame).then_some(frame)
}

pub fn is_frame(kind: Kind, vertices: &[[i64; 3]]) -> bool {
    kind.grouped(vertices).iter().all(|group| determinant(group) != 0)
}

fn vertex(numbers: &[i64]) -> [i64; 3] {
    match *numbers {
        [u, v, z] => [u, v, z],
        [t, z] => [t, 0, z],
        _ => unreachable!("a vertex has two or three numbers"),
    }
}

/// Of the rows r, s of a curve or a pair, or r, s, t of a patch.
pub fn determinant(group: &[[i64; 3]]) -> i64 {
    match *group {
        [r, s] => r[0] * s[2] - r[2] * s[0],
        [r, s, t] => {
            r[0] * (s[1] * t[2] - s[2] * t[1]) - r[1] * (s[0] * t[2] - s[2] * t[0]) + r[2] * (s[0] * t[1] - s[1] * t[0])
        }
        _ => unreachable!("a group has two or three vertices"),
    }
}

/// Four numbers to a monomial, if every one is within its limits.
pub fn coefficients(numbers: &[i64]) -> Option<Vec<[i64; 4]>> {
    let limits = -LARGEST_COEFFICIENT..=LARGEST_COEFFICIENT;
    let inside = numbers.iter().all(|number| limits.contains(number));
    inside.then(|| numbers.chunks(4).map(|four| [four[0], four[1], four[2], four[3]]).collect())
}

/// Any eight bytes are a move here; whether it is a proper one is asked on the call.
fn one_move(eight: &[u8]) -> Call {
    Call::Move { operation: eight[0], vertex: eight[1], weights: weights(&eight[2..]) }
}

fn weights(value: &[u8]) -> Weights {
    let mut weights = NO_WEIGHTS;
    weights.iter_mut().zip(short_numbers(value)).for_each(|(weight, number)| *weight = number);
    weights
}

#[cfg(test)]
mod tests {
    use super::*;

    /// Refusals of one field after an accepted record's head.
    fn refused(bytes: &[&[u8]]) -> (u8, usize) {
        let refusal = read(&bytes.concat()).unwrap_err();
        (refusal.number, refusal.offset)
    }

    #[test]
    fn field_1_has_two_bytes_or_three_by_its_kind() {
        for value in [&[3, 2][..], &[3, 0], &[1, 2, 0], &[2, 2, 0], &[1, 2, 2], &[3, 0, 1], &[3, 1, 0], &[3, 6, 5], &[3, 5, 6], &[4, 1, 1]] {
            assert_eq!(refused(&[&[1, 0, value.len() as u8], value]), (4, 0), "{value:?}");
        }
        for length in [0, 1, 4, 5] {
            assert_eq!(refused(&[&[1, 0, length], &[3, 1, 1, 0, 0]]), (3, 0));
        }
        assert_eq!(refused(&[&[1, 0, 3, 3, 1, 1]]), (2, 6));
        assert_eq!(refused(&[&[1, 0, 3, 3, 1]]), (1, 0));
    }

    #[test]
    fn either_determinant_of_a_rectangular_patch_may_be_at_fault() {
        let shorts = |numbers: [i16; 8]| numbers.map(i16::to_be_bytes).concat();
        for frame in [[0, 1, 0, 2, 0, 1, 1, 0], [0, 1, 1, 0, 1, 1, -1, -1], [0, 1, 1, 0, 0, 1, 5, 0]] {
            assert_eq!(refused(&[&[1, 0, 3, 3, 1, 1, 2, 0, 16], &shorts(frame)]), (5, 6));
        }
        assert_eq!(refused(&[&[1, 0, 3, 3, 1, 1, 2, 0, 16], &shorts([0, 1, 1, 0, 0, 1, 4, 0])]), (2, 25));
        assert_eq!(refused(&[&[1, 0, 3, 3, 1, 1, 2, 0, 18], &[0; 18]]), (3, 6));
    }
}
