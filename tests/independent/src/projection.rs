//! Projection of a found point.

use crate::shape::in_range;

/// The finite case carries the bit patterns of its three f64 numbers, so that
/// equal answers are equal bits.
#[derive(Clone, Copy, Debug, PartialEq, Eq)]
pub enum Projection {
    Finite { x: u64, y: u64, z: u64 },
    Direction { x: i64, y: i64, z: i64, length: i64 },
    Nowhere,
}

/// How many places a point at a finite place takes.
pub const COORDINATES: usize = 3;

/// How many a direction takes, with its length.
pub const DIRECTION: usize = 4;

/// How many numbers a found point has: its own four, and the numbers projected.
pub const FOUND: usize = 8;

/// The places lent for a projection: its case, the bit patterns of a finite point, the
/// numbers of a direction and its length.
#[derive(Clone, Debug, PartialEq, Eq)]
pub struct Room {
    pub outcome: u8,
    pub bits: Vec<u64>,
    pub direction: Vec<i64>,
}

impl Room {
    /// Just enough places, with an outcome that there is not.
    pub fn enough() -> Room {
        Room { outcome: u8::MAX, bits: vec![0; COORDINATES], direction: vec![0; DIRECTION] }
    }

    pub fn is_short(&self) -> bool {
        self.bits.len() < COORDINATES || self.direction.len() < DIRECTION
    }

    /// Writes an answer and gives its number: 0, or the refusal's, beside which the
    /// outcome is 0 and nothing else is written.
    pub fn tell(&mut self, answer: Result<Projection, u8>) -> u8 {
        self.outcome = match answer {
            Err(_) => 0,
            Ok(Projection::Finite { x, y, z }) => {
                self.bits[..COORDINATES].copy_from_slice(&[x, y, z]);
                1
            }
            Ok(Projection::Direction { x, y, z, length }) => {
                self.direction[..DIRECTION].copy_from_slice(&[x, y, z, length]);
                2
            }
            Ok(Projection::Nowhere) => 3,
        };
        answer.err().unwrap_or(0)
    }

    /// What was told with the number; nothing if there is no such outcome.
    pub fn told(&self, number: u8) -> Option<Result<Projection, u8>> {
        let (b, d) = (&self.bits, &self.direction);
        match (number, self.outcome) {
            (0, 1) => Some(Ok(Projection::Finite { x: b[0], y: b[1], z: b[2] })),
            (0, 2) => Some(Ok(Projection::Direction { x: d[0], y: d[1], z: d[2], length: d[3] })),
            (0, 3) => Some(Ok(Projection::Nowhere)),
            (1.., 0) => Some(Err(number)),
            _ => None,
        }
    }
}

/// The room is judged first (11), then the numbers (10).
pub fn project_into(point: [i64; 4], room: &mut Room) -> u8 {
    let answer = if room.is_short() { Err(11) } else { project(point) };
    room.tell(answer)
}

/// What a point found: the numbers and the room are judged first (11), then the range of the numbers
/// projected (10).
pub fn project_found_into(found: &[i64], room: &mut Room) -> u8 {
    let numbers = found.first_chunk::<FOUND>().filter(|_| !room.is_short());
    let answer = numbers.ok_or(11).and_then(|&[x, y, z, w, a, b, c, d]| project_found([x, y, z, w], [a, b, c, d]));
    room.tell(answer)
}

/// A direction found where the point's own numbers are four zeros has no length of its own.
pub fn project_found(point: [i64; 4], projected: [i64; 4]) -> Result<Projection, u8> {
    match (point, project(projected)?) {
        ([0, 0, 0, 0], Projection::Direction { x, y, z, .. }) => Ok(Projection::Direction { x, y, z, length: 1 }),
        (_, projection) => Ok(projection),
    }
}

/// Any four numbers may come, so the range is tested before the case is chosen.
pub fn project(point: [i64; 4]) -> Result<Projection, u8> {
    if !point.iter().all(|&component| in_range(component)) {
        return Err(10);
    }
    let [x, y, z, w] = point;
    Ok(match (w, [x, y, z]) {
        (0, [0, 0, 0]) => Projection::Nowhere,
        (0, _) => direction([x, y, z]),
        _ => Projection::Finite { x: quotient(x, w), y: quotient(y, w), z: quotient(z, w) },
    })
}

/// Rounded once, in the division: in range both conversions are exact, below 2 to the
/// 53rd. 0 over a negative w would be −0, so 0 is answered apart.
fn quotient(numerator: i64, w: i64) -> u64 {
    if numerator == 0 {
        return 0f64.to_bits();
    }
    (numerator as f64 / w as f64).to_bits()
}

/// The shortest whole numbers along the line, turned so that the first of them that
/// is not 0 is positive, and how many times as long the vector is. Not all three are 0.
fn direction(vector: [i64; 3]) -> Projection {
    let divisor = greatest_common_divisor(vector);
    let first = vector.iter().find(|&&component| component != 0).copied().unwrap_or(1);
    let by = if first < 0 { -divisor } else { divisor };
    let [x, y, z] = vector.map(|component| component / by);
    Projection::Direction { x, y, z, length: divisor }
}

/// A common divisor that leaves no common divisor behind, so the greatest.
fn greatest_common_divisor(vector: [i64; 3]) -> i64 {
    let divisor = vector.iter().fold(0, |found, &component| euclid(found, component.abs()));
    assert!(vector.iter().all(|component| component % divisor == 0));
    divisor
}

fn euclid(a: i64, b: i64) -> i64 {
    if b == 0 {
        a
    } else {
        euclid(b, a % b)
    }
}

#[cfg(test)]
mod tests {
    use super::*;
    use crate::shape::RANGE;

    /// The definition itself: the largest of all numbers that divide all three.
    fn by_definition(vector: [i64; 3]) -> i64 {
        (1..=64).rev().find(|d| vector.iter().all(|component| component % d == 0)).unwrap()
    }

    #[test]
    fn divisor_is_the_greatest() {
        for x in -24..=24 {
            for y in -24..=24 {
                for z in [-12, -6, -1, 0, 1, 2, 9, 18] {
                    if [x, y, z] != [0, 0, 0] {
                        assert_eq!(greatest_common_divisor([x, y, z]), by_definition([x, y, z]));
                    }
                }
            }
        }
    }

    #[test]
    fn the_four_cases() {
        assert_eq!(project([-9, 9, 0, 0]), Ok(Projection::Direction { x: 1, y: -1, z: 0, length: 9 }));
        assert_eq!(project([0, 0, -RANGE, 0]), Ok(Projection::Direction { x: 0, y: 0, z: 1, length: RANGE }));
        assert_eq!(project([0, 0, 0, 0]), Ok(Projection::Nowhere));
        assert_eq!(project([0, -4, 6, -2]), Ok(Projection::Finite { x: 0, y: 2f64.to_bits(), z: (-3f64).to_bits() }));
        for outside in [RANGE + 1, -RANGE - 1, i64::MIN, i64::MAX] {
            for place in 0..4 {
                let mut point = [1, 2, 3, 0];
                point[place] = outside;
                assert_eq!(project(point), Err(10));
            }
        }
        assert!(project([RANGE, -RANGE, RANGE, -RANGE]).is_ok());
    }

    #[test]
    fn the_length_of_a_found_direction() {
        let direction = |length| Ok(Projection::Direction { x: 2, y: -3, z: 0, length });
        assert_eq!(project_found([0, 0, 0, 0], [-4, 6, 0, 0]), direction(1));
        assert_eq!(project_found([-4, 6, 0, 0], [-4, 6, 0, 0]), direction(2));
        assert_eq!(project_found([0, 0, 0, 1], [-4, 6, 0, 0]), direction(2));
        assert_eq!(project_found([RANGE + 1, 0, 0, 0], [-4, 6, 0, 0]), direction(2));
        assert_eq!(project_found([0, 0, 0, 0], [-4, 6, RANGE + 1, 0]), Err(10));
        assert_eq!(project_found([0, 0, 0, 0], [0, 0, 0, 0]), Ok(Projection::Nowhere));
        let mut room = Room::enough();
        assert_eq!((project_found_into(&[0, 0, 0, 0, -4, 6, 0], &mut room), room.outcome), (11, 0));
        assert_eq!((project_found_into(&[0, 0, 0, 0, -4, 6, 0, 0, 9], &mut room), room.outcome), (0, 2));
    }
}
