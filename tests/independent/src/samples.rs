//! Document 01's samples, the circle record with its text and B1 to B10, two rectangular patches: one worked
//! out by hand, and document 000's torus, and the circle entered at degree 4.

use crate::calls::{Answer, Call, Weights, FLIP, NO_WEIGHTS, REPLACE};
use crate::compare::{check_net, first_net};
use crate::generate::{bare, encode};
use crate::handed::Net;
use crate::machine::Machine;
use crate::projection::Projection;
use crate::record::Record;
use crate::shape::Shape;
use crate::text::text;

pub const CIRCLE_TEXT: &str = "curve 2 2\nframe 0 1 1 1\n0 2 0 0 2\n1 2 2 0 2\n2 0 4 0 4\nat 3fe3333333333333 3fe999999999999a 0000000000000000\n";

/// The circle record, byte by byte as the paper has it.
pub fn circle_record() -> Vec<u8> {
    from_hex(
        "01 0002 01 02  02 0008 0000 0001 0001 0001  03 0030
         00000001 00000000 00000000 00000001  00000000 00000002 00000000 00000000
         ffffffff 00000000 00000000 00000001  05 0004 0001 0001",
    )
}

/// B8 as a record, with a replace, a flip and B9's point.
pub fn patch_record() -> Vec<u8> {
    let mut record = patch();
    record.moves = vec![replace(2, [1, 1, -1, 0]), flip(3)];
    record.point = Some([1, 1, 1, 0]);
    encode(&record)
}

/// The saddle below with a replace of s2, a refused one and a point, byte by byte.
pub fn rect_record() -> Vec<u8> {
    from_hex(
        "01 0003 03 01 01  02 0010 0000 0001 0001 0001 0000 0001 0001 0001  03 0040
         00000000 00000000 00000000 00000001  00000000 00000001 00000000 00000000
         00000001 00000000 00000000 00000000  00000000 00000000 00000001 00000000
         04 0010  01 04 0001 0001 0000  01 04 0001 0001 0001  05 0008 0001 0001 0001 ffff",
    )
}

/// s2 becomes r2 + s2; the point is at q1 = (1, 2) and q2 = r2 − s2 = (−1, −1).
pub const RECT_TEXT: &str = "rect 1 1 1\nmove 2 refused 8\nframe 0 1 1 1 0 1 1 2\n0 0 0 0 0 1\n0 1 0 1 0 2\n1 0 1 0 0 1\n1 1 2 1 1 2\n\
                             at 3fe0000000000000 3ff0000000000000 3fe0000000000000\n";

fn from_hex(digits: &str) -> Vec<u8> {
    let nibbles: Vec<u8> = digits.chars().filter_map(|c| c.to_digit(16)).map(|n| n as u8).collect();
    nibbles.chunks(2).map(|two| two[0] * 16 + two[1]).collect()
}

fn curve(frame: [[i64; 3]; 2], coefficients: &[[i64; 4]]) -> Record {
    bare(Shape::curve(coefficients.len() - 1), frame.to_vec(), coefficients.to_vec())
}

fn circle() -> Record {
    curve([[0, 0, 1], [1, 0, 1]], &[[1, 0, 0, 1], [0, 2, 0, 0], [-1, 0, 0, 1]])
}

fn folium() -> Record {
    curve([[0, 0, 1], [1, 0, 1]], &[[0, 0, 0, 1], [3, 0, 0, 0], [0, 3, 0, 0], [0, 0, 0, 1]])
}

/// h rising, then l rising: Z², VZ, V², UZ, UV, U².
fn patch() -> Record {
    let coefficients = vec![[0, 0, 0, 1], [0, 1, 0, 0], [0; 4], [1, 0, 0, 0], [0, 0, 1, 0], [0; 4]];
    bare(Shape::patch(2), vec![[1, 0, 1], [0, 1, 1], [0, 0, 1]], coefficients)
}

/// x = T1 Z2, y = Z1 T2, z = T1 T2, w = Z1 Z2 over (0, 1), (1, 1) in both pairs; in the order
/// Z1 Z2, Z1 T2, T1 Z2, T1 T2.
fn saddle() -> Record {
    let pair = [[0, 0, 1], [1, 0, 1]];
    bare(Shape::rect(1, 1), [pair, pair].concat(), vec![[0, 0, 0, 1], [0, 1, 0, 0], [1, 0, 0, 0], [0, 0, 1, 0]])
}

/// Document 000's torus over (−1, 1) in both pairs, by the polynomials of its second example
/// with base points, for a = 2, b = c = 1: x = 2 (Z1² − T1²) g, y = 4 T1 Z1 g, with
/// g = Z2² − T2 Z2 + T2²; z = (Z1² + T1²)(Z2² − T2²); w = (Z1² + T1²)(Z2² + T2²).
fn torus() -> Record {
    let pair = [[-1, 0, 1], [1, 0, 1]];
    let coefficients = vec![
        [2, 0, 1, 1], [-2, 0, 0, 0], [2, 0, -1, 1],
        [0, 4, 0, 0], [0, -4, 0, 0], [0, 4, 0, 0],
        [-2, 0, 1, 1], [2, 0, 0, 0], [-2, 0, -1, 1],
    ];
    bare(Shape::rect(2, 2), [pair, pair].concat(), coefficients)
}

/// Its net without the scale. Document 000 prints an affine point with its weight, so its
/// {0, −3, 0, 4} is 0, −12, 0, 4; an entry of weight 0 is a vector and stands as it is.
const TORUS_NET: [[i64; 4]; 9] = [
    [0, -12, 0, 4], [0, 0, 4, 0], [0, -4, 0, 4],
    [12, 0, 0, 0], [0, 0, 0, 0], [4, 0, 0, 0],
    [0, 12, 0, 4], [0, 0, 4, 0], [0, 4, 0, 4],
];

fn line() -> Record {
    curve([[0, 0, 1], [1, 0, 0]], &[[1_048_576, 0, 0, 1], [0, 0, 0, 1]])
}

fn replace(vertex: u8, weights: Weights) -> Call {
    Call::Move { operation: REPLACE, vertex, weights }
}

fn flip(vertex: u8) -> Call {
    Call::Move { operation: FLIP, vertex, weights: NO_WEIGHTS }
}

/// A record under the machine and the handed net at once; both must agree.
struct Bench {
    machine: Machine,
    net: Net,
}

impl Bench {
    fn new(record: &Record) -> Bench {
        Bench { machine: Machine::new(record), net: first_net(record) }
    }

    fn call(&mut self, call: Call) -> Result<Answer, String> {
        let (machine, net) = (self.machine.answer(&call), self.net.answer(&call));
        check_net(&self.machine, &self.net)?;
        same("machine and net", machine, net)?;
        Ok(machine)
    }

    fn entries(&self) -> Vec<[i64; 4]> {
        self.net.used(self.machine.shape())
    }

    fn frame(&self) -> &[i64] {
        self.net.frame(self.machine.shape())
    }
}

fn same<T: PartialEq + std::fmt::Debug>(name: &str, given: T, wanted: T) -> Result<(), String> {
    if given == wanted {
        Ok(())
    } else {
        Err(format!("{name}: {given:?}, not {wanted:?}"))
    }
}

fn components(answer: Answer) -> [i64; 4] {
    match answer {
        Answer::Point { x, y, z, w, .. } => [x, y, z, w],
        _ => [i64::MIN; 4],
    }
}

/// All samples, or the first that does not hold.
pub fn check_samples() -> Result<(), String> {
    same("circle text", text(&circle_record()).as_str(), CIRCLE_TEXT)?;
    same("circle record", encode(&Record { point: Some([1, 1, 0, 0]), ..circle() }), circle_record())?;
    same("empty input", text(&[]).as_str(), "refused 2 at 0\n")?;
    circle_samples()?;
    folium_samples()?;
    patch_samples()?;
    line_samples()?;
    weight_samples()?;
    saddle_samples()?;
    torus_samples()?;
    frame_samples()?;
    zero_samples()
}

fn circle_samples() -> Result<(), String> {
    let mut bench = Bench::new(&circle());
    same("B1", bench.entries(), vec![[2, 0, 0, 2], [2, 2, 0, 2], [0, 4, 0, 4]])?;
    same("B2", components(bench.call(Call::Point { weights: [1, 1, 0, 0] })?), [6, 8, 0, 10])?;
    bench.call(replace(2, [1, 1, 0, 0]))?;
    same("B3", bench.entries(), vec![[2, 0, 0, 2], [4, 2, 0, 4], [6, 8, 0, 10]])?;
    let mut bench = Bench::new(&circle());
    bench.call(flip(1))?;
    same("B4", bench.entries(), vec![[2, 0, 0, 2], [-2, -2, 0, -2], [0, 4, 0, 4]])?;
    same("B5", components(bench.call(Call::Point { weights: [1, 1, 0, 0] })?), [-2, 0, 0, 2])
}

fn folium_samples() -> Result<(), String> {
    let mut bench = Bench::new(&folium());
    same("B6", bench.entries(), vec![[0, 0, 0, 3], [3, 0, 0, 3], [6, 3, 0, 3], [9, 9, 0, 6]])?;
    let projection = Projection::Direction { x: 1, y: -1, z: 0, length: 9 };
    let wanted = Answer::Point { x: -9, y: 9, z: 0, w: 0, projected: [-9, 9, 0, 0], projection };
    same("B7", bench.call(Call::Point { weights: [2, -1, 0, 0] })?, wanted)
}

fn patch_samples() -> Result<(), String> {
    let mut bench = Bench::new(&patch());
    let net = vec![[2, 0, 0, 2], [1, 1, 1, 2], [1, 0, 0, 2], [0, 2, 0, 2], [0, 1, 0, 2], [0, 0, 0, 2]];
    same("B8", bench.entries(), net)?;
    same("B9", components(bench.call(Call::Point { weights: [1, 1, 1, 0] })?), [6, 6, 2, 18])
}

fn line_samples() -> Result<(), String> {
    let mut bench = Bench::new(&line());
    same("B10 first", bench.call(replace(1, [4096, 1, 0, 0]))?, Answer::Taken)?;
    same("B10 second", bench.call(replace(1, [4096, 1, 0, 0]))?, Answer::Taken)?;
    same("B10 with 17", bench.call(replace(1, [17, 1, 0, 0]))?, Answer::Refused(10))?;
    same("B10 with 16", bench.call(replace(1, [16, 1, 0, 0]))?, Answer::Taken)?;
    same("B10 entry 0", bench.entries()[0][0], 1 << 48)
}

fn weight_samples() -> Result<(), String> {
    let mut bench = Bench::new(&circle());
    same("weight 4096", bench.call(replace(1, [4096, 0, 0, 0]))?, Answer::Taken)?;
    same("weight 4097", bench.call(replace(1, [4097, 0, 0, 0]))?, Answer::Refused(8))
}

fn saddle_samples() -> Result<(), String> {
    same("saddle text", text(&rect_record()).as_str(), RECT_TEXT)?;
    let refused = replace(4, [1, 1, 1, 0]);
    let record = Record { moves: vec![replace(4, [1, 1, 0, 0]), refused], point: Some([1, 1, 1, -1]), ..saddle() };
    same("saddle record", encode(&record), rect_record())?;
    let mut bench = Bench::new(&saddle());
    same("saddle net", bench.entries(), vec![[0, 0, 0, 1], [0, 1, 0, 1], [1, 0, 0, 1], [1, 1, 1, 1]])?;
    bench.call(replace(2, [3, 2, 0, 0]))?;
    same("saddle, s1", bench.entries(), vec![[0, 0, 0, 1], [0, 1, 0, 1], [2, 0, 0, 5], [2, 5, 2, 5]])?;
    same("saddle at r1, s2", components(bench.call(Call::Point { weights: [1, 0, 0, 2] })?), [0, 2, 0, 2])?;
    same("saddle, pair 1 idle", bench.call(Call::Point { weights: [0, 0, 1, 0] })?, Answer::Refused(9))?;
    same("saddle, pair 2 idle", bench.call(Call::Point { weights: [1, 0, 0, 0] })?, Answer::Refused(9))?;
    same("saddle, r2 without weight", bench.call(replace(3, [0, 1, 0, 0]))?, Answer::Refused(9))
}

/// The scale is 4, and the flips are the three
/// second nets of document 000: (−1)^(p−i), (−1)^(q−j), and both.
fn torus_samples() -> Result<(), String> {
    let wanted = |minus_signs: fn(u32, u32) -> u32| -> Vec<[i64; 4]> {
        let places = (0..3).flat_map(|i| (0..3).map(move |j| (i, j)));
        places.zip(TORUS_NET).map(|((i, j), entry)| entry.map(|c| 4 * (-1i64).pow(minus_signs(i, j)) * c)).collect()
    };
    let mut bench = Bench::new(&torus());
    same("torus", bench.entries(), wanted(|_, _| 0))?;
    same("torus at 0, 0", components(bench.call(Call::Point { weights: [1, 1, 1, 1] })?), [128, 0, 64, 64])?;
    bench.call(flip(1))?;
    same("torus, first second net", bench.entries(), wanted(|i, _| 2 - i))?;
    bench.call(flip(3))?;
    same("torus, third second net", bench.entries(), wanted(|i, j| 4 - i - j))?;
    bench.call(flip(1))?;
    same("torus, second second net", bench.entries(), wanted(|_, j| 2 - j))
}

/// E5: the frame of the circle along B3 and B4, and x = T³ over r = (0, 1), whose entries
/// do not see r: it comes to 2 to the 48th, and r + s is one beyond.
fn frame_samples() -> Result<(), String> {
    let mut bench = Bench::new(&circle());
    same("circle's frame", bench.frame(), &[0, 1, 1, 1])?;
    bench.call(replace(2, [1, 1, 0, 0]))?;
    same("frame after B3", bench.frame(), &[0, 1, 1, 2])?;
    bench.call(flip(1))?;
    same("frame after a flip of r", bench.frame(), &[0, -1, 1, 2])?;
    bench.call(replace(1, [0, 1, 0, 0]))?;
    same("frame after a refusal", bench.frame(), &[0, -1, 1, 2])?;
    let mut bench = Bench::new(&curve([[0, 0, 1], [1, 0, 1]], &[[0; 4], [0; 4], [0; 4], [1, 0, 0, 0]]));
    for _ in 0..4 {
        same("r grows", bench.call(replace(1, [4096, 0, 0, 0]))?, Answer::Taken)?;
    }
    same("2^48", bench.frame(), &[0, 1 << 48, 1, 1])?;
    same("2^48 + 1", bench.call(replace(2, [1, 1, 0, 0]))?, Answer::Refused(12))?;
    same("a point's q", components(bench.call(Call::Point { weights: [4096, 1, 0, 0] })?), [3, 0, 0, 0])?;
    same("2^48 - 1", bench.call(replace(2, [-1, 1, 0, 0]))?, Answer::Taken)?;
    same("entries", bench.entries(), vec![[0; 4], [0; 4], [0; 4], [3, 0, 0, 0]])?;
    same("negative", bench.frame(), &[0, 1 << 48, 1, 1 - (1 << 48)])?;
    bench.call(flip(1))?;
    same("-2^48", bench.frame(), &[0, -(1 << 48), 1, 1 - (1 << 48)])
}

/// A point's own numbers, and the numbers projected.
fn both(answer: Answer) -> [[i64; 4]; 2] {
    match answer {
        Answer::Point { projected, .. } => [components(answer), projected],
        _ => [[i64::MIN; 4]; 2],
    }
}

/// E7: the circle times T(2T − Z) over r = (0, 1) and s = (1, 1), scale 12. At r what is left is −1 times the
/// circle's 1 0 0 1, T is 1 at s, and the binomial of 4 over 1 is 4. At r + s, which is (1, 2), what is left
/// is the circle's 3 4 0 5, and 2T − Z is −1 at r. Then r + s takes the place of s, where T is 1 too.
fn zero_samples() -> Result<(), String> {
    let rows = [[0, 0, 0, 0], [-1, 0, 0, -1], [2, -2, 0, 2], [1, 4, 0, -1], [-2, 0, 0, 2]];
    let mut bench = Bench::new(&curve([[0, 0, 1], [1, 0, 1]], &rows));
    let at = |bench: &mut Bench, weights| bench.call(Call::Point { weights }).map(both);
    same("circle of degree 4 at r", at(&mut bench, [1, 0, 0, 0])?, [[0; 4], [-3, 0, 0, -3]])?;
    same("at 1/2", at(&mut bench, [1, 1, 0, 0])?, [[0; 4], [-9, -12, 0, -15]])?;
    same("at 1/2 by -2 and -2", at(&mut bench, [-2, -2, 0, 0])?, [[0; 4], [72, 96, 0, 120]])?;
    same("at s, no zero", at(&mut bench, [0, 1, 0, 0])?, [[0, 24, 0, 24]; 2])?;
    bench.call(replace(2, [1, 1, 0, 0]))?;
    same("at 1/2, which is s", at(&mut bench, [0, 1, 0, 0])?, [[0; 4], [-9, -12, 0, -15]])?;
    same("at r again", at(&mut bench, [2, 0, 0, 0])?, [[0; 4], [-24, 0, 0, -24]])?;
    let mut bench = Bench::new(&curve([[0, 0, 1], [1, 0, 1]], &[[0; 4]; 4]));
    same("the zero curve", at(&mut bench, [1, 1, 0, 0])?, [[0; 4]; 2])
}

#[cfg(test)]
mod tests {
    #[test]
    fn samples_hold() {
        super::check_samples().unwrap();
    }
}
