//! Records for the benchmark.
use crate::plain::Shape;

/// A record of the shape with small coefficients over the usual frame, and a point.
pub fn record(shape: Shape) -> Vec<u8> {
    let mut seed = 12345;
    let numbers: Vec<i32> = (0..shape.numbers()).map(|_| random(&mut seed) % 1000 - 500).collect();
    made(shape, &numbers)
}

/// A record of a curve over the usual frame whose point is a common zero of this order: four polynomials with
/// small coefficients, each times 2 T - Z to the order. Where the order is the degree, four numbers are left.
pub fn zero_record(degree: u8, order: u8) -> Vec<u8> {
    let shape = Shape { kind: 1, degree, second: 0 };
    let mut seed = 12345;
    let mut numbers = vec![0; shape.numbers()];
    for number in &mut numbers[..4 * (degree - order + 1) as usize] {
        *number = random(&mut seed) % 20 + 1;
    }
    for _ in 0..order {
        for i in (0..numbers.len()).rev() {
            let before = if i < 4 { 0 } else { numbers[i - 4] };
            numbers[i] = 2 * before - numbers[i];
        }
    }
    made(shape, &numbers)
}

/// The next of a row of numbers that look random; none is negative.
fn random(seed: &mut u32) -> i32 {
    *seed = seed.wrapping_mul(1664525).wrapping_add(1013904223);
    (*seed >> 16) as i32
}

/// A record of the shape with these coefficients over the usual frame, and a point.
fn made(shape: Shape, coefficients: &[i32]) -> Vec<u8> {
    let Shape { kind, degree, second } = shape;
    let mut s = Vec::new();
    field(&mut s, 1, &[kind, degree, second][..if kind == 3 { 3 } else { 2 }]);
    field(&mut s, 2, &shorts(match kind {
        1 => &[0, 1, 1, 1],
        2 => &[1, 0, 1, 0, 1, 1, 0, 0, 1],
        _ => &[0, 1, 1, 1, 0, 1, 1, 1],
    }));
    field(&mut s, 3, &coefficients.iter().flat_map(|number| number.to_be_bytes()).collect::<Vec<u8>>());
    field(&mut s, 5, &shorts(&[1, 1, 1, 1][..kind as usize + 1]));
    s
}

fn field(s: &mut Vec<u8>, tag: u8, value: &[u8]) {
    s.push(tag);
    s.extend((value.len() as u16).to_be_bytes());
    s.extend(value);
}

fn shorts(numbers: &[i16]) -> Vec<u8> {
    numbers.iter().flat_map(|number| number.to_be_bytes()).collect()
}

/// The weights of the point: 1 for each vertex.
pub fn point(kind: u8) -> [i64; 4] {
    match kind {
        1 => [1, 1, 0, 0],
        2 => [1, 1, 1, 0],
        _ => [1, 1, 1, 1],
    }
}
