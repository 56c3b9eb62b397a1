//! Numbers for first nets without a record, proper ones and ones outside.

use super::nets::any_number;
use super::records::any_made;
use crate::first::{Given, COEFFICIENTS, FRAME};
use crate::random::Random;
use crate::record::{LARGEST_COEFFICIENT, LARGEST_FRAME_NUMBER};

/// Those of any record, at times with something outside; what the kind and degree do
/// not take is anything at all, and now and then there is too little of it.
pub fn any_first(random: &mut Random) -> Given {
    let record = any_made(random).record;
    let kind = record.shape.kind.number();
    let [degree, second] = record.shape.degrees.map(|degree| degree as u8);
    let frame = record.frame_numbers();
    let coefficients = record.coefficients.into_iter().flatten().collect();
    let mut given = Given { kind, degree, second, frame, coefficients };
    for _ in 0..random.pick(&[0, 0, 0, 0, 1, 1, 1, 2]) {
        outside(random, &mut given);
    }
    fill(random, &mut given.frame, FRAME);
    fill(random, &mut given.coefficients, COEFFICIENTS);
    given
}

fn outside(random: &mut Random, given: &mut Given) {
    match random.below(8) {
        0 => given.kind = random.pick(&[0, 1, 2, 3, 4, 128, 255]),
        1 => given.degree = random.pick(&[0, 6, 9, 10, 11, 128, 255]),
        2 => given.second = random.pick(&[0, 1, 5, 6, 128, 255]),
        3 | 4 => one_outside(random, &mut given.frame, LARGEST_FRAME_NUMBER),
        5 | 6 => one_twice(random, &mut given.frame),
        _ => one_outside(random, &mut given.coefficients, LARGEST_COEFFICIENT),
    }
}

/// One vertex of a group stands for the next too, so its determinant is 0.
fn one_twice(random: &mut Random, frame: &mut [i64]) {
    let (numbers, from) = match frame.len() {
        9 => (3, 0),
        8 => (2, random.pick(&[0, 4])),
        _ => (2, 0),
    };
    frame.copy_within(from..from + numbers, from + numbers);
}

fn one_outside(random: &mut Random, numbers: &mut [i64], largest: i64) {
    let one = random.below(numbers.len());
    numbers[one] = random.pick(&[largest + 1, -largest - 1, i64::MAX, i64::MIN, i64::MIN + 1, 1 << 32]);
}

/// As many as are wanted, some more, or too few.
fn fill(random: &mut Random, numbers: &mut Vec<i64>, wanted: usize) {
    let length = match random.below(24) {
        0 => wanted - 1,
        1 => random.below(wanted),
        2..=5 => wanted + 1 + random.below(9),
        _ => wanted,
    };
    numbers.resize_with(length, || any_number(random));
}
