//! Handed nets and quadruples of any numbers.

use super::polynomials::degree_and_order;
use super::records::any_shape;
use crate::calls::{Answer, Call, FLIP, NO_WEIGHTS, REPLACE};
use crate::handed::{head, Net, ENTRIES, FRAME, LARGEST, PLACES};
use crate::projection::Room;
use crate::random::Random;
use crate::shape::{Shape, RANGE};

/// A net of anything in a run that is long enough: mostly one that can be called on,
/// often not. The places that it does not use hold any numbers.
pub fn handed(random: &mut Random) -> Net {
    let length = PLACES + random.pick(&[0, 0, 0, 1, 1, 2, 7, 64]);
    let mut net = Net((0..length).map(|_| any_number(random)).collect());
    let shape = any_shape(random);
    net.0[..3].copy_from_slice(&head(shape));
    any_frame(random, &mut net.0[FRAME..FRAME + shape.kind.frame_numbers()]);
    let sort = random.below(5);
    let used = &mut net.0[ENTRIES..ENTRIES + 4 * shape.places()];
    used.iter_mut().for_each(|number| *number = entry_number(random, sort));
    if sort == 4 {
        one_component(random, used);
    } else if random.once_in(3) {
        about_the_limit(random, shape, used);
    }
    if random.once_in(6) {
        used[random.below(used.len())] = beyond(random);
    }
    any_claim(random, &mut net);
    if random.once_in(6) {
        shape_outside(random, &mut net);
    }
    net
}

/// A curve's net with a common zero of any order up to its degree, or of zeros alone, in order, over any
/// frame in range, often one with determinant 0, and calls to begin with, the last first: points at the zero,
/// flips between them. Its entries come from no record: those at r, or at s, are zeros, and replaces with a
/// weight of ±1 for the vertex bring the zero elsewhere.
pub fn with_zero(random: &mut Random) -> (Net, Vec<Call>) {
    let (degree, order) = degree_and_order(random);
    let (shape, order) = (Shape::curve(degree), if random.once_in(6) { degree + 1 } else { order });
    let length = PLACES + random.pick(&[0, 0, 0, 1, 7]);
    let mut net = Net((0..length).map(|_| any_number(random)).collect());
    let mut entries = vec![[0; 4]; order];
    let sort = random.pick(&[0, 0, 2, 3]);
    entries.extend((order..=degree).map(|_| [0; 4].map(|_| entry_number(random, sort))));
    if random.once_in(3) && order <= degree {
        entries[order][3] = 0;
    }
    let mut weights = [1, 0];
    if random.once_in(2) {
        entries.reverse();
        weights = [0, 1];
    }
    net.write(shape, &entries);
    net.write_frame(&[0; 4]);
    for _ in 0..random.below(3) {
        weights = moved_zero(random, &mut net, weights);
    }
    any_flat_frame(random, &mut net);
    any_claim(random, &mut net);
    (net, points_at(random, weights))
}

/// Replaces a vertex v of a curve by ev + ku, e being 1 or −1, where that is taken, and gives the weights
/// that name the same q as before.
fn moved_zero(random: &mut Random, net: &mut Net, [r, s]: [i64; 2]) -> [i64; 2] {
    let (vertex, e, k) = (1 + random.below(2) as u8, random.sign(), random.between(-2, 2));
    let (own, after) = if vertex == 1 { ([e, k], [e * r, s - e * k * r]) } else { ([k, e], [r - e * k * s, e * s]) };
    let weights = [own[0], own[1], 0, 0];
    match net.answer(&Call::Move { operation: REPLACE, vertex, weights }) {
        Answer::Taken => after,
        _ => [r, s],
    }
}

/// A frame of numbers in range; every second time s is a multiple of r, or both are 0.
fn any_flat_frame(random: &mut Random, net: &mut Net) {
    let sort = random.below(6);
    let mut frame = [0; 4].map(|_| frame_number(random, sort));
    if random.once_in(2) {
        let (by, r) = (random.between(-2, 2), [0; 2].map(|_| random.between(-4, 4)));
        frame = [r[0], r[1], by * r[0], by * r[1]];
    }
    net.write_frame(&frame);
}

/// Points at multiples of the weights, and at what flips make of them.
fn points_at(random: &mut Random, [mut r, mut s]: [i64; 2]) -> Vec<Call> {
    let mut calls = Vec::new();
    for _ in 0..3 {
        let by = random.pick(&[1, 1, -1, 2, 3, 7, 100]);
        calls.push(Call::Point { weights: [by * r, by * s, 0, 0] });
        let vertex = 1 + random.below(2) as u8;
        (r, s) = if vertex == 1 { (-r, s) } else { (r, -s) };
        calls.push(Call::Move { operation: FLIP, vertex, weights: NO_WEIGHTS });
    }
    calls.reverse();
    calls
}

/// A handed net with kind, degrees, entries and frame in order, so that every flip is taken, and
/// its shape.
pub fn in_order(random: &mut Random) -> (Shape, Net) {
    let flip = Call::Move { operation: FLIP, vertex: 1, weights: NO_WEIGHTS };
    loop {
        let net = handed(random);
        if let Ok(shape) = net.judged(&flip) {
            return (shape, net);
        }
    }
}

/// What a net claims as its largest component, where its run is long enough: the right number,
/// ones near it, its negative, the ends of the range and of 64 bits, or anything.
pub fn any_claim(random: &mut Random, net: &mut Net) {
    if net.is_short() {
        return;
    }
    let right = net.shape().map_or(0, |shape| net.most(shape));
    let (near, far) = (right.saturating_add(random.sign()), random.pick(&[i64::MIN, i64::MAX, i64::MIN + 1, -1, 0, RANGE]));
    let anywhere = any_number(random);
    net.0[LARGEST] = random.pick(&[right, right, near, -right, right / 2, right.saturating_mul(2), far, far, anywhere]);
}

/// The numbers of a handed frame: mostly small, at times of any size in range or at its ends,
/// and now and then with one that is beyond. Nothing asks for a determinant.
fn any_frame(random: &mut Random, numbers: &mut [i64]) {
    let sort = random.below(6);
    numbers.iter_mut().for_each(|number| *number = frame_number(random, sort));
    if random.once_in(8) {
        numbers[random.below(numbers.len())] = beyond(random);
    }
}

fn frame_number(random: &mut Random, sort: usize) -> i64 {
    match sort {
        0 | 1 => random.between(-4, 4),
        2 => random.pick(&[0, 1, -1]),
        3 => random.between(-RANGE, RANGE) >> random.below(49),
        _ => random.pick(&[0, 0, 0, 1, -1, RANGE, -RANGE, RANGE - 1, 1 - RANGE]),
    }
}

/// The same, at times in a run that is too short.
pub fn any_run(random: &mut Random) -> Net {
    let mut net = handed(random);
    if random.once_in(8) {
        let anywhere = random.below(PLACES);
        net.0.truncate(random.pick(&[PLACES - 1, PLACES - 1, PLACES - 2, ENTRIES, 2, 0, anywhere]));
    }
    net
}

/// All components but one are 0, so that large ones do not all have to cancel.
fn one_component(random: &mut Random, used: &mut [i64]) {
    let kept = random.below(4);
    let others = used.iter_mut().enumerate().filter(|(place, _)| place % 4 != kept);
    others.for_each(|(_, number)| *number = 0);
}

/// One vertex's own entry at the limit or just under it, the others 0 or ±1: sums of
/// them come to the limit and to one past it.
fn about_the_limit(random: &mut Random, shape: Shape, used: &mut [i64]) {
    used.iter_mut().for_each(|number| *number = random.pick(&[0, 0, 0, 0, 0, 1, -1]));
    let copies = shape.copies();
    let vertex = random.below(shape.vertices());
    let degree = shape.degrees[shape.kind.group_of(vertex)];
    let own = copies.iter().position(|copies| copies[vertex] == degree).unwrap_or(0);
    let component = random.below(4);
    used[4 * own + component] = random.sign() * (RANGE - random.between(0, 2));
}

/// Kind, degree or second degree that no net has, numbers that are no bytes among them, also ones
/// whose low byte is right.
fn shape_outside(random: &mut Random, net: &mut Net) {
    let outside = random.pick(&[0, 4, 6, 9, 11, 128, 255, 256, 257, 258, 259, -1, -253, -254, -255, -256, 1 << 32, i64::MAX, i64::MIN]);
    match random.below(8) {
        7 => net.0[random.pick(&[0, 0, 1, 2])] += random.pick(&[256, -256, 1 << 32, -(1 << 62)]),
        0 => net.0[0] = outside,
        1 => net.0[1] = outside,
        2 => net.0[2] = random.pick(&[outside, 1, 2, 5, 8, 10]),
        3 | 4 => net.0[2] = if net.0[2] == 0 { random.between(1, 5) } else { random.pick(&[0, 6]) },
        5 => net.0[0] = random.pick(&[1, 2, 3]),
        _ => (net.0[0], net.0[1]) = (outside, random.pick(&[0, 1, 9, 10, 11])),
    }
}

fn entry_number(random: &mut Random, sort: usize) -> i64 {
    match sort {
        0 => random.between(-9, 9),
        1 => random.pick(&[0, 0, 0, 1, -1, RANGE, -RANGE, RANGE - 1, 1 - RANGE]),
        4 => random.pick(&[0, RANGE, -RANGE, RANGE / 2, -RANGE / 2]),
        2 => random.between(-RANGE, RANGE) >> random.below(49),
        _ => random.pick(&[0, 0, 0, 0, 0, 0, 1, -1]),
    }
}

fn beyond(random: &mut Random) -> i64 {
    random.pick(&[RANGE + 1, -RANGE - 1, i64::MAX, i64::MIN, i64::MIN + 1, 1 << 62, -(1 << 53)])
}

pub fn any_number(random: &mut Random) -> i64 {
    let anywhere = random.next() as i64;
    random.pick(&[anywhere, anywhere, i64::MIN, i64::MAX, 0, RANGE + 1])
}

/// Places for a projection, with anything in them: mostly enough, often more, at times
/// too few in one of the two buffers.
pub fn any_room(random: &mut Random) -> Room {
    let bits = random.pick(&[3, 3, 3, 3, 3, 3, 4, 4, 5, 9, 2, 0]);
    let direction = random.pick(&[4, 4, 4, 4, 4, 4, 5, 5, 6, 9, 3, 0]);
    Room {
        outcome: random.next() as u8,
        bits: (0..bits).map(|_| random.next()).collect(),
        direction: (0..direction).map(|_| any_number(random)).collect(),
    }
}

/// Numbers as a point leaves them, and others: eight, often more, at times fewer.
pub fn any_found(random: &mut Random) -> Vec<i64> {
    let (mut first, mut second) = (four_numbers(random), four_numbers(random));
    match random.below(6) {
        0..=2 => first = [0; 4],
        3 => second = first,
        4 => first = [0, 0, 0, random.sign() * random.pick(&[1, 7, RANGE, RANGE + 1])],
        _ => {}
    }
    if random.once_in(3) {
        second[3] = 0;
    }
    let mut found = [first, second].concat();
    found.resize(random.pick(&[8, 8, 8, 8, 8, 8, 9, 12, 7, 4, 3, 0]), 0);
    found
}

/// Four numbers to project, of every case.
pub fn four_numbers(random: &mut Random) -> [i64; 4] {
    let sort = random.below(4);
    let mut point = [0; 4].map(|_| entry_number(random, sort));
    match random.below(6) {
        0 => point[3] = 0,
        1 => point[random.below(4)] = beyond(random),
        2 => point = [0, 0, 0, random.pick(&[0, 0, -1, 5])],
        3 => {
            let common = random.between(-(1 << 20), 1 << 20);
            point = [common * random.between(-99, 99), common * random.between(-99, 99), common * random.between(-9, 9), 0];
        }
        _ => {}
    }
    point
}

/// Four numbers whose first two quotients lie just above 1, where the bound on a coordinate has least to spare,
/// and near to a tie, the middle of two f64: 1 + j ÷ w is about 1 + m ÷ 2^53 with m odd.
pub fn near_tie(random: &mut Random) -> [i64; 4] {
    let (j, digits) = (random.between(1, 4), random.between(8, 20));
    let m = 2 * random.between(16 * j, 1 << digits) + 1;
    let w = (j << 53) / m + random.between(-2, 2);
    let numerators = [j, j, random.between(1, 4)].map(|more| random.sign() * (w + more));
    [numerators[0], numerators[1], numerators[2], random.sign() * w]
}
