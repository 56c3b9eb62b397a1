//! Coefficients of many sorts, and the parameter points at which they vanish.

use crate::random::Random;
use crate::record::LARGEST_COEFFICIENT;
use crate::shape::{Exponents, Group, Kind, Shape};

/// Coefficients with something to aim at.
pub struct Sort {
    pub coefficients: Vec<[i64; 4]>,
    pub aims: Vec<Aim>,
}

/// A parameter point of one group at which w, or everything, is 0, whatever the points of
/// the other group.
#[derive(Clone, Copy, Debug)]
pub struct Aim {
    pub group: usize,
    pub point: [i64; 3],
}

/// One sort out of all that need no particular frame.
pub fn any_sort(random: &mut Random, shape: Shape) -> Sort {
    match random.below(8) {
        0 => plain(filled(random, shape, |random| random.between(-3, 3))),
        1 => plain(filled(random, shape, |random| random.between(-1000, 1000))),
        2 => plain(filled(random, shape, large)),
        3 => plain(filled(random, shape, |random| if random.once_in(6) { random.between(-50, 50) } else { 0 })),
        4 => plain(filled(random, shape, |random| if random.once_in(9) { large(random) } else { 0 })),
        5 => plain(some_components(random, shape)),
        6 => vanishing(random, shape, [true, true, true, true]),
        _ => vanishing(random, shape, [false, false, false, true]),
    }
}

/// Small enough to be in range over every small frame.
pub fn tame(random: &mut Random, shape: Shape) -> Sort {
    plain(filled(random, shape, |random| random.between(-1, 1)))
}

fn plain(coefficients: Vec<[i64; 4]>) -> Sort {
    Sort { coefficients, aims: Vec::new() }
}

fn large(random: &mut Random) -> i64 {
    let edge = LARGEST_COEFFICIENT;
    let anywhere = random.between(-edge, edge);
    random.pick(&[edge, -edge, edge - 1, 1 - edge, anywhere, anywhere])
}

fn filled(random: &mut Random, shape: Shape, number: impl Fn(&mut Random) -> i64) -> Vec<[i64; 4]> {
    (0..shape.places()).map(|_| [0; 4].map(|_| number(random))).collect()
}

/// Some components are the zero polynomial, at times all.
fn some_components(random: &mut Random, shape: Shape) -> Vec<[i64; 4]> {
    let kept = [0; 4].map(|_| random.between(0, 1));
    let all = filled(random, shape, |random| random.between(-5, 5));
    all.into_iter().map(|entry| [0, 1, 2, 3].map(|c| entry[c] * kept[c])).collect()
}

/// The marked components have a common linear factor, which is 0 at the point aimed at.
pub fn vanishing(random: &mut Random, shape: Shape, marked: [bool; 4]) -> Sort {
    let group = random.below(shape.groups().len());
    let own = shape.groups()[group];
    let point = random_parameter(random, own.vertices, 2);
    let form = form_through(random, own, point);
    let mut coefficients = filled(random, shape, |random| random.between(-3, 3));
    let rest = shape.with_degree(group, own.degree - 1);
    for component in (0..4).filter(|&component| marked[component]) {
        let other = (0..rest.places()).map(|_| random.between(-3, 3)).collect::<Vec<i64>>();
        let product = times_form(rest, group, &other, form);
        coefficients.iter_mut().zip(product).for_each(|(entry, a)| entry[component] = a);
    }
    Sort { coefficients, aims: vec![Aim { group, point }] }
}

/// A degree of a curve and the order of a common zero: each order as often as the others, often that of the
/// degree.
pub fn degree_and_order(random: &mut Random) -> (usize, usize) {
    let largest = Kind::Curve.largest_degree();
    let order = 1 + random.below(largest);
    let degree = if random.once_in(3) { order } else { order + random.below(largest + 1 - order) };
    (degree, order)
}

/// A curve whose polynomials all vanish at the point aimed at, at least to this order; some to a higher one,
/// w often, and some are 0.
pub fn common_zero(random: &mut Random, shape: Shape, point: [i64; 3], order: usize) -> Sort {
    let (degree, form) = (shape.degrees[0], [point[2], 0, -point[0]]);
    let mut coefficients = vec![[0; 4]; shape.places()];
    for component in 0..4 {
        let once_in = if component == 3 { 3 } else { 8 };
        let own = degree.min(order + usize::from(random.once_in(once_in)));
        let size = if random.once_in(8) { 0 } else { 3 };
        let mut product: Vec<i64> = (0..=degree - own).map(|_| random.between(-size, size)).collect();
        for below in degree - own..degree {
            product = times_form(shape.with_degree(0, below), 0, &product, form);
        }
        coefficients.iter_mut().zip(product).for_each(|(entry, a)| entry[component] = a);
    }
    Sort { coefficients, aims: vec![Aim { group: 0, point }] }
}

/// Of a group with so many vertices.
pub fn random_parameter(random: &mut Random, vertices: usize, size: i64) -> [i64; 3] {
    loop {
        let mut point = [0; 3].map(|_| random.between(-size, size));
        if vertices == 2 {
            point[1] = 0;
        }
        if point != [0; 3] {
            return point;
        }
    }
}

/// A linear form that is 0 at the point, and not the zero form.
fn form_through(random: &mut Random, group: Group, [u, v, z]: [i64; 3]) -> [i64; 3] {
    if group.vertices == 2 {
        return [z, 0, -u];
    }
    loop {
        let [a, b, c] = random_parameter(random, group.vertices, 2);
        let form = [v * c - z * b, z * a - u * c, u * b - v * a];
        if form != [0; 3] {
            return form;
        }
    }
}

/// The product of a polynomial of this shape and a form in the coordinates of one group,
/// whose degree it raises by one.
pub fn times_form(shape: Shape, group: usize, polynomial: &[i64], form: [i64; 3]) -> Vec<i64> {
    let exponents = shape.with_degree(group, shape.degrees[group] + 1).exponents();
    let mut product = vec![0; exponents.len()];
    for (own, &a) in shape.exponents().iter().zip(polynomial) {
        let (h, l) = own[group];
        for (raised, by) in [((h + 1, l), form[0]), ((h, l + 1), form[1]), ((h, l), form[2])] {
            if by != 0 {
                let mut target = own.clone();
                target[group] = raised;
                let place = exponents.iter().position(|e| *e == target).expect("a monomial of the product");
                product[place] += a * by;
            }
        }
    }
    product
}

/// A power of one form in the coordinates of one group, times anything small in those of
/// the other group, or a constant: over vertices at which the form is 0 the frame may grow
/// without end and the entries do not.
pub fn power_of_form(random: &mut Random, shape: Shape, group: usize, form: [i64; 3]) -> Option<Vec<[i64; 4]>> {
    let mut coefficients = vec![[0; 4]; shape.places()];
    for component in 0..4 {
        let mut product: Vec<i64> = (0..shape.with_degree(group, 0).places()).map(|_| random.between(-2, 2)).collect();
        for degree in 0..shape.degrees[group] {
            product = times_form(shape.with_degree(group, degree), group, &product, form);
        }
        coefficients.iter_mut().zip(product).for_each(|(entry, a)| entry[component] = a);
    }
    let inside = coefficients.iter().flatten().all(|a| a.abs() <= LARGEST_COEFFICIENT);
    inside.then_some(coefficients)
}

/// Polynomials of a patch without one of the coordinates U, V (0 or 1): they may use
/// the other one and Z as they like.
pub fn without_coordinate(random: &mut Random, shape: Shape, left_out: usize) -> Vec<[i64; 4]> {
    let keep = |&(h, l): &Exponents| if left_out == 0 { h == 0 } else { l == 0 };
    let exponents = shape.exponents().concat();
    exponents.iter().map(|e| if keep(e) { [0; 4].map(|_| random.between(-3, 3)) } else { [0; 4] }).collect()
}
