//! Records and calls of which exactly one named polar value is beyond 2 to the 48th, and that one is taken of
//! q and of vertices: a size test that leaves it out takes the call.

use super::records::{built, times, unit_frame, Made};
use crate::calls::{Call, Weights, NO_WEIGHTS, REPLACE};
use crate::named::{beyond, named, Name};
use crate::polar::{multinomial, scale};
use crate::random::Random;
use crate::record::LARGEST_COEFFICIENT;
use crate::shape::{Kind, Shape, RANGE};

/// In units of the range: all values but one are to be within the first, and that one at the second. What
/// lies between is for rounding.
const INSIDE: f64 = 0.99;
const OUTSIDE: f64 = 1.01;
const NEAR: f64 = 1e-6;
const STEPS: usize = 200;

/// So many times other weights and other degrees are tried.
const TRIES: usize = 400;

/// Every vertex becomes 2 to so many times itself: then coefficients of 2 to the 20th come to 2 to the 48th.
fn bits(shape: Shape) -> usize {
    let sum: usize = shape.degrees.iter().sum();
    28usize.div_ceil(sum)
}

/// A record of this kind with calls to begin with, of which the last is that one. Two times out of three its
/// value is of q and every vertex of a group.
pub fn one_beyond(random: &mut Random, kind: Kind) -> Option<Made> {
    let (group, replaced, every) = (random.below(kind.spans().len()), random.once_in(2), !random.once_in(3));
    for _ in 0..TRIES {
        let shape = low_shape(random, kind, group, usize::from(every));
        let call = any_call(random, shape, group, replaced);
        let wanted = |name: &Name| match every {
            true => name.has_every_vertex(shape, group),
            false => name.is_mixed(shape, group),
        };
        if let Some(coefficients) = coefficients_for(random, shape, &call, wanted) {
            let mut made = built(shape, unit_frame(kind), coefficients, Vec::new(), Vec::new());
            made.opening.push(call);
            for vertex in 1..=shape.vertices() as u8 {
                let parts = [bits(shape).min(12), bits(shape).saturating_sub(12)];
                let parts = parts.into_iter().filter(|&part| part > 0);
                made.opening.extend(parts.map(|part| times(kind, vertex, 1 << part)));
            }
            return Some(made);
        }
    }
    None
}

/// Degrees at which such values are found, in the group at least as high as they need.
fn low_shape(random: &mut Random, kind: Kind, group: usize, every: usize) -> Shape {
    let mut below = |least: usize, most: usize| least + random.below(most + 1 - least);
    match kind {
        Kind::Curve => Shape::curve(below(2 + every, 6)),
        Kind::Patch => Shape::patch(below(2 + 2 * every, 5)),
        Kind::Rect => Shape::rect(below(1, 3), below(1, 3)).with_degree(group, below(2 + every, 4)),
    }
}

/// Small weights, in each group mostly alike but for their signs.
fn any_call(random: &mut Random, shape: Shape, group: usize, replaced: bool) -> Call {
    let mut weights = NO_WEIGHTS;
    for span in shape.kind.spans() {
        let alike = random.between(1, 3);
        for weight in &mut weights[span] {
            *weight = random.sign() * if random.below(10) < 7 { alike } else { random.between(1, 3) };
        }
    }
    let span = shape.kind.spans()[group].clone();
    if !replaced {
        return Call::Point { weights };
    }
    let mut own: Weights = NO_WEIGHTS;
    own[..span.len()].copy_from_slice(&weights[span.clone()]);
    Call::Move { operation: REPLACE, vertex: (span.start + random.below(span.len())) as u8 + 1, weights: own }
}

/// Coefficients over the unit frame with which, once the vertices have grown, one of the wanted values alone
/// is beyond.
fn coefficients_for(
    random: &mut Random,
    shape: Shape,
    call: &Call,
    wanted: impl Fn(&Name) -> bool,
) -> Option<Vec<[i64; 4]>> {
    let (names, rows) = rows(shape, call)?;
    let fit: Vec<usize> = (0..names.len()).filter(|&n| wanted(&names[n])).collect();
    let chosen = random.pick(&fit);
    let sizes = entries_for(random, &rows, chosen)?;
    let (component, sign) = (random.below(4), random.sign() as f64);
    let grown = (bits(shape) * shape.degrees.iter().sum::<usize>()) as u32;
    let (mut coefficients, mut entries) = (Vec::new(), vec![[0; 4]; shape.places()]);
    for exponents in shape.exponents() {
        let place = shape.place(&copies(shape, &exponents));
        let share = scale(shape) / multinomial(shape, &exponents);
        let unit = share as f64 * f64::from(2).powi(grown as i32);
        let mut four = [0; 4];
        four[component] = (sign * sizes[place] * RANGE as f64 / unit).round() as i64;
        coefficients.push(four);
        entries[place] = four.map(|number| number * share << grown);
    }
    let inside = coefficients.iter().flatten().all(|number| number.abs() <= LARGEST_COEFFICIENT);
    (inside && beyond(&named(shape, &entries, call)?) == [names[chosen]]).then_some(coefficients)
}

/// How often an entry over the unit frame takes each vertex, by the monomial that it has its value from: of
/// the first vertex the last coordinate is 1, of the second the first one, of the third the middle one.
fn copies(shape: Shape, exponents: &[(usize, usize)]) -> [usize; 4] {
    let mut copies = [0; 4];
    for (group, &(h, l)) in shape.groups().iter().zip(exponents) {
        let own = [group.degree - h - l, h, l];
        copies[group.span()].copy_from_slice(&own[..group.vertices]);
    }
    copies
}

/// The names of a call, and its values as sums of the entries.
fn rows(shape: Shape, call: &Call) -> Option<(Vec<Name>, Vec<Vec<f64>>)> {
    let mut names = Vec::new();
    let mut rows: Vec<Vec<f64>> = Vec::new();
    for place in 0..shape.places() {
        let mut entries = vec![[0; 4]; shape.places()];
        entries[place][0] = 1;
        let values = named(shape, &entries, call)?;
        names = values.iter().map(|(name, _)| *name).collect();
        rows.resize(names.len(), Vec::new());
        rows.iter_mut().zip(values).for_each(|(row, (_, value))| row.push(value[0] as f64));
    }
    Some((names, rows))
}

/// Entries with which the chosen sum is outside and every other one inside, in units of the range. A sum that
/// is wrong is put right, the worst first, by the smallest change of the entries that does it, and so on.
fn entries_for(random: &mut Random, rows: &[Vec<f64>], chosen: usize) -> Option<Vec<f64>> {
    let mut entries: Vec<f64> = rows[0].iter().map(|_| random.between(-300, 300) as f64 / 1000.0).collect();
    for _ in 0..STEPS {
        let (mut worst, mut change) = (NEAR, None);
        for (n, row) in rows.iter().enumerate() {
            let value: f64 = row.iter().zip(&entries).map(|(a, b)| a * b).sum();
            let square: f64 = row.iter().map(|a| a * a).sum();
            let wanted = if n == chosen { value.max(OUTSIDE) } else { value.clamp(-INSIDE, INSIDE) };
            let far = (wanted - value).abs() / square.sqrt();
            if far > worst {
                (worst, change) = (far, Some((row, (wanted - value) / square)));
            }
        }
        let Some((row, by)) = change else {
            return Some(entries);
        };
        entries.iter_mut().zip(row).for_each(|(entry, a)| *entry += 1.5 * by * a);
    }
    None
}

#[cfg(test)]
mod tests {
    use super::*;
    use crate::calls::Answer;
    use crate::compare::first_net;
    use crate::machine::Machine;

    /// The machine takes every call but the last, which it refuses 10, and so does the handed net; mostly
    /// there is such a record.
    #[test]
    fn the_last_call_is_refused_for_one_value() {
        let mut random = Random::new(5);
        for kind in Kind::ALL {
            let all: Vec<Made> = (0..60).filter_map(|_| one_beyond(&mut random, kind)).collect();
            assert!(all.len() >= 40, "{kind:?} {}", all.len());
            for made in all {
                let (mut machine, mut net) = (Machine::new(&made.record), first_net(&made.record));
                for (left, call) in made.opening.iter().enumerate().rev() {
                    let answer = machine.answer(call);
                    assert_eq!(answer, net.answer(call));
                    assert_eq!(answer, if left == 0 { Answer::Refused(10) } else { Answer::Taken });
                }
            }
        }
    }
}
