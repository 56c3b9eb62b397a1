//! Valid records of every kind and degree, and their bytes.

use super::caller::{Caller, Mood};
use super::damage::damaged;
use super::mixed::one_beyond;
use super::polynomials::{any_sort, common_zero, degree_and_order, power_of_form, random_parameter, tame, vanishing};
use super::polynomials::{without_coordinate, Aim};
use crate::calls::{seats, Answer, Call, Weights, LARGEST_WEIGHT, NO_WEIGHTS, REPLACE};
use crate::machine::Machine;
use crate::polar::{multinomial, scale};
use crate::random::Random;
use crate::record::{is_frame, Record, LARGEST_COEFFICIENT};
use crate::shape::{Group, Kind, Shape, RANGE};

/// So many weights of a move a record has.
const MOVE_WEIGHTS: usize = 3;

/// A record with what a caller may want to know of it.
#[derive(Clone, Debug)]
pub struct Made {
    pub record: Record,
    /// Where w, or everything, is 0.
    pub aims: Vec<Aim>,
    /// Vertices that may grow while the entries do not.
    pub still: Vec<usize>,
    /// Calls that a list on this record begins with, the last first.
    pub opening: Vec<Call>,
}

/// Any shape, each kind as often as the others.
pub fn any_shape(random: &mut Random) -> Shape {
    let kind = random.pick(&Kind::ALL);
    random.pick(&kind.shapes())
}

/// A record that is accepted, first net included, of the sort this mood needs and
/// without moves or point of its own.
pub fn made(random: &mut Random, shape: Shape, mood: Mood) -> Made {
    for _ in 0..20 {
        let made = match mood {
            Mood::Growth => growing(random, shape),
            Mood::Frame => full_frame(random, shape),
            Mood::Edge => Some(at_the_edge(random, shape)),
            Mood::Cancel => Some(cancelling(random, shape)),
            Mood::Mixed => one_beyond(random, shape.kind),
            Mood::Zero => Some(through_a_zero(random, shape)),
            _ => Some(ordinary(random, shape)),
        };
        if let Some(made) = made.filter(|made| made.record.first_net().is_ok()) {
            return made;
        }
    }
    let sort = tame(random, shape);
    built(shape, unit_frame(shape.kind), sort.coefficients, Vec::new(), Vec::new())
}

fn ordinary(random: &mut Random, shape: Shape) -> Made {
    let sort = any_sort(random, shape);
    let frame = random_frame(random, shape.kind);
    built(shape, frame, sort.coefficients, sort.aims, Vec::new())
}

/// A curve with a common zero of any order up to its degree, often at a vertex; a patch with a common factor,
/// or in its place a curve.
fn through_a_zero(random: &mut Random, shape: Shape) -> Made {
    if shape.kind != Kind::Curve && random.once_in(2) {
        let sort = vanishing(random, shape, [true; 4]);
        return built(shape, random_frame(random, shape.kind), sort.coefficients, sort.aims, Vec::new());
    }
    let ((degree, order), point) = (degree_and_order(random), random_parameter(random, 2, 2));
    let shape = Shape::curve(degree);
    let sort = common_zero(random, shape, point, order);
    let mut frame = random_frame(random, Kind::Curve);
    let mut at_a_vertex = frame.clone();
    let sign = random.sign();
    at_a_vertex[random.below(2)] = point.map(|number| sign * number);
    if random.once_in(2) && is_frame(Kind::Curve, &at_a_vertex) {
        frame = at_a_vertex;
    }
    built(shape, frame, sort.coefficients, sort.aims, Vec::new())
}

/// Entries that do not see some vertices: a power of one form, or a patch's
/// polynomials without U or without V.
fn growing(random: &mut Random, shape: Shape) -> Option<Made> {
    if shape.kind == Kind::Patch && random.once_in(2) {
        let left_out = random.below(2);
        let mut unseen = [0; 3];
        unseen[left_out] = random.sign();
        let coefficients = without_coordinate(random, shape, left_out);
        let (frame, still) = frame_with(random, shape, 0, |vertex| *vertex == unseen, 1)?;
        return Some(built(shape, frame, coefficients, Vec::new(), still));
    }
    let group = random.below(shape.groups().len());
    let vertices = shape.groups()[group].vertices;
    let form = random.pick(&[[1, 0, 0], [0, 0, 1], [1, 0, 1], [1, 0, -1], [2, 0, 1], [1, 1, 1], [0, 1, -1]]);
    let form = if vertices == 2 { [form[0], 0, form[2]] } else { form };
    let coefficients = power_of_form(random, shape, group, form)?;
    let unseen = |vertex: &[i64; 3]| (0..3).map(|c| vertex[c] * form[c]).sum::<i64>() == 0;
    let (frame, still) = frame_with(random, shape, group, unseen, vertices - 1)?;
    Some(built(shape, frame, coefficients, Vec::new(), still))
}

/// A record of that sort, or one whose polynomials are 0, and the calls that bring vertices
/// that the entries do not see to 2 to the 48th, where their numbers are powers of 2.
fn full_frame(random: &mut Random, shape: Shape) -> Option<Made> {
    let mut made = if random.once_in(2) { growing(random, shape)? } else { all_zero(random, shape) };
    for place in made.still.clone() {
        let largest = made.record.frame[place].iter().map(|number| number.abs()).max()?;
        let last = random.sign() * LARGEST_WEIGHT / largest;
        if !random.once_in(3) {
            let by = [last, LARGEST_WEIGHT, LARGEST_WEIGHT, LARGEST_WEIGHT];
            made.opening.extend(by.map(|by| times(shape.kind, place as u8 + 1, by)));
        }
    }
    Some(made)
}

/// Polynomials that are 0 see no vertex.
fn all_zero(random: &mut Random, shape: Shape) -> Made {
    let (frame, still) = (random_frame(random, shape.kind), (0..shape.vertices()).collect());
    built(shape, frame, vec![[0; 4]; shape.places()], Vec::new(), still)
}

/// Like B10: coefficients at their limit over a frame of units.
fn at_the_edge(random: &mut Random, shape: Shape) -> Made {
    let few = random.pick(&[2, 8]);
    let mut number = || if random.once_in(few) { random.sign() } else { 0 };
    let mut coefficients: Vec<[i64; 4]> = (0..shape.places()).map(|_| [0; 4].map(|_| number())).collect();
    let place = random.pick(&[0, shape.places() - 1]);
    coefficients[place] = [0; 4].map(|_| random.sign() * random.pick(&[LARGEST_COEFFICIENT, LARGEST_COEFFICIENT / 2, 1, 0]));
    built(shape, unit_frame(shape.kind), coefficients, Vec::new(), Vec::new())
}

/// Low degrees over a frame of units: entries 0 and ±2 to the 20th, which replacing every
/// vertex by so many times and then up to 4 times itself brings to 2 to the 48th.
fn cancelling(random: &mut Random, shape: Shape) -> Made {
    let (shape, shifts) = match shape.kind {
        Kind::Curve => (Shape::curve(2), vec![12]),
        Kind::Patch => (Shape::patch(2), vec![12]),
        Kind::Rect if random.once_in(2) => (Shape::rect(1, 1), vec![12, 12]),
        Kind::Rect if random.once_in(2) => (Shape::rect(2, 2), vec![5, 5]),
        Kind::Rect if random.once_in(2) => (Shape::rect(2, 1), vec![6, 10]),
        Kind::Rect => (Shape::rect(1, 2), vec![10, 6]),
    };
    let component = random.below(4);
    let mut coefficients = vec![[0; 4]; shape.places()];
    for (entry, exponents) in coefficients.iter_mut().zip(shape.exponents()) {
        let size = LARGEST_COEFFICIENT / scale(shape) * multinomial(shape, &exponents);
        entry[component] = random.pick(&[-1, -1, 0, 1, 1]) * size;
    }
    let mut made = built(shape, unit_frame(shape.kind), coefficients, Vec::new(), Vec::new());
    let last = random.pick(&[1, 2, 3, 4, 4]);
    for vertex in 1..=shape.vertices() as u8 {
        let shift: u32 = shifts[shape.kind.group_of(usize::from(vertex) - 1)];
        made.opening.extend([last, 1 << shift].map(|by| times(shape.kind, vertex, by)));
    }
    made
}

/// The call that replaces a vertex by a multiple of itself.
pub fn times(kind: Kind, vertex: u8, by: i64) -> Call {
    let mut weights = NO_WEIGHTS;
    weights[seats(kind, vertex).1] = by;
    Call::Move { operation: REPLACE, vertex, weights }
}

pub fn built(
    shape: Shape,
    frame: Vec<[i64; 3]>,
    coefficients: Vec<[i64; 4]>,
    aims: Vec<Aim>,
    still: Vec<usize>,
) -> Made {
    let record = bare(shape, frame, coefficients);
    Made { record, aims, still, opening: Vec::new() }
}

/// A record without moves and point.
pub fn bare(shape: Shape, frame: Vec<[i64; 3]>, coefficients: Vec<[i64; 4]>) -> Record {
    let coefficients_at = 3 + head(shape).len() + 3 + 2 * shape.kind.frame_numbers();
    Record { shape, frame, coefficients, moves: Vec::new(), point: None, coefficients_at }
}

pub fn unit_frame(kind: Kind) -> Vec<[i64; 3]> {
    let units = [[0, 0, 1], [1, 0, 0], [0, 1, 0]];
    kind.spans().into_iter().flat_map(|span| units[..span.len()].to_vec()).collect()
}

pub fn random_frame(random: &mut Random, kind: Kind) -> Vec<[i64; 3]> {
    let size = random.pick(&[1, 1, 2, 4]);
    let vertices: Vec<usize> = kind.spans().into_iter().flat_map(|span| vec![span.len(); span.len()]).collect();
    loop {
        let frame: Vec<_> = vertices.iter().map(|&many| random_parameter(random, many, size)).collect();
        if is_frame(kind, &frame) {
            return frame;
        }
    }
}

/// A frame with this many vertices of the wanted property in one group, and which they are.
fn frame_with(
    random: &mut Random,
    shape: Shape,
    group: usize,
    wanted: impl Fn(&[i64; 3]) -> bool,
    many: usize,
) -> Option<(Vec<[i64; 3]>, Vec<usize>)> {
    let group = shape.groups()[group];
    let pool: Vec<[i64; 3]> = small_parameters(group).into_iter().filter(&wanted).collect();
    for _ in 0..100 {
        let mut frame = random_frame(random, shape.kind);
        let skipped = group.first + if many == 1 { random.below(group.vertices) } else { random.below(many + 1) };
        let chosen = |place: usize| if many == 1 { place == skipped } else { place != skipped };
        for place in group.span().filter(|&place| chosen(place)) {
            frame[place] = random.pick(&pool);
        }
        let still: Vec<usize> = group.span().filter(|&place| wanted(&frame[place])).collect();
        if is_frame(shape.kind, &frame) && still.len() == many {
            return Some((frame, still));
        }
    }
    None
}

fn small_parameters(group: Group) -> Vec<[i64; 3]> {
    let middle = if group.vertices == 2 { 0..=0 } else { -2..=2 };
    let all = (-2..=2).flat_map(|u| middle.clone().flat_map(move |v| (-2..=2).map(move |z| [u, v, z])));
    all.filter(|point| *point != [0; 3]).collect()
}

/// A first net near or past its limit.
fn about_too_large(random: &mut Random) -> Made {
    match random.below(4) {
        0 => large_curve(random),
        1 => large_net(random),
        _ => large_corner(random),
    }
}

/// 2520 × 4 to the 10th × 106522 is the last such product within 2 to the 48th.
fn large_curve(random: &mut Random) -> Made {
    let shape = Shape::curve(10);
    let mut coefficients = vec![[0; 4]; shape.places()];
    let place = random.pick(&[0, 10]);
    coefficients[place][random.below(4)] = random.sign() * random.pick(&[106_521, 106_522, 106_523, 106_524]);
    let vertices = if place == 0 { [[0, 0, 4], [1, 0, 0]] } else { [[4, 0, 0], [0, 0, -1]] };
    built(shape, vertices.to_vec(), coefficients, Vec::new(), Vec::new())
}

/// Large coefficients over a large frame are far out.
fn large_net(random: &mut Random) -> Made {
    let kind = random.pick(&[Kind::Curve, Kind::Patch]);
    let degree = kind.largest_degree() - random.below(4);
    let shape = Shape { kind, degrees: [degree, 0] };
    let coefficients = (0..shape.places()).map(|_| [0; 4].map(|_| random.between(-LARGEST_COEFFICIENT, LARGEST_COEFFICIENT)));
    let coefficients = coefficients.collect();
    built(shape, random_frame(random, kind), coefficients, Vec::new(), Vec::new())
}

/// One component with all coefficients alike up to the sign, and a vertex of numbers 4 and
/// −4 in each group: every monomial brings L × 4 to the sum of the degrees to that corner's
/// entry. Of rectangular patches only degrees 5 and 5 or 5 and 4 can be too large so.
fn large_corner(random: &mut Random) -> Made {
    let rects = [Shape::rect(5, 5), Shape::rect(5, 4), Shape::rect(4, 5), Shape::rect(4, 4)];
    let rect = random.pick(&rects);
    let shape = random.pick(&[Shape::curve(10), Shape::patch(8), Shape::patch(8), rect, rect, rect]);
    let each = scale(shape) << (2 * shape.degrees.iter().sum::<usize>());
    let last = RANGE / (shape.places() as i64 * each);
    let size = random.pick(&[last - 1, last, last + 1, last + 2, LARGEST_COEFFICIENT]).min(LARGEST_COEFFICIENT);
    let (turned, component) = ([random.sign(), random.sign()], random.below(4));
    let mut coefficients = vec![[0; 4]; shape.places()];
    for (entry, exponents) in coefficients.iter_mut().zip(shape.exponents()) {
        let sign: i64 = exponents.iter().zip(turned).map(|(e, turned)| if e.0 % 2 == 1 { turned } else { 1 }).product();
        entry[component] = sign * size;
    }
    let mut frame = Vec::new();
    for (group, turned) in shape.groups().into_iter().zip(turned) {
        let middle = if group.vertices == 3 { 4 } else { 0 };
        let mut vertices = [[4 * turned, middle, 4], [1, 0, 0], [0, 1, 0]][..group.vertices].to_vec();
        vertices.rotate_left(random.below(group.vertices));
        frame.extend(vertices);
    }
    built(shape, frame, coefficients, Vec::new(), Vec::new())
}

/// The value of field 1.
fn head(shape: Shape) -> Vec<u8> {
    let degrees = shape.groups().into_iter().map(|group| group.degree as u8);
    std::iter::once(shape.kind.number()).chain(degrees).collect()
}

/// The record's fields, one after the other; an absent one is left out.
pub fn fields(record: &Record) -> Vec<Vec<u8>> {
    let mut list = vec![field(1, &head(record.shape))];
    list.push(field(2, &shorts(&record.frame_numbers())));
    let coefficients = record.coefficients.iter().flatten().flat_map(|&a| (a as i32).to_be_bytes());
    list.push(field(3, &coefficients.collect::<Vec<u8>>()));
    if !record.moves.is_empty() {
        list.push(field(4, &record.moves.iter().flat_map(move_bytes).collect::<Vec<u8>>()));
    }
    if let Some(weights) = record.point {
        list.push(field(5, &shorts(&weights[..record.shape.vertices()])));
    }
    list
}

pub fn encode(record: &Record) -> Vec<u8> {
    fields(record).concat()
}

pub fn field(tag: u8, value: &[u8]) -> Vec<u8> {
    let length = (value.len() as u16).to_be_bytes();
    [&[tag], &length[..], value].concat()
}

fn shorts(numbers: &[i64]) -> Vec<u8> {
    numbers.iter().flat_map(|&number| (number as i16).to_be_bytes()).collect()
}

fn move_bytes(call: &Call) -> Vec<u8> {
    match *call {
        Call::Move { operation, vertex, weights } => [&[operation, vertex], &shorts(&weights[..MOVE_WEIGHTS])[..]].concat(),
        Call::Point { .. } => unreachable!("a record's moves are moves"),
    }
}

/// A record of any shape whose values are within their limits; its first net may be too
/// large (7).
pub fn any_made(random: &mut Random) -> Made {
    let (shape, mood) = (any_shape(random), random.pick(&Mood::ALL));
    of_mood(random, shape, mood)
}

fn of_mood(random: &mut Random, shape: Shape, mood: Mood) -> Made {
    match random.below(12) {
        0 => ordinary(random, shape),
        1 | 2 => about_too_large(random),
        _ => made(random, shape, mood),
    }
}

/// Any record for the program: valid with moves and a point, too large (7), or damaged.
pub fn any_record(random: &mut Random) -> Vec<u8> {
    let (shape, mood) = (any_shape(random), random.pick(&Mood::ALL));
    let mut made = of_mood(random, shape, mood);
    own_moves(random, &mut made, mood);
    if random.once_in(3) {
        damaged(random, &made.record)
    } else {
        encode(&made.record)
    }
}

/// Moves and a point for the record itself, aimed along the frame they lead through.
fn own_moves(random: &mut Random, made: &mut Made, mood: Mood) {
    if made.record.first_net().is_err() {
        return idle_moves(random, &mut made.record, mood);
    }
    if mood == Mood::Mixed {
        return opening_moves(made);
    }
    let mut machine = Machine::new(&made.record);
    let mut caller = Caller::new(made, mood, 16);
    let many = random.pick(&[0, 0, 1, 2, 3, 8, 31, 32]);
    while made.record.moves.len() < many {
        let call = caller.next(random, machine.frame());
        if let Some(call) = moved_in_record(call) {
            caller.heard(&call, machine.answer(&call) == Answer::Taken);
            made.record.moves.push(call);
        }
    }
    if !random.once_in(5) {
        let weights = own_point(random, &caller, &machine);
        made.record.point = Some(point_in_record(made.record.shape.kind, weights));
    }
}

/// The calls that a list on the record begins with: as its moves and its point.
fn opening_moves(made: &mut Made) {
    for call in made.opening.iter().rev() {
        match *call {
            Call::Move { .. } => made.record.moves.extend(moved_in_record(*call)),
            Call::Point { weights } => made.record.point = Some(weights),
        }
    }
}

/// Moves and a point of a record that is refused, 7: nobody will make them.
fn idle_moves(random: &mut Random, record: &mut Record, mood: Mood) {
    let kind = record.shape.kind;
    let mut caller = Caller::blind(kind, mood, 16);
    for _ in 0..random.pick(&[0, 0, 1, 2, 32]) {
        record.moves.extend(moved_in_record(caller.next(random, &[])));
    }
    if random.once_in(2) {
        record.point = Some(point_in_record(kind, caller.point(random, &[])));
    }
}

/// A point for the record, at times one that is refused.
fn own_point(random: &mut Random, caller: &Caller, machine: &Machine) -> Weights {
    let mut weights = caller.point(random, machine.frame());
    match random.below(12) {
        0 => weights = NO_WEIGHTS,
        1 => weights[random.below(2)] = random.pick(&[4097, -4097, 32767, -32768]),
        2 => weights[2 * random.below(2)..][..2].fill(0),
        _ => {}
    }
    weights
}

/// A point in a record has a weight for each vertex and no more.
fn point_in_record(kind: Kind, mut weights: Weights) -> Weights {
    weights[kind.vertices()..].fill(0);
    weights
}

/// A move in a record has three weights; a point is none.
fn moved_in_record(call: Call) -> Option<Call> {
    match call {
        Call::Move { operation, vertex, mut weights } => {
            weights[MOVE_WEIGHTS..].fill(0);
            Some(Call::Move { operation, vertex, weights })
        }
        Call::Point { .. } => None,
    }
}
