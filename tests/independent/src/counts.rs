//! How often every refusal and every kind of projection occurred, in all and for each
//! kind of net.

use crate::bound::{Judged, Share, PARTS};
use crate::calls::{Answer, Call, Weights, FLIP, REPLACE};
use crate::closing::Closing;
use crate::handed::{Net, ENTRIES, LARGEST, PLACES};
use crate::named::{beyond, named, GROUPS};
use crate::projection::{Projection, Room, COORDINATES, DIRECTION, FOUND};
use crate::record::{Lookup, Refusal};
use crate::shape::{in_range, Kind, Shape, RANGE};
use crate::text::Outcome;

/// The refusals that a program can give for a record, and those that a library can give: 11
/// is that of lent buffers.
pub const OF_A_PROGRAM: &[usize] = &[1, 2, 3, 4, 5, 6, 7, 8, 9, 10, 12];
pub const OF_A_LIBRARY: &[usize] = &[1, 2, 3, 4, 5, 6, 7, 8, 9, 10, 11, 12];

/// What was answered.
#[derive(Clone, Copy, Debug, Default)]
pub struct Tally {
    pub taken: u64,
    pub found: u64,
    /// At place N, the refusals with number N.
    pub refusals: [u64; 13],
    /// How many of the refusals 12 are for the handed frame; the others are for q.
    pub frames_beyond: u64,
    pub finite: u64,
    pub direction: u64,
    pub nowhere: u64,
}

#[derive(Clone, Debug, Default)]
pub struct Counts {
    pub calls: u64,
    pub lists: u64,
    pub records_read: u64,
    pub all: Tally,
    /// The same of curves, patches and rectangular patches alone, by what the record or
    /// the net says that it is, refused or not.
    pub kinds: [Tally; 3],
    /// Lists after which the frame had a number of exactly 2 to the 48th.
    pub full_frames: u64,
    /// Nets left or points found with a component of exactly 2 to the 48th.
    pub at_the_limit: u64,
    /// Accepted records of each shape.
    shapes: Shapes,
    /// Handed nets in runs with too few places, with just enough, and with more.
    pub runs: [u64; 3],
    /// Handed nets at fault in their second degree alone, of each kind.
    pub second_degrees: [u64; 3],
    /// At place N, the first nets without a record refused N, and at 0 those made.
    pub firsts: [u64; 12],
    /// Lookups of fields, as `LOOKUPS` names them.
    pub lookups: [u64; 6],
    /// Accepted records in which fields were looked up, as `OPTIONAL` names them.
    pub optional: [u64; 5],
    /// Calls refused for one named polar value alone, that of q and of vertices, in the order of
    /// `GROUPS`: replaces and points, in all and with every vertex of the group.
    pub alone: [[[u64; 2]; 2]; 4],
    /// Projections into too few places, into just enough, and into more.
    pub rooms: [u64; 3],
    /// Points on rectangular patches, as `STAGES` names them.
    pub stages: [u64; 3],
    /// Calls at the limits of a frame, as `FRAMES` names them.
    pub frames: [u64; 9],
    /// What stood in the place of the largest component, as `CLAIMS` names it, before calls as
    /// `CLAIMED` names them.
    pub claims: [[u64; 5]; 4],
    /// Replaces taken on nets with a wrong claim, and flips that handed one on, of each kind.
    pub wrong_claims: [[u64; 2]; 3],
    /// Largest components that a replace worked out, as `WORKED_OUT` names them.
    pub worked_out: [u64; 6],
    /// First nets over a place that held another number, from records and without.
    pub firsts_over: [u64; 2],
    /// Common zeros of curves at which points were found: along lists on records, and on handed nets.
    pub zeros: [Zeros; 2],
    /// What is projected after a point, as `FOUNDS` names it.
    pub founds: [u64; 9],
    /// Points whose own numbers are four zeros and that are read as finite and as a direction, in whatever
    /// answered.
    pub read_at_zeros: [u64; 2],
    /// Coordinates held to their bound, as `JUDGED` names them.
    pub judged: [Judged; 7],
}

/// Points found at which all four polynomials vanish.
#[derive(Clone, Copy, Debug, Default)]
pub struct Zeros {
    /// At place N, those of order N + 1.
    pub orders: [u64; 10],
    /// As `NAMED_BY` has it.
    pub named_by: [u64; 3],
    /// As `READ` has it.
    pub read: [u64; 3],
    /// Those over a frame of determinant 0; no record's frame has one.
    pub flat: u64,
}

/// How often each shape came, in the order of `Shape::all`.
#[derive(Clone, Debug, Default)]
pub struct Shapes(Vec<u64>);

/// A claim, by what is right: the least and the largest number of 64 bits are counted for
/// themselves, the other negative ones too.
const CLAIMS: [&str; 5] = ["right", "too small", "too large", "negative", "an end of 64 bits"];

/// Calls on nets with a claim.
const CLAIMED: [&str; 4] = ["a replace taken", "a flip taken", "a point found", "a call refused"];

/// Where it is reached, where that matters, and what it is.
const WORKED_OUT: [&str; 6] = [
    "reached by negative components alone", "by the last entry alone", "by the first entry alone", "below a place not in use",
    "2^48 exactly", "0",
];

/// What is refused 12, for the handed frame and for q; and what is not.
const FRAMES: [&str; 9] = [
    "a replace refused for the handed frame", "a flip refused for it", "a point refused for it",
    "a replace refused for q alone", "one of them just one beyond 2^48", "just one beyond -2^48", "one with values out of range besides",
    "a move taken with a number of exactly 2^48", "a point found at a q beyond",
];

/// By the two stages of their size test, which is not symmetric in the pairs.
const STAGES: [&str; 3] = ["refused with the first pair", "refused with the second", "taken, refused with the pairs exchanged"];

/// Of an accepted record: a value, a value of no bytes, an absent field, a tag that no
/// field has; and of refused records.
const LOOKUPS: [&str; 6] =
    ["a value", "an empty value", "an absent field", "no field's tag", "a record refused 1 to 6", "a record refused 7"];

/// By the bytes that fields 4 and 5 have.
const OPTIONAL: [&str; 5] = [
    "neither moves nor a point", "moves alone", "a point alone", "both, of one length",
    "both, of two lengths",
];

/// Which weights name a common zero.
const NAMED_BY: [&str; 3] = ["weight of s 0", "weight of r 0", "neither 0"];

/// What a common zero is read as; nowhere only where all entries are 0.
const READ: [&str; 3] = ["finite", "direction", "zero net"];

/// Projections of eight numbers and more, by both fours, and of fewer.
const FOUNDS: [&str; 9] = [
    "fewer than eight numbers", "more than eight", "a direction beside four zeros, of a divisor beyond 1",
    "a direction of such a divisor beside others", "a finite point beside four zeros", "four zeros twice",
    "the first four alone out of range", "the second four alone out of range", "too few places",
];

/// Along lists on records, and on handed nets.
const ZEROS: [&str; 2] = ["lists on records", "handed nets"];

/// Coordinates by what answered them: points of each kind of net, in the order of `place`, but for common zeros
/// of curves; projections; and texts.
const JUDGED: [&str; 7] = [
    "points of curves", "points of patches", "points of rects", "points at common zeros", "projections of four numbers",
    "projections of found numbers", "texts",
];
pub const AT_ZEROS: usize = 3;
pub const OF_FOUR: usize = 4;
pub const OF_FOUND: usize = 5;
pub const OF_TEXTS: usize = 6;

/// In the order of `GROUPS`.
const ALONE: [&str; 4] = ["a curve", "a patch", "the first pair", "the second pair"];

impl Tally {
    fn refused(&mut self, number: u8) {
        self.refusals[usize::from(number)] += 1;
    }

    fn projected(&mut self, projection: &Projection) {
        match projection {
            Projection::Finite { .. } => self.finite += 1,
            Projection::Direction { .. } => self.direction += 1,
            Projection::Nowhere => self.nowhere += 1,
        }
    }

    fn answered(&mut self, answer: &Answer) {
        match answer {
            Answer::Taken => self.taken += 1,
            Answer::Refused(number) => self.refused(*number),
            Answer::Point { projection, .. } => {
                self.found += 1;
                self.projected(projection);
            }
        }
    }

    /// How many of the refusals 12 are for the q of a replace.
    fn qs_beyond(&self) -> u64 {
        self.refusals[12] - self.frames_beyond
    }

    /// What never occurred, of these refusals and of the rest.
    fn missing(&self, numbers: &[usize]) -> Vec<String> {
        let refusals = numbers.iter().filter(|&&n| self.refusals[n] == 0).map(|n| format!("refusal {n}"));
        let words = [("finite", self.finite), ("direction", self.direction), ("nowhere", self.nowhere), ("taken", self.taken)];
        refusals.chain(words.into_iter().filter(|word| word.1 == 0).map(|word| word.0.to_string())).collect()
    }

    fn line(&self, numbers: &[usize]) -> String {
        let refusals: Vec<String> = numbers.iter().map(|&n| format!("{n}:{}", self.refusals[n])).collect();
        let (finite, direction, nowhere) = (self.finite, self.direction, self.nowhere);
        let made = format!("taken {}; found {}; refused {}", self.taken, self.found, refusals.join(" "));
        let made = format!("{made} (12 for the handed frame {}, for q {})", self.frames_beyond, self.qs_beyond());
        format!("{made}; finite {finite} direction {direction} nowhere {nowhere}")
    }
}

impl Shapes {
    pub fn count(&mut self, shape: Shape) {
        let all = Shape::all();
        self.0.resize(all.len(), 0);
        self.0[all.iter().position(|one| *one == shape).expect("a shape")] += 1;
    }

    /// Those that never came.
    pub fn missing(&self) -> Vec<String> {
        let shapes = Shape::all().into_iter().enumerate();
        let unseen = shapes.filter(|(place, _)| self.0.get(*place).is_none_or(|count| *count == 0));
        unseen.map(|(_, shape)| format!("{} of degrees {:?}", shape.kind.word(), shape.degrees)).collect()
    }
}

/// Where a kind stands in a list of all.
pub fn place(kind: Kind) -> usize {
    usize::from(kind.number()) - 1
}

impl Counts {
    /// Counts in all and, where a kind is known, for it.
    fn tally(&mut self, kind: Option<Kind>, count: impl Fn(&mut Tally)) {
        count(&mut self.all);
        if let Some(kind) = kind {
            count(&mut self.kinds[place(kind)]);
        }
    }

    pub fn read(&mut self, kind: Option<Kind>, outcome: Result<Shape, Refusal>) {
        self.calls += 1;
        match outcome {
            Ok(shape) => {
                self.records_read += 1;
                self.shapes.count(shape);
            }
            Err(refusal) => self.tally(kind, |tally| tally.refused(refusal.number)),
        }
    }

    pub fn answer(&mut self, kind: Option<Kind>, answer: &Answer) {
        self.calls += 1;
        self.inner_answer(kind, answer);
    }

    /// A call that the handed net refuses 12.
    pub fn twelve(&mut self, net: &Net, call: &Call) {
        let Some(shape) = net.shape() else { return };
        let of_frame = !net.frame_in_range(shape);
        self.tally(Some(shape.kind), |tally| tally.frames_beyond += u64::from(of_frame));
        match *call {
            Call::Move { operation: FLIP, .. } => self.frames[1] += 1,
            Call::Point { .. } => self.frames[2] += 1,
            Call::Move { .. } if of_frame => self.frames[0] += 1,
            Call::Move { operation, vertex, weights } => {
                let (limit, q) = (i128::from(RANGE), net.new_vertex(shape, operation, vertex, weights));
                let (least, most) = (q.iter().min().map_or(0, |n| *n), q.iter().max().map_or(0, |n| *n));
                self.frames[3] += 1;
                self.frames[4] += u64::from(most == limit + 1 && least >= -limit);
                self.frames[5] += u64::from(least == -limit - 1 && most <= limit);
                self.frames[6] += u64::from(over_zeros(net, shape).answer(call) == Answer::Refused(10));
            }
        }
    }

    /// A point that nothing but size can refuse.
    pub fn point_in_order(&mut self, net: &Net, shape: Shape, weights: Weights) {
        let refused = net.refused_in_pair(shape, weights);
        let groups = shape.kind.grouped(&weights).into_iter().enumerate();
        let beyond = |(group, weights): (usize, Vec<i64>)| net.named(shape, group, &weights).iter().any(|n| n.abs() > i128::from(RANGE));
        self.frames[8] += u64::from(refused.is_none() && groups.map(beyond).any(|is| is));
        if shape.kind == Kind::Rect {
            self.point_of_a_rect(net, shape, weights);
        }
    }

    fn point_of_a_rect(&mut self, net: &Net, shape: Shape, [r1, s1, r2, s2]: Weights) {
        let exchanged = Shape::rect(shape.degrees[1], shape.degrees[0]);
        let other = || net.with_pairs_exchanged(shape).refused_in_pair(exchanged, [r2, s2, r1, s1]);
        match net.refused_in_pair(shape, [r1, s1, r2, s2]) {
            Some(pair) => self.stages[pair] += 1,
            None => self.stages[2] += u64::from(other().is_some()),
        }
    }

    /// A call on a net that claims a largest component, and what is answered.
    pub fn claim(&mut self, net: &Net, call: &Call, answer: &Answer) {
        let shape = if net.is_short() { None } else { net.shape() };
        let Some(shape) = shape else { return };
        let (claimed, right) = (net.claimed(), net.most(shape));
        let sort = match claimed {
            i64::MIN | i64::MAX => 4,
            _ if claimed == right => 0,
            ..0 => 3,
            _ => 1 + usize::from(claimed > right),
        };
        let asked = match (call, answer) {
            (_, Answer::Refused(_)) => 3,
            (Call::Point { .. }, _) => 2,
            (Call::Move { operation, .. }, _) => usize::from(*operation == FLIP),
        };
        self.claims[asked][sort] += 1;
        if asked < 2 {
            self.wrong_claims[place(shape.kind)][asked] += u64::from(sort != 0);
        }
    }

    /// The net that a move taken leaves.
    pub fn worked_out(&mut self, net: &Net, call: &Call) {
        let (Call::Move { operation: REPLACE, .. }, Some(shape)) = (call, net.shape()) else { return };
        let (most, used) = (net.most(shape), net.numbers(shape));
        let among = |numbers: &[i64]| numbers.iter().any(|number| number.saturating_abs() == most);
        let unused = &net.0[ENTRIES + used.len()..LARGEST];
        let told = [
            !used.contains(&most),
            !among(&used[..used.len() - 4]),
            !among(&used[4..]),
            unused.iter().any(|number| number.saturating_abs() > most),
            most == RANGE,
            most == 0,
        ];
        self.worked_out.iter_mut().zip(told).for_each(|(count, is)| *count += u64::from(is));
    }

    /// A first net is made, of a record (0) or without (1), where `before` was.
    pub fn first_over(&mut self, way: usize, before: &Net, made: &Net) {
        self.firsts_over[way] += u64::from(before.claimed() != made.claimed());
    }

    pub fn run(&mut self, net: &Net) {
        self.runs[net.0.len().clamp(PLACES - 1, PLACES + 1) - (PLACES - 1)] += 1;
        if let (Some(kind), false) = (net.kind(), net.is_short()) {
            let proper = |second| Shape::named(net.0[0], net.0[1], second).is_some();
            let at_fault = !proper(net.0[2]) && (proper(0) || proper(1));
            self.second_degrees[place(kind)] += u64::from(at_fault);
        }
    }

    pub fn first(&mut self, kind: Option<Kind>, answer: &Result<(), u8>) {
        self.calls += 1;
        self.firsts[usize::from(answer.err().unwrap_or(0))] += 1;
        if let Err(number) = answer {
            self.tally(kind, |tally| tally.refused(*number));
        }
    }

    /// A point found at a common zero of a curve, along a list on a record or else on a handed net.
    pub fn common_zero(&mut self, by_a_machine: bool, net: &Net, weights: Weights, projection: &Projection) {
        let Some(shape) = net.shape() else { return };
        let zeros = &mut self.zeros[usize::from(!by_a_machine)];
        let Some(left) = net.left(shape, weights) else {
            zeros.read[2] += u64::from(*projection == Projection::Nowhere);
            return;
        };
        zeros.orders[left.order - 1] += 1;
        zeros.named_by[if weights[1] == 0 { 0 } else { 1 + usize::from(weights[0] != 0) }] += 1;
        zeros.read[usize::from(matches!(projection, Projection::Direction { .. }))] += 1;
        let frame: Vec<i128> = net.frame(shape).iter().map(|&number| i128::from(number)).collect();
        zeros.flat += u64::from(frame[0] * frame[3] == frame[1] * frame[2]);
    }

    /// What the projection of a found point answers and leaves.
    pub fn projection_of_found(&mut self, found: &[i64], number: u8, room: &Room) {
        self.calls += 1;
        let told = room.told(number).expect("an outcome that there is");
        match told {
            Ok(kind) => self.all.projected(&kind),
            Err(number) => self.all.refused(number),
        }
        let Some((first, second)) = found.first_chunk::<FOUND>().map(|eight| eight.split_at(FOUND / 2)) else {
            self.founds[0] += 1;
            return;
        };
        let zeros = first == [0; 4];
        let divided = |x: i64, y: i64, z: i64| [x, y, z].map(i64::abs) != [second[0], second[1], second[2]].map(i64::abs);
        let out = |four: &[i64]| !four.iter().all(|&number| in_range(number));
        let far = matches!(told, Ok(Projection::Direction { x, y, z, .. }) if divided(x, y, z));
        let cases = [
            false,
            found.len() > FOUND,
            far && zeros,
            far && !zeros,
            zeros && matches!(told, Ok(Projection::Finite { .. })),
            zeros && told == Ok(Projection::Nowhere),
            told.is_ok() && out(first),
            told == Err(10) && !out(first),
            room.is_short(),
        ];
        self.founds.iter_mut().zip(cases).for_each(|(count, is)| *count += u64::from(is));
    }

    /// What a projection answers and leaves.
    pub fn projection(&mut self, number: u8, room: &Room) {
        self.calls += 1;
        let more = room.bits.len() > COORDINATES || room.direction.len() > DIRECTION;
        self.rooms[if room.is_short() { 0 } else { 1 + usize::from(more) }] += 1;
        match room.told(number).expect("an outcome that there is") {
            Ok(kind) => self.all.projected(&kind),
            Err(number) => self.all.refused(number),
        }
    }

    /// What a lookup in a record of so many bytes answers.
    pub fn lookup(&mut self, tag: u8, lookup: &Lookup, bytes: usize) {
        self.calls += 1;
        let place = match (lookup.number, tag) {
            (7, _) => 5,
            (1.., _) => 4,
            (0, 1..=5) if lookup.length > 0 => 0,
            (0, 1..=5) if lookup.start < bytes => 1,
            (0, 1..=5) => 2,
            (0, _) => 3,
        };
        self.lookups[place] += 1;
    }

    /// An accepted record in which fields are looked up, by the lengths of fields 4 and 5.
    pub fn optional(&mut self, moves: usize, point: usize) {
        let place = match (moves, point) {
            (0, 0) => 0,
            (1.., 0) => 1,
            (0, 1..) => 2,
            _ if moves == point => 3,
            _ => 4,
        };
        self.optional[place] += 1;
    }

    /// A call that is refused for size, and is in order otherwise.
    pub fn refused_for_size(&mut self, net: &Net, shape: Shape, call: &Call) {
        let values = named(shape, &net.used(shape), call);
        let [name] = values.map_or(Vec::new(), |values| beyond(&values))[..] else { return };
        for (place, (kind, group)) in GROUPS.into_iter().enumerate() {
            if kind == shape.kind && name.is_mixed(shape, group) {
                let counted = &mut self.alone[place][usize::from(matches!(call, Call::Point { .. }))];
                counted[0] += 1;
                counted[1] += u64::from(name.has_every_vertex(shape, group));
            }
        }
    }

    /// The coordinates of one finite point, which keep to their bound.
    pub fn judged(&mut self, of: usize, shares: [Share; COORDINATES]) {
        shares.into_iter().for_each(|share| self.judged[of].count(share));
    }

    pub fn text(&mut self, kind: Option<Kind>, answer: &Result<usize, u8>) {
        self.calls += 1;
        if let Err(number) = answer {
            self.tally(kind, |tally| tally.refused(*number));
        }
    }

    /// All that one run of netprint says.
    pub fn outcome(&mut self, kind: Option<Kind>, outcome: &Outcome) {
        match outcome {
            Outcome::Refused(refusal) => self.read(kind, Err(*refusal)),
            Outcome::Made { shape, moves, point, .. } => {
                self.read(kind, Ok(*shape));
                moves.iter().chain(point).for_each(|answer| self.inner_answer(kind, answer));
            }
        }
    }

    fn inner_answer(&mut self, kind: Option<Kind>, answer: &Answer) {
        self.tally(kind, |tally| tally.answered(answer));
        if let Answer::Point { x, y, z, w, projection, .. } = answer {
            self.limit(&[*x, *y, *z, *w]);
            let zero = [*x, *y, *z, *w] == [0; 4];
            self.read_at_zeros[0] += u64::from(zero && matches!(projection, Projection::Finite { .. }));
            self.read_at_zeros[1] += u64::from(zero && matches!(projection, Projection::Direction { .. }));
        }
    }

    pub fn limit(&mut self, components: &[i64]) {
        self.at_the_limit += u64::from(components.iter().any(|component| component.abs() == RANGE));
    }

    /// The frame that a move taken leaves.
    pub fn frame_limit(&mut self, frame: &[i64]) {
        self.frames[7] += u64::from(is_full(frame));
    }

    /// The frame that a list on a record leaves.
    pub fn list(&mut self, frame: &[i64]) {
        self.lists += 1;
        self.full_frames += u64::from(is_full(frame));
    }

    /// What never occurred, for each kind, of these refusals and the projections, and of the
    /// shapes; where 11 is among them, of what is lent too.
    pub fn missing(&self, numbers: &[usize]) -> Vec<String> {
        let of = |kind: Kind| move |what: String| format!("{what} of a {}", kind.word());
        let answers = Kind::ALL.into_iter().flat_map(|kind| self.kinds[place(kind)].missing(numbers).into_iter().map(of(kind)));
        let lent = if numbers.contains(&11) { self.missing_of_what_is_lent() } else { Vec::new() };
        let words = ["a finite point at a common zero", "a direction at a common zero"].map(str::to_string);
        let zeros = words.into_iter().zip(self.read_at_zeros).filter(|word| word.1 == 0).map(|word| word.0);
        let judged = self.counts_of_coordinates(numbers).into_iter().filter(|word| word.1 == 0).map(|word| word.0);
        answers.chain(self.shapes.missing()).chain(zeros).chain(judged).chain(lent).collect()
    }

    fn missing_of_what_is_lent(&self) -> Vec<String> {
        let firsts = [0, 4, 5, 6, 7, 11].map(|n: usize| (format!("first net with {n}"), self.firsts[n]));
        let words = ["a run too short", "a run just long enough", "a longer run"];
        let runs = words.into_iter().map(str::to_string).zip(self.runs);
        let second = Kind::ALL.map(|kind| (format!("a second degree at fault in a {}", kind.word()), self.second_degrees[place(kind)]));
        let lookups = LOOKUPS.map(|word| format!("a lookup of {word}")).into_iter().zip(self.lookups);
        let words = ["too few places", "just enough places", "more places"];
        let rooms = words.map(|word| format!("a projection into {word}")).into_iter().zip(self.rooms);
        let stages = STAGES.map(|word| format!("a point of a rect {word}")).into_iter().zip(self.stages);
        let frames = FRAMES.map(str::to_string).into_iter().zip(self.frames);
        let twelve = Kind::ALL.into_iter().flat_map(|kind| {
            let (tally, word) = (&self.kinds[place(kind)], kind.word());
            [(format!("12 for the handed frame of a {word}"), tally.frames_beyond), (format!("12 for q of a {word}"), tally.qs_beyond())]
        });
        let all = firsts.into_iter().chain(runs).chain(second).chain(lookups).chain(rooms).chain(stages).chain(frames).chain(twelve);
        let all = all.chain(self.counts_of_the_largest()).chain(self.counts_of_size()).chain(self.counts_of_zeros());
        let optional = OPTIONAL.map(|word| format!("a lookup in a record with {word}"));
        let all = all.chain(optional.into_iter().zip(self.optional));
        all.filter(|word| word.1 == 0).map(|word| word.0).collect()
    }

    /// What is counted of the largest component, each with its words.
    fn counts_of_the_largest(&self) -> Vec<(String, u64)> {
        let claims = CLAIMED.iter().zip(self.claims).flat_map(|(call, counts)| {
            CLAIMS.iter().zip(counts).map(move |(claim, count)| (format!("{call} with a claim that is {claim}"), count))
        });
        let kinds = Kind::ALL.into_iter().flat_map(|kind| {
            let [replaces, flips] = self.wrong_claims[place(kind)];
            let word = kind.word();
            [(format!("a replace of a {word} with a wrong claim"), replaces), (format!("a flip of a {word} that hands on a wrong claim"), flips)]
        });
        let worked_out = WORKED_OUT.iter().zip(self.worked_out).map(|(word, count)| (format!("worked out: {word}"), count));
        let firsts = ["of a record", "without a record"].into_iter().zip(self.firsts_over);
        let firsts = firsts.map(|(way, count)| (format!("a first net {way} over another number"), count));
        claims.chain(kinds).chain(worked_out).chain(firsts).collect()
    }

    /// What is counted of common zeros and of projections after a point, each with its words.
    fn counts_of_zeros(&self) -> Vec<(String, u64)> {
        let of = |(whose, zeros): (&str, Zeros)| {
            let orders = (1..).zip(zeros.orders).map(|(order, count)| (format!("of order {order}"), count));
            let named_by = NAMED_BY.into_iter().zip(zeros.named_by).map(|(word, count)| (format!("with {word}"), count));
            let read = READ.into_iter().zip(zeros.read).map(|(word, count)| (format!("that is read as {word}"), count));
            let all: Vec<(String, u64)> = orders.chain(named_by).chain(read).collect();
            all.into_iter().map(|(word, count)| (format!("{whose}: a common zero {word}"), count)).collect::<Vec<_>>()
        };
        let flat = ("a common zero over a frame of determinant 0".to_string(), self.zeros[1].flat);
        let founds = FOUNDS.map(|word| format!("projected after a point: {word}")).into_iter().zip(self.founds);
        ZEROS.into_iter().zip(self.zeros).flat_map(of).chain([flat]).chain(founds).collect()
    }

    /// The same in three lines.
    fn lines_of_zeros(&self) -> String {
        let counted = |words: &[&str], counts: &[u64]| {
            words.iter().zip(counts).map(|(word, count)| format!("{word} {count}")).collect::<Vec<String>>().join(", ")
        };
        let mut lines = String::new();
        for (whose, zeros) in ZEROS.into_iter().zip(self.zeros) {
            let orders: Vec<String> = (1..).zip(zeros.orders).map(|(order, count)| format!("{order}:{count}")).collect();
            lines += &format!("\ncommon zeros of curves, {whose}: orders {}", orders.join(" "));
            lines += &format!("; {}; {}", counted(&NAMED_BY, &zeros.named_by), counted(&READ, &zeros.read));
        }
        lines += &format!("; over a frame of determinant 0 {}", self.zeros[1].flat);
        lines + &format!("\nprojected after a point: {}", counted(&FOUNDS, &self.founds))
    }

    /// What is counted of coordinates, each with its words; a program answers texts alone.
    fn counts_of_coordinates(&self, numbers: &[usize]) -> Vec<(String, u64)> {
        let first = if numbers.contains(&11) { 0 } else { OF_TEXTS };
        let of = |(of, judged): (&str, Judged)| {
            let words = ["0", "exact", "rounded", "beyond half the bound"].map(|word| format!("{of}: a coordinate {word}"));
            words.into_iter().zip([judged.zeros, judged.exact, judged.rounded, judged.beyond_half])
        };
        JUDGED.into_iter().zip(self.judged).skip(first).flat_map(of).collect()
    }

    /// The same in a line, with the fewest parts of a quotient that one was off by.
    fn line_of_coordinates(&self) -> String {
        let judged = || JUDGED.into_iter().zip(self.judged).filter(|(_, judged)| judged.all() > 0);
        let of = |(of, j): (&str, Judged)| {
            format!("{of} {} (0 {}, rounded {}, beyond half {})", j.all(), j.zeros, j.rounded, j.beyond_half)
        };
        let all: Vec<String> = judged().map(of).collect();
        let least = judged().filter_map(|(_, judged)| judged.parts).min();
        let worst = least.map_or(String::new(), |parts| format!("; the worst in 2^53 + {} parts", parts - PARTS));
        format!("\ncoordinates within their bound: {}{worst}", all.join(", "))
    }

    /// What is counted of calls refused for one value alone, each with its words.
    fn counts_of_size(&self) -> Vec<(String, u64)> {
        let of_call = |of: &str, call: &str, [mixed, every]: [u64; 2]| {
            let what = format!("{call} on {of} refused for one value alone, of q");
            [(format!("{what} and vertices"), mixed), (format!("{what} and every vertex"), every)]
        };
        let both = |(of, [replaces, points]): (&str, [[u64; 2]; 2])| {
            [of_call(of, "a replace", replaces), of_call(of, "a point", points)]
        };
        ALONE.into_iter().zip(self.alone).flat_map(both).flatten().collect()
    }

    /// The same in a line.
    fn line_of_size(&self) -> String {
        let of = |(of, [[replaces, with_every], [points, at_every]]): (&str, [[u64; 2]; 2])| {
            format!("{of}: replaces {replaces} ({with_every}) points {points} ({at_every})")
        };
        let all: Vec<String> = ALONE.into_iter().zip(self.alone).map(of).collect();
        let what = "refused 10 for one value alone, of q and vertices (of q and every vertex)";
        format!("\n{what}: {}", all.join(", "))
    }

    /// The counts of the largest component in two lines.
    fn lines_of_the_largest(&self) -> String {
        let counted = |words: &[&str], counts: &[u64]| {
            words.iter().zip(counts).map(|(word, count)| format!("{word} {count}")).collect::<Vec<String>>().join(", ")
        };
        let claims = CLAIMED.iter().zip(&self.claims).map(|(call, counts)| format!("{call}: {}", counted(&CLAIMS, counts)));
        let kinds = Kind::ALL.map(|kind| {
            let [replaces, flips] = self.wrong_claims[place(kind)];
            format!("{} replaces {replaces} flips {flips}", kind.word())
        });
        let claims = claims.collect::<Vec<String>>().join("; ");
        let [of_a_record, without] = self.firsts_over;
        let first = format!("\nlargest components claimed, before {claims}; wrong ones: {}", kinds.join(", "));
        let second = format!("\nlargest components worked out: {}", counted(&WORKED_OUT, &self.worked_out));
        format!("{first}{second}; by first nets over another number: of a record {of_a_record}, without {without}")
    }

    pub fn closing(&self, numbers: &[usize]) -> Closing {
        Closing { calls: self.calls, lines: self.closing_lines(numbers), missing: self.missing(numbers) }
    }

    /// Lines with every count, the last ones for each kind.
    fn closing_lines(&self, numbers: &[usize]) -> String {
        let (calls, read, answered) = (self.calls, self.records_read, self.all.line(numbers));
        let mut line = format!("calls {calls}; records accepted {read}; {answered}; at 2^48 exactly {}", self.at_the_limit);
        let [finite, direction] = self.read_at_zeros;
        line += &format!("; at common zeros finite {finite} direction {direction}");
        if self.lists > 0 {
            line += &format!("; lists {}, a number of the frame 2^48 exactly after {} of them", self.lists, self.full_frames);
            let ([short, exact, longer], [curve, patch, rect]) = (self.runs, self.second_degrees);
            line += &format!("; handed runs short {short} exact {exact} longer {longer}");
            line += &format!(", second degree alone at fault in curves {curve} patches {patch} rects {rect}");
            line += &format!("; first nets {}", self.firsts[0]);
            let refused = (1..12).filter(|&n| self.firsts[n] != 0).map(|n| format!(" {n}:{}", self.firsts[n]));
            line += &format!(" refused{}", refused.collect::<String>());
            let lookups = LOOKUPS.iter().zip(self.lookups).map(|(word, count)| format!("{word} {count}"));
            line += &format!("\nlookups of {}", lookups.collect::<Vec<String>>().join(", "));
            let optional = OPTIONAL.iter().zip(self.optional).map(|(word, count)| format!("{word} {count}"));
            line += &format!("; in records with {}", optional.collect::<Vec<String>>().join(", "));
            let [short, exact, longer] = self.rooms;
            line += &format!("; projections into too few places {short} just enough {exact} more {longer}");
            let frames = FRAMES.iter().zip(self.frames).map(|(word, count)| format!("{word} {count}"));
            line += &format!("\nframes: {}", frames.collect::<Vec<String>>().join("; "));
            line += &self.line_of_size();
            line += &self.lines_of_zeros();
            line += &self.lines_of_the_largest();
        }
        line += &self.line_of_coordinates();
        let kinds = Kind::ALL.map(|kind| format!("\n{}: {}", kind.word(), self.kinds[place(kind)].line(numbers)));
        line += &kinds.concat();
        if self.lists > 0 {
            let stages = STAGES.iter().zip(self.stages).map(|(word, count)| format!("{word} {count}"));
            line += &format!("; points {}", stages.collect::<Vec<String>>().join("; "));
        }
        line
    }
}

/// Whether a number is 2 to the 48th exactly, for either sign.
fn is_full(frame: &[i64]) -> bool {
    frame.iter().any(|number| number.unsigned_abs() == RANGE as u64)
}

/// The same net over a frame of zeros: no q is refused there, whatever the weights.
fn over_zeros(net: &Net, shape: Shape) -> Net {
    let mut other = net.clone();
    other.write_frame(&vec![0; shape.kind.frame_numbers()]);
    other
}

#[cfg(test)]
mod tests {
    use super::*;

    /// What came for the other kinds does not make up for what never came for one.
    #[test]
    fn each_kind_must_have_every_refusal_and_projection() {
        let full = Tally { taken: 1, found: 3, refusals: [1; 13], frames_beyond: 0, finite: 1, direction: 1, nowhere: 1 };
        let mut counts = Counts { all: full, kinds: [full; 3], shapes: Shapes(vec![1; Shape::all().len()]), ..Counts::default() };
        counts.read_at_zeros = [1; 2];
        counts.judged[OF_TEXTS] = Judged { zeros: 1, exact: 1, rounded: 1, beyond_half: 1, parts: Some(PARTS) };
        assert_eq!(counts.missing(OF_A_PROGRAM), Vec::<String>::new());
        counts.kinds[2].refusals[7] = 0;
        counts.kinds[2].nowhere = 0;
        counts.shapes.0[42] = 0;
        counts.read_at_zeros[1] = 0;
        counts.judged[OF_TEXTS].rounded = 0;
        let wanted = ["refusal 7 of a rect", "nowhere of a rect", "rect of degrees [5, 5]", "a direction at a common zero"];
        assert_eq!(counts.missing(OF_A_PROGRAM), [&wanted[..], &["texts: a coordinate rounded"]].concat());
        let missing = counts.missing(OF_A_LIBRARY);
        assert!(missing.contains(&"a point of a rect refused with the second".to_string()));
        assert!(missing.contains(&"12 for the handed frame of a curve".to_string()));
        assert!(!missing.contains(&"12 for q of a curve".to_string()));
        assert!(missing.contains(&"points at common zeros: a coordinate rounded".to_string()));
    }
}
