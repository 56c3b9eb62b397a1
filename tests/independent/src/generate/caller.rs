//! Lists of calls: proper ones along a frame, and ones broken in every way.

use super::polynomials::Aim;
use super::records::Made;
use crate::calls::{place_of, seats, Call, Weights, FLIP, LARGEST_WEIGHT, NO_WEIGHTS, REPLACE};
use crate::exact::Exact;
use crate::polar::Parameter;
use crate::random::Random;
use crate::record::determinant;
use crate::shape::{Kind, MOST_VERTICES};

/// What a list is about.
#[derive(Clone, Copy, Debug, PartialEq, Eq)]
pub enum Mood {
    /// Small weights.
    Plain,
    /// Long lists with weights 0 and ±1.
    Units,
    /// Weights up to their limits.
    Wide,
    /// A frame that grows as far as it may under entries that do not.
    Growth,
    /// A frame that comes to 2 to the 48th exactly under entries that do not see it.
    Frame,
    /// Mostly broken calls.
    Broken,
    /// Entries at 2 to the 48th, as in B10.
    Edge,
    /// Entries of both signs at or near 2 to the 48th, so that a new net or a point is
    /// in range while another of the named polar values is not.
    Cancel,
    /// Lists that begin with a call of which one named polar value alone is out of range, one
    /// of q and of vertices.
    Mixed,
    /// Curves with a common zero of any order, and points at it by several weights.
    Zero,
}

impl Mood {
    /// `Mixed` comes twice. Of every ten lists of a comparison seven are about one of these, in turn, so
    /// their number and ten have no common divisor.
    pub const ALL: [Mood; 11] = [
        Mood::Plain,
        Mood::Units,
        Mood::Wide,
        Mood::Growth,
        Mood::Broken,
        Mood::Edge,
        Mood::Cancel,
        Mood::Frame,
        Mood::Mixed,
        Mood::Zero,
        Mood::Mixed,
    ];

    pub fn length(self, random: &mut Random) -> usize {
        match self {
            Mood::Units => 50 + random.below(30),
            Mood::Growth | Mood::Frame => 8 + random.below(50),
            Mood::Mixed => 9 + random.below(9),
            _ => random.below(40),
        }
    }

    /// One call in so many is broken.
    fn broken_once_in(self) -> usize {
        match self {
            Mood::Broken => 2,
            Mood::Plain | Mood::Wide => 6,
            _ => 12,
        }
    }
}

pub struct Caller {
    kind: Kind,
    mood: Mood,
    aims: Vec<Aim>,
    still: Vec<usize>,
    weight_bits: u32,
    /// The replace that leads back to the frame before the last one taken.
    back: Option<Call>,
    /// Calls to make before any other, the last first.
    opening: Vec<Call>,
}

impl Caller {
    pub fn new(made: &Made, mood: Mood, weight_bits: u32) -> Caller {
        let (aims, still) = (made.aims.clone(), made.still.clone());
        let opening = made.opening.clone();
        Caller { kind: made.record.shape.kind, mood, aims, still, weight_bits, back: None, opening }
    }

    /// A caller that knows no record.
    pub fn blind(kind: Kind, mood: Mood, weight_bits: u32) -> Caller {
        Caller { kind, mood, aims: Vec::new(), still: Vec::new(), weight_bits, back: None, opening: Vec::new() }
    }

    /// Calls to make before any other, the last first.
    pub fn open_with(&mut self, calls: Vec<Call>) {
        self.opening = calls;
    }

    pub fn next(&mut self, random: &mut Random, frame: &[Parameter<Exact>]) -> Call {
        if let Some(call) = self.opening.pop() {
            return call;
        }
        if random.once_in(self.mood.broken_once_in()) {
            return self.broken(random);
        }
        match (random.below(12), self.back) {
            (0..=2, Some(back)) => back,
            (3 | 4, _) => Call::Move { operation: FLIP, vertex: self.vertex(random), weights: NO_WEIGHTS },
            (5..=8, _) => Call::Point { weights: self.point(random, frame) },
            _ => self.replace(random),
        }
    }

    /// Keeps the way back, where the vertex's weight is ±1: r' = αr + βs gives
    /// r = αr' − αβs.
    pub fn heard(&mut self, call: &Call, taken: bool) {
        if let (Call::Move { operation, vertex, weights }, true) = (*call, taken) {
            self.back = None;
            let (_, seat) = seats(self.kind, vertex);
            let own = weights[seat];
            if operation == REPLACE && own.abs() == 1 {
                let mut back = weights.map(|weight| -own * weight);
                back[seat] = own;
                self.back = Some(Call::Move { operation, vertex, weights: back });
            }
        }
    }

    fn vertices(&self) -> usize {
        self.kind.vertices()
    }

    fn vertex(&self, random: &mut Random) -> u8 {
        1 + random.below(self.vertices()) as u8
    }

    /// Weights for a point: aimed where the polynomials vanish, or any.
    pub fn point(&self, random: &mut Random, frame: &[Parameter<Exact>]) -> Weights {
        let mut weights = self.weights(random, self.vertices());
        for &place in self.still.iter() {
            weights[place] = wide(random);
        }
        if !self.aims.is_empty() && !random.once_in(3) {
            let aim = random.pick(&self.aims);
            let span = self.kind.spans()[aim.group].clone();
            if let Some(aimed) = weights_for(&frame[span.clone()], aim.point) {
                weights[span].copy_from_slice(&self.multiple(random, &aimed));
            }
        }
        weights
    }

    /// The weights, or where a list is about zeros at times a multiple of them.
    fn multiple(&self, random: &mut Random, weights: &[i64]) -> Vec<i64> {
        let by = if self.mood == Mood::Zero { random.pick(&[1, 1, 1, -1, 2, -3, 16]) } else { 1 };
        let multiple: Vec<i64> = weights.iter().map(|weight| by * weight).collect();
        if multiple.iter().all(|weight| weight.abs() <= LARGEST_WEIGHT) {
            multiple
        } else {
            weights.to_vec()
        }
    }

    fn replace(&self, random: &mut Random) -> Call {
        let vertex = self.vertex(random);
        let (used, seat) = seats(self.kind, vertex);
        let mut weights = self.weights(random, used);
        if !self.still.is_empty() {
            weights = self.growing(random, place_of(vertex));
        }
        if self.mood == Mood::Edge {
            weights[seat] = random.sign() * random.pick(&[4096, 4096, 256, 16, 16, 15, 17, 1]);
        }
        while weights[seat] == 0 {
            weights[seat] = self.weight(random);
        }
        Call::Move { operation: REPLACE, vertex, weights }
    }

    /// Weights for a replace of this vertex, mostly in order; at times with 0 for the vertex itself, one
    /// outside, one that is not used, or two of these.
    pub fn of_a_replace(&self, random: &mut Random, vertex: u8) -> Weights {
        let (used, seat) = seats(self.kind, vertex);
        let mut weights = self.weights(random, used);
        while weights[seat] == 0 {
            weights[seat] = self.weight(random);
        }
        let far = self.outside(random);
        match random.below(20) {
            0 | 1 => weights[seat] = 0,
            2 => weights[random.below(used)] = far,
            3 => weights[used + random.below(MOST_VERTICES - used)] = random.pick(&[1, -1, 4096, far]),
            4 => (weights[seat], weights[(seat + 1) % used]) = (0, far),
            _ => {}
        }
        weights
    }

    /// Large on the vertices that the entries do not see, or small once they are large
    /// themselves; elsewhere the vertex itself.
    fn growing(&self, random: &mut Random, place: usize) -> Weights {
        let mut weights = NO_WEIGHTS;
        let span = &self.kind.spans()[self.kind.group_of(place)];
        for &still in self.still.iter().filter(|still| span.contains(still)) {
            let small = if self.mood == Mood::Frame { !random.once_in(8) } else { random.once_in(3) };
            let large = if random.once_in(3) { wide(random) } else { random.sign() * LARGEST_WEIGHT };
            weights[still - span.start] = if small { random.between(-1, 1) } else { large };
        }
        if !self.still.contains(&place) {
            weights[place - span.start] = random.sign();
        }
        weights
    }

    /// So many, and 0 in the places that are not used.
    fn weights(&self, random: &mut Random, used: usize) -> Weights {
        let mut weights = NO_WEIGHTS.map(|_| self.weight(random));
        weights[used..].fill(0);
        weights
    }

    fn weight(&self, random: &mut Random) -> i64 {
        match self.mood {
            Mood::Plain | Mood::Cancel | Mood::Mixed | Mood::Zero => random.between(-3, 3),
            Mood::Units | Mood::Growth | Mood::Frame => random.between(-1, 1),
            Mood::Wide | Mood::Broken => wide(random),
            Mood::Edge => random.sign() * random.pick(&[0, 0, 0, 0, 1, 1, 2, 16]),
        }
    }

    fn broken(&self, random: &mut Random) -> Call {
        let (mut operation, mut vertex) = (REPLACE, self.vertex(random));
        let (used, seat) = seats(self.kind, vertex);
        let mut weights = self.weights(random, used);
        match random.below(10) {
            0 => operation = random.pick(&[0, 3, 4, 127, 128, 255]),
            1 => vertex = random.pick(&[0, self.vertices() as u8 + 1, 4, 5, 128, 255]),
            2 => weights[random.below(used)] = self.outside(random),
            3 => {
                let far = self.outside(random);
                weights[used + random.below(MOST_VERTICES - used)] = random.pick(&[1, -1, 4096, far]);
            }
            4 => (operation, weights[random.below(MOST_VERTICES)]) = (FLIP, random.pick(&[1, -1, 4096, 5000])),
            5 => weights[seat] = 0,
            6 => (weights[seat], weights[(seat + 1) % used]) = (0, self.outside(random)),
            7 | 8 => return Call::Point { weights: self.broken_point(random) },
            _ => (operation, vertex) = (random.next() as u8, random.next() as u8),
        }
        Call::Move { operation, vertex, weights }
    }

    /// A group that names nothing, a weight outside, or one that is not used; at times the
    /// first and one of the others at once.
    fn broken_point(&self, random: &mut Random) -> Weights {
        let mut weights = self.weights(random, self.vertices());
        let idle = random.pick(&self.kind.spans().into_iter().map(|span| (span.start, span.end)).collect::<Vec<_>>());
        if random.once_in(2) {
            weights[idle.0..idle.1].fill(0);
        }
        match random.below(4) {
            0 => weights[random.below(MOST_VERTICES)] = self.outside(random),
            1 if self.vertices() < MOST_VERTICES => {
                weights[self.vertices() + random.below(MOST_VERTICES - self.vertices())] = random.pick(&[1, -1, 4096]);
            }
            2 => weights = NO_WEIGHTS,
            _ => {}
        }
        weights
    }

    /// A weight past its limits that the library's type still carries.
    fn outside(&self, random: &mut Random) -> i64 {
        let (low, high) = (-1i64 << (self.weight_bits - 1), !(-1i64 << (self.weight_bits - 1)));
        let anywhere = random.between(low, high);
        let far = if anywhere.unsigned_abs() > LARGEST_WEIGHT as u64 { anywhere } else { low };
        random.pick(&[LARGEST_WEIGHT + 1, -LARGEST_WEIGHT - 1, low, high, far])
    }
}

/// Any weight in the limits, the limits and powers of two often.
fn wide(random: &mut Random) -> i64 {
    let power = 1 << random.below(13);
    let anywhere = random.between(-LARGEST_WEIGHT, LARGEST_WEIGHT);
    let near = (power + random.between(-1, 1)).min(LARGEST_WEIGHT);
    random.sign() * random.pick(&[0, 1, LARGEST_WEIGHT, power, near, anywhere])
}

/// The weights of one group that name a multiple of this parameter point, if its vertices
/// are small enough and they are within their limits: one vertex after the other gives way
/// to the point in the determinant.
fn weights_for(group: &[Parameter<Exact>], aim: [i64; 3]) -> Option<Vec<i64>> {
    let small = |number: &Exact| number.to_i64().filter(|n| n.abs() < 1 << 15);
    let vertices = group.iter().map(|[u, v, z]| Some([small(u)?, small(v)?, small(z)?])).collect::<Option<Vec<_>>>()?;
    let in_place_of = |place: usize| {
        let mut with_aim = vertices.clone();
        with_aim[place] = aim;
        determinant(&with_aim)
    };
    let weights: Vec<i64> = (0..vertices.len()).map(in_place_of).collect();
    let divisor = weights.iter().fold(0, |found, &weight| common_divisor(found, weight.abs()));
    let least: Vec<i64> = weights.iter().map(|weight| weight / divisor.max(1)).collect();
    least.iter().all(|weight| weight.abs() <= LARGEST_WEIGHT).then_some(least)
}

fn common_divisor(a: i64, b: i64) -> i64 {
    if b == 0 {
        a
    } else {
        common_divisor(b, a % b)
    }
}
