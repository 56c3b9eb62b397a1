//! The laws of flips and replaces, asked of a library by calls alone: where two ways from one net
//! are to be equal, the numbers that they answer are compared and every place of the run that they
//! leave, in use or not. What a call answers is not known here, and no model is asked.

use crate::calls::{place_of, seats, Call, Weights, FLIP, NO_WEIGHTS, REPLACE};
use crate::compare::WEIGHT_BITS;
use crate::generate::{any_shape, encode, handed, in_order, made, Caller, Mood};
use crate::handed::Net;
use crate::law_counts::{LawCounts, Wrong, NUMBERS};
use crate::library::Library;
use crate::random::Random;
use crate::shape::{Kind, Shape};

/// One net in so many is reached from a record by calls; the others hold any numbers in range.
const REACHED_ONCE_IN: usize = 4;

/// So many calls at most reach a net, after those that its record begins with.
const MOST_CALLS: usize = 8;

/// A flip of a vertex v, and what comes before it or after it. All flips are of nets in order, so
/// they are taken.
#[derive(Clone, Copy, Debug, PartialEq, Eq)]
pub enum Law {
    /// Flipping v twice restores the net.
    Twice,
    /// Flips of v and of another vertex may be taken in either order.
    EitherOrder,
    /// To flip v and then replace another vertex of its group is to replace that with v's weight
    /// negated and then flip v. Refused or not, the numbers and the nets are the same.
    SameGroup,
    /// The same with a vertex of the other pair, and nothing is negated.
    OtherPair,
    /// To flip v and then replace v itself is to replace it with its weight negated. The numbers are the
    /// same; where it is refused, the first way leaves the flipped net and the second the old one.
    Itself,
}

impl Law {
    pub const ALL: [Law; 5] = [Law::Twice, Law::EitherOrder, Law::SameGroup, Law::OtherPair, Law::Itself];

    pub fn words(self) -> &'static str {
        match self {
            Law::Twice => "a flip twice",
            Law::EitherOrder => "two flips in either order",
            Law::SameGroup => "a flip and a replace in its group",
            Law::OtherPair => "a flip and a replace in the other pair",
            Law::Itself => "a flip and a replace of its vertex",
        }
    }

    /// Whether there are vertices for it: only a rectangular patch has another pair.
    pub fn applies(self, kind: Kind) -> bool {
        !self.pairs(kind).is_empty()
    }

    /// All choices of its two vertices, the flipped one first.
    pub fn pairs(self, kind: Kind) -> Vec<(u8, u8)> {
        let vertices = || 1..=kind.vertices() as u8;
        let all = vertices().flat_map(|flipped| vertices().map(move |other| (flipped, other)));
        all.filter(|(flipped, other)| self.joins(kind, *flipped, *other)).collect()
    }

    pub fn has_a_replace(self) -> bool {
        !matches!(self, Law::Twice | Law::EitherOrder)
    }

    /// Whether it speaks of these two vertices, the second flipped or replaced beside the first.
    fn joins(self, kind: Kind, flipped: u8, other: u8) -> bool {
        let same_group = kind.group_of(place_of(flipped)) == kind.group_of(place_of(other));
        match self {
            Law::Twice | Law::Itself => other == flipped,
            Law::EitherOrder => other != flipped,
            Law::SameGroup => other != flipped && same_group,
            Law::OtherPair => !same_group,
        }
    }
}

/// Asks every law of so many nets. The first that does not hold ends it, with what leads to it.
pub fn run_laws(library: &mut dyn Library, nets: usize, seed: u64) -> Result<LawCounts, String> {
    run_some_laws(library, &Law::ALL, nets, seed)
}

/// The same with these laws alone.
pub fn run_some_laws(library: &mut dyn Library, laws: &[Law], nets: usize, seed: u64) -> Result<LawCounts, String> {
    let mut counts = LawCounts::default();
    for number in 0..nets {
        let mut run = Run { library, counts: &mut counts, random: Random::of_part(seed, number) };
        run.one_net(laws).map_err(|what| format!("seed {seed}, net {number}: {what}"))?;
    }
    Ok(counts)
}

/// Operation, vertex and weights.
type Move = (u8, u8, Weights);

fn flip(vertex: u8) -> Move {
    (FLIP, vertex, NO_WEIGHTS)
}

fn replace(vertex: u8, weights: Weights) -> Move {
    (REPLACE, vertex, weights)
}

/// What a law is asked of.
struct Asked<'a> {
    law: Law,
    kind: Kind,
    start: &'a Net,
    flipped: u8,
    /// The vertex that is flipped or replaced beside it, or itself.
    other: u8,
    /// Of the replace, if there is one.
    weights: Weights,
}

impl Asked<'_> {
    /// The weights with that of the flipped vertex negated, or, in the other pair, with the one in its
    /// place there. The least number of 64 bits stays as it is: it is refused for either sign.
    fn negated(&self) -> Weights {
        let (_, seat) = seats(self.kind, self.flipped);
        let mut weights = self.weights;
        weights[seat] = weights[seat].wrapping_neg();
        weights
    }
}

/// Moves from one net: the numbers that they answer, 0 where one is taken, and the run that is left.
struct Way {
    moves: Vec<Move>,
    numbers: Vec<u8>,
    left: Net,
}

impl Way {
    fn answers(&self, numbers: &[u8]) -> Result<(), String> {
        if self.numbers == numbers {
            return Ok(());
        }
        Err(format!("{:?} answer {:?}, expected {numbers:?}", self.moves, self.numbers))
    }

    fn leaves(&self, expected: &Net) -> Result<(), String> {
        if self.left == *expected {
            return Ok(());
        }
        Err(format!("{:?} leave {:?}, expected {expected:?}", self.moves, self.left))
    }
}

struct Run<'a> {
    library: &'a mut dyn Library,
    counts: &'a mut LawCounts,
    random: Random,
}

impl Run<'_> {
    fn one_net(&mut self, laws: &[Law]) -> Result<(), String> {
        let reached = self.random.once_in(REACHED_ONCE_IN);
        let (shape, net) = if reached { self.reached()? } else { in_order(&mut self.random) };
        self.counts.net(shape, &net, reached);
        for law in laws.iter().filter(|law| law.applies(shape.kind)) {
            self.one_law(*law, shape.kind, &net)?;
        }
        Ok(())
    }

    /// A net that the library itself makes of a record and of some moves.
    fn reached(&mut self) -> Result<(Shape, Net), String> {
        let mood = self.random.pick(&Mood::ALL);
        let shape = any_shape(&mut self.random);
        let mut made = made(&mut self.random, shape, mood);
        // they are for points, of which there are none here
        made.aims.clear();
        let mut net = handed(&mut self.random);
        let read = self.library.read(&encode(&made.record), &mut net);
        read.map_err(|refusal| format!("{refusal:?} of {:?}", made.record))?;
        let mut caller = Caller::new(&made, mood, WEIGHT_BITS);
        for _ in 0..made.opening.len() + self.random.below(MOST_CALLS + 1) {
            let call = caller.next(&mut self.random, &[]);
            if let Call::Move { operation, vertex, weights } = call {
                let taken = self.library.take(&mut net, operation, vertex, weights).is_ok();
                caller.heard(&call, taken);
            }
        }
        Ok((made.record.shape, net))
    }

    fn one_law(&mut self, law: Law, kind: Kind, start: &Net) -> Result<(), String> {
        let (flipped, other) = self.random.pick(&law.pairs(kind));
        let weights = if law.has_a_replace() { self.weights(kind, other) } else { NO_WEIGHTS };
        let asked = Asked { law, kind, start, flipped, other, weights };
        let held = match law {
            Law::Twice => self.twice(&asked),
            Law::EitherOrder => self.either_order(&asked),
            Law::SameGroup | Law::OtherPair => self.another_vertex(&asked),
            Law::Itself => self.itself(&asked),
        };
        let number = held.map_err(|what| format!("{}: {what}\nfrom {start:?}", law.words()))?;
        self.counts.held(law, kind, (flipped, other), number);
        Ok(())
    }

    fn weights(&mut self, kind: Kind, vertex: u8) -> Weights {
        let mood = self.random.pick(&[Mood::Plain, Mood::Units, Mood::Wide, Mood::Edge]);
        Caller::blind(kind, mood, WEIGHT_BITS).of_a_replace(&mut self.random, vertex)
    }

    fn way(&mut self, start: &Net, moves: &[Move]) -> Way {
        let (mut left, mut numbers) = (start.clone(), Vec::new());
        for &(operation, vertex, weights) in moves {
            let answer = self.library.take(&mut left, operation, vertex, weights);
            numbers.push(answer.err().unwrap_or(0));
        }
        self.counts.calls += moves.len() as u64;
        Way { moves: moves.to_vec(), numbers, left }
    }

    fn twice(&mut self, asked: &Asked) -> Result<u8, String> {
        let turn = flip(asked.flipped);
        let twice = self.way(asked.start, &[turn, turn]);
        twice.answers(&[0, 0])?;
        twice.leaves(asked.start)?;
        let once = self.way(asked.start, &[turn]);
        self.counts.seen(Wrong::OnceRestores, asked.kind, false, once.left != *asked.start);
        Ok(0)
    }

    fn either_order(&mut self, asked: &Asked) -> Result<u8, String> {
        let (one, other) = (flip(asked.flipped), flip(asked.other));
        let first = self.way(asked.start, &[one, other]);
        let second = self.way(asked.start, &[other, one]);
        first.answers(&[0, 0])?;
        second.answers(&[0, 0])?;
        first.leaves(&second.left)?;
        let alone = self.way(asked.start, &[one]);
        self.counts.seen(Wrong::OneIsEnough, asked.kind, false, alone.left != first.left);
        Ok(0)
    }

    fn another_vertex(&mut self, asked: &Asked) -> Result<u8, String> {
        let turn = flip(asked.flipped);
        let (right, wrong, statement) = match asked.law {
            Law::OtherPair => (asked.weights, asked.negated(), Wrong::NegatedInTheOtherPair),
            _ => (asked.negated(), asked.weights, Wrong::NotNegated),
        };
        let first = self.way(asked.start, &[turn, replace(asked.other, asked.weights)]);
        let second = self.way(asked.start, &[replace(asked.other, right), turn]);
        let number = known(first.numbers[1])?;
        first.answers(&[0, number])?;
        second.answers(&[number, 0])?;
        first.leaves(&second.left)?;
        self.counts.weights(asked.law, asked.kind, asked.flipped, asked.other, &asked.weights);
        let wrong = self.way(asked.start, &[replace(asked.other, wrong), turn]);
        self.counts.seen(statement, asked.kind, wrong.numbers != second.numbers, wrong.left != first.left);
        Ok(number)
    }

    fn itself(&mut self, asked: &Asked) -> Result<u8, String> {
        let (start, turn) = (asked.start, flip(asked.flipped));
        let first = self.way(start, &[turn, replace(asked.flipped, asked.weights)]);
        let second = self.way(start, &[replace(asked.flipped, asked.negated())]);
        let number = known(first.numbers[1])?;
        first.answers(&[0, number])?;
        second.answers(&[number])?;
        self.counts.weights(asked.law, asked.kind, asked.flipped, asked.other, &asked.weights);
        if number == 0 {
            first.leaves(&second.left)?;
            let wrong = self.way(start, &[replace(asked.flipped, asked.weights)]);
            self.counts.seen(Wrong::OwnNotNegated, asked.kind, wrong.numbers != second.numbers, wrong.left != first.left);
            return Ok(number);
        }
        let flipped = self.way(start, &[turn]);
        flipped.answers(&[0])?;
        first.leaves(&flipped.left)?;
        second.leaves(start)?;
        self.counts.seen(Wrong::RefusedMadeEqual, asked.kind, false, first.left != second.left);
        Ok(number)
    }
}

/// The number of a replace, if it is one that a replace on a net in order has.
fn known(number: u8) -> Result<u8, String> {
    if NUMBERS.contains(&usize::from(number)) {
        return Ok(number);
    }
    Err(format!("a replace on a net in order answers {number}"))
}

#[cfg(test)]
mod tests {
    use super::*;

    #[test]
    fn vertices_that_a_law_joins() {
        for (law, curve, patch, rect) in [
            (Law::Twice, 2, 3, 4),
            (Law::EitherOrder, 2, 6, 12),
            (Law::SameGroup, 2, 6, 4),
            (Law::OtherPair, 0, 0, 8),
            (Law::Itself, 2, 3, 4),
        ] {
            assert_eq!(Kind::ALL.map(|kind| law.pairs(kind).len()), [curve, patch, rect]);
            assert_eq!(Kind::ALL.map(|kind| law.applies(kind)), [curve, patch, rect].map(|many| many > 0));
        }
        assert_eq!(Law::SameGroup.pairs(Kind::Rect), [(1, 2), (2, 1), (3, 4), (4, 3)]);
        assert_eq!(Law::OtherPair.pairs(Kind::Rect)[..4], [(1, 3), (1, 4), (2, 3), (2, 4)]);
    }

    #[test]
    fn the_weight_of_the_flipped_vertex_is_negated() {
        let start = Net::empty();
        for (kind, flipped, other, wanted) in [
            (Kind::Curve, 1, 2, [-5, 7, 0, 0]),
            (Kind::Curve, 2, 1, [5, -7, 0, 0]),
            (Kind::Patch, 2, 3, [5, -7, 0, 0]),
            (Kind::Rect, 3, 4, [-5, 7, 0, 0]),
            (Kind::Rect, 4, 4, [5, -7, 0, 0]),
            (Kind::Rect, 4, 1, [5, -7, 0, 0]),
        ] {
            let asked = Asked { law: Law::SameGroup, kind, start: &start, flipped, other, weights: [5, 7, 0, 0] };
            assert_eq!(asked.negated(), wanted);
        }
        let weights = [1, 2, i64::MIN, 0];
        let asked = Asked { law: Law::Itself, kind: Kind::Patch, start: &start, flipped: 3, other: 3, weights };
        assert_eq!(asked.negated(), weights);
    }
}
