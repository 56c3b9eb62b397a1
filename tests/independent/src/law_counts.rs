//! How often each law of flips and replaces was asked, of each kind of net and with each number
//! that a replace answers, and how often a wrong statement in its place was seen to fail.

use crate::calls::{place_of, seats, Weights, LARGEST_WEIGHT};
use crate::closing::Closing;
use crate::counts::{place, Shapes};
use crate::handed::{Net, PLACES};
use crate::laws::Law;
use crate::shape::{Kind, Shape, MOST_VERTICES, RANGE};

/// What a replace answers on a net in order: 0 where it is taken, or the refusal's number.
pub const NUMBERS: [usize; 5] = [0, 8, 9, 10, 12];

#[derive(Clone, Debug, Default)]
pub struct LawCounts {
    pub calls: u64,
    shapes: Shapes,
    /// Of each kind, nets as `NETS` names them.
    nets: [[u64; 8]; 3],
    /// Of each kind, weights of replaces as `WEIGHTS` names them.
    weights: [[u64; 3]; 3],
    /// Of each law and kind, at place N how often it held with the number N. Where there is no replace the
    /// number is 0.
    held: [[[u64; 13]; 3]; 5],
    /// Of each law and kind, how often it held of these two vertices, the flipped one first.
    joined: [[[[u64; MOST_VERTICES]; MOST_VERTICES]; 3]; 5],
    /// Of each wrong statement and kind, how often it led to another run and to another number.
    wrong: [[[u64; 2]; 3]; 6],
}

const NETS: [&str; 8] = [
    "reached by calls", "of any numbers", "in runs of 193 places", "in longer runs", "with a number of the frame 2^48 exactly",
    "with a component 2^48 exactly", "with a vertex of zeros", "with a wrong largest component",
];

/// The first is counted where another vertex than the flipped one is replaced.
const WEIGHTS: [&str; 3] = ["0 for the flipped vertex", "beyond 4096", "other than 0 where none is used"];

/// What a law might say wrongly.
#[derive(Clone, Copy, Debug, PartialEq, Eq)]
pub enum Wrong {
    OnceRestores,
    OneIsEnough,
    NotNegated,
    NegatedInTheOtherPair,
    OwnNotNegated,
    RefusedMadeEqual,
}

impl Wrong {
    const ALL: [Wrong; 6] = [
        Wrong::OnceRestores, Wrong::OneIsEnough, Wrong::NotNegated, Wrong::NegatedInTheOtherPair, Wrong::OwnNotNegated,
        Wrong::RefusedMadeEqual,
    ];

    fn law(self) -> Law {
        match self {
            Wrong::OnceRestores => Law::Twice,
            Wrong::OneIsEnough => Law::EitherOrder,
            Wrong::NotNegated => Law::SameGroup,
            Wrong::NegatedInTheOtherPair => Law::OtherPair,
            Wrong::OwnNotNegated | Wrong::RefusedMadeEqual => Law::Itself,
        }
    }

    fn words(self) -> &'static str {
        match self {
            Wrong::OnceRestores => "one flip restores the net",
            Wrong::OneIsEnough => "one of two flips is enough",
            Wrong::NotNegated => "the weight not negated",
            Wrong::NegatedInTheOtherPair => "negated in the other pair too",
            Wrong::OwnNotNegated => "its own weight not negated",
            Wrong::RefusedMadeEqual => "the refused case made equal",
        }
    }

    /// Whether a replace may answer another number by it.
    fn changes_numbers(self) -> bool {
        matches!(self, Wrong::NotNegated | Wrong::NegatedInTheOtherPair | Wrong::OwnNotNegated)
    }
}

impl LawCounts {
    pub fn net(&mut self, shape: Shape, net: &Net, reached: bool) {
        let full = |numbers: &[i64]| numbers.iter().any(|number| number.unsigned_abs() == RANGE as u64);
        let mut vertices = net.frame(shape).chunks(shape.kind.vertex_numbers());
        let told = [
            reached,
            !reached,
            net.0.len() == PLACES,
            net.0.len() > PLACES,
            full(net.frame(shape)),
            full(net.numbers(shape)),
            vertices.any(|vertex| vertex.iter().all(|&number| number == 0)),
            net.claimed() != net.most(shape),
        ];
        self.shapes.count(shape);
        add(&mut self.nets[place(shape.kind)], &told);
    }

    /// The weights of a replace of which a law held.
    pub fn weights(&mut self, law: Law, kind: Kind, flipped: u8, replaced: u8, weights: &Weights) {
        let (used, _) = seats(kind, replaced);
        let idle = law == Law::SameGroup && weights[seats(kind, flipped).1] == 0;
        let beyond = weights[..used].iter().any(|weight| weight.unsigned_abs() > LARGEST_WEIGHT as u64);
        let told = [idle, beyond, weights[used..].iter().any(|&weight| weight != 0)];
        add(&mut self.weights[place(kind)], &told);
    }

    /// A law that held, of a vertex that was flipped and another or the same, with this number.
    pub fn held(&mut self, law: Law, kind: Kind, (flipped, other): (u8, u8), number: u8) {
        self.held[law as usize][place(kind)][usize::from(number)] += 1;
        self.joined[law as usize][place(kind)][place_of(flipped)][place_of(other)] += 1;
    }

    /// A wrong statement, and whether it led to another number or else to another run than the law.
    pub fn seen(&mut self, wrong: Wrong, kind: Kind, another_number: bool, another_run: bool) {
        add(&mut self.wrong[wrong as usize][place(kind)], &[another_run && !another_number, another_number]);
    }

    pub fn closing(&self) -> Closing {
        Closing { calls: self.calls, lines: self.lines(), missing: self.missing() }
    }

    /// What never occurred, for each kind.
    pub fn missing(&self) -> Vec<String> {
        let counts = Kind::ALL.into_iter().flat_map(|kind| self.of_a_kind(kind));
        let never = counts.filter(|(_, count)| *count == 0).map(|(what, _)| what);
        never.chain(self.shapes.missing()).collect()
    }

    /// What must occur for a kind, each with its words.
    fn of_a_kind(&self, kind: Kind) -> Vec<(String, u64)> {
        let (own, word) = (place(kind), kind.word());
        let nets = NETS.iter().zip(self.nets[own]).map(|(what, count)| (format!("a {word} {what}"), count));
        let weights = WEIGHTS.iter().zip(self.weights[own]).map(|(what, count)| (format!("a weight of a {word} {what}"), count));
        let mut list: Vec<(String, u64)> = nets.chain(weights).collect();
        for law in Law::ALL.into_iter().filter(|law| law.applies(kind)) {
            let held = numbers_of(law).iter().map(|&number| (number, self.held[law as usize][own][number]));
            list.extend(held.map(|(number, count)| (format!("{} of a {word} with {number}", law.words()), count)));
            let joined = law.pairs(kind).into_iter().map(|pair| (pair, self.of_a_pair(law, kind, pair)));
            list.extend(joined.map(|(pair, count)| (format!("{} of a {word}, vertices {pair:?}", law.words()), count)));
        }
        for wrong in Wrong::ALL.into_iter().filter(|wrong| wrong.law().applies(kind)) {
            let [runs, numbers] = self.wrong[wrong as usize][own];
            list.push((format!("another run of a {word} by {}", wrong.words()), runs));
            if wrong.changes_numbers() {
                list.push((format!("another number of a {word} by {}", wrong.words()), numbers));
            }
        }
        list
    }

    fn of_a_pair(&self, law: Law, kind: Kind, (flipped, other): (u8, u8)) -> u64 {
        self.joined[law as usize][place(kind)][place_of(flipped)][place_of(other)]
    }

    /// Lines with every count: of the nets, of each law, and of the wrong statements.
    fn lines(&self) -> String {
        let nets = Kind::ALL.map(|kind| {
            let (own, word) = (place(kind), kind.word());
            format!("{word}: nets {}; weights {}\n", counted(&NETS, &self.nets[own]), counted(&WEIGHTS, &self.weights[own]))
        });
        let laws = Law::ALL.map(|law| {
            let kinds = Kind::ALL.into_iter().filter(|kind| law.applies(*kind)).map(|kind| self.line_of_a_law(law, kind));
            format!("{}: {}\n", law.words(), kinds.collect::<Vec<String>>().join("; "))
        });
        let wrong = Wrong::ALL.map(|wrong| self.line_of_a_wrong_statement(wrong));
        format!("{}{}wrong statements that led elsewhere: {}", nets.concat(), laws.concat(), wrong.join("; "))
    }

    fn line_of_a_law(&self, law: Law, kind: Kind) -> String {
        let (word, counts, pairs) = (kind.word(), self.held[law as usize][place(kind)], law.pairs(kind));
        let least = pairs.iter().map(|pair| self.of_a_pair(law, kind, *pair)).min().unwrap_or(0);
        let vertices = format!("choices of vertices {}, each {least} times or more", pairs.len());
        if !law.has_a_replace() {
            return format!("{word} {}, {vertices}", counts[0]);
        }
        let refused = NUMBERS[1..].iter().map(|&number| format!("{number}:{}", counts[number]));
        format!("{word} taken {} refused {}, {vertices}", counts[0], refused.collect::<Vec<String>>().join(" "))
    }

    fn line_of_a_wrong_statement(&self, wrong: Wrong) -> String {
        let kinds = Kind::ALL.into_iter().filter(|kind| wrong.law().applies(*kind)).map(|kind| {
            let [runs, numbers] = self.wrong[wrong as usize][place(kind)];
            let numbers = if wrong.changes_numbers() { format!(" numbers {numbers}") } else { String::new() };
            format!("{} runs {runs}{numbers}", kind.word())
        });
        format!("{}: {}", wrong.words(), kinds.collect::<Vec<String>>().join(", "))
    }
}

/// The numbers with which a law can hold.
fn numbers_of(law: Law) -> &'static [usize] {
    if law.has_a_replace() {
        &NUMBERS
    } else {
        &NUMBERS[..1]
    }
}

fn add(counts: &mut [u64], told: &[bool]) {
    counts.iter_mut().zip(told).for_each(|(count, is)| *count += u64::from(*is));
}

fn counted(words: &[&str], counts: &[u64]) -> String {
    words.iter().zip(counts).map(|(word, count)| format!("{word} {count}")).collect::<Vec<String>>().join(", ")
}

#[cfg(test)]
mod tests {
    use super::*;

    /// What came for the other kinds or laws does not make up for what never came for one, and what
    /// a kind or a law has not is not asked for.
    #[test]
    fn each_law_must_hold_with_every_number_for_every_kind() {
        let (nets, weights, wrong) = ([[1; 8]; 3], [[1; 3]; 3], [[[1; 2]; 3]; 6]);
        let (held, joined) = ([[[1; 13]; 3]; 5], [[[[1; 4]; 4]; 3]; 5]);
        let mut counts = LawCounts { nets, weights, held, joined, wrong, ..LawCounts::default() };
        Shape::all().into_iter().for_each(|shape| counts.shapes.count(shape));
        assert_eq!(counts.missing(), Vec::<String>::new());
        // a curve has no other pair, and two flips refuse nothing
        counts.held[Law::OtherPair as usize][0] = [0; 13];
        counts.held[Law::EitherOrder as usize][0][10] = 0;
        counts.wrong[Wrong::NegatedInTheOtherPair as usize][1] = [0; 2];
        counts.wrong[Wrong::RefusedMadeEqual as usize][2][1] = 0;
        counts.joined[Law::SameGroup as usize][2][1][2] = 0;
        assert_eq!(counts.missing(), Vec::<String>::new());
        counts.held[Law::OtherPair as usize][2][12] = 0;
        counts.held[Law::Twice as usize][1][0] = 0;
        counts.wrong[Wrong::NotNegated as usize][0][1] = 0;
        counts.nets[1][6] = 0;
        counts.joined[Law::OtherPair as usize][2][1][2] = 0;
        let missing = [
            "another number of a curve by the weight not negated",
            "a patch with a vertex of zeros",
            "a flip twice of a patch with 0",
            "a flip and a replace in the other pair of a rect with 12",
            "a flip and a replace in the other pair of a rect, vertices (2, 3)",
        ];
        assert_eq!(counts.missing(), missing);
    }
}
