//! Libraries that are wrong in one place each, where the laws of flips and replaces see it. `run_laws`
//! must find every one, and so must each law alone that it breaks; the other laws must hold of it.

use independent::calls::{place_of, seats, Weights, FLIP, NO_WEIGHTS, REPLACE};
use independent::first::Given;
use independent::handed::{Net, ENTRIES, FRAME, LARGEST, PLACES};
use independent::laws::{run_laws, run_some_laws, Law};
use independent::library::{Library, Model};
use independent::projection::Room;
use independent::record::{Lookup, Refusal};
use independent::shape::{Kind, Shape, RANGE};

/// Enough for each of them.
const NETS: usize = 2000;

#[derive(Clone, Copy, Debug, PartialEq)]
enum Fault {
    FlipDoesNothing,
    FlipKeepsTheFrame,
    FlipNegatesOneNumberOfTheVertex,
    FlipKeepsTheEntries,
    FlipByTheOtherParity,
    FlipOfSingleCopies,
    FlipOfAnyCopies,
    FlipKeepsTheWeights,
    FlipKeepsTheLastEntry,
    FlipInTheFirstPairInstead,
    FlipOnlyInTheFirstPair,
    FlipReversesTheNet,
    FlipBySignOfTheFirstVertex,
    FlipWorksOutTheLargestSometimes,
    FlipChangesAWrongLargestByTheVertex,
    FlipNegatesTheLargest,
    FlipClearsPlacesAfterTheEntries,
    FlipClearsPlacesAfterTheFrame,
    FlipClearsPlacesAfterTheNet,
    FlipRefusesTheLeastNumberOfAFrame,
    FlipRefusesTheLeastComponent,
    FlipRefusesANegativeLargest,
    ReplaceDoesNothing,
    ReplaceKeepsTheFrame,
    AbsoluteWeights,
    AbsoluteOwnWeight,
    AbsoluteOtherWeights,
    WeightsExchanged,
    LeastWeightRefused,
    NegativeOwnWeightRefused,
    LimitRefusedForOneSign,
    RefusalLeavesTheNewVertex,
    RefusalLeavesHalfANet,
    RefusalWritesTheLargest,
    RefusalTakesBackAFlip,
    RefusalFlipsTheVertex,
    SizeIsTwelveForANegativeOwnWeight,
    SizeIsTwelveForANegativeOtherWeight,
    LargestWithItsSign,
    NegatedByTheOtherPair,
    ReplaceInTheOtherPair,
}

/// Each with the laws that it breaks.
const FAULTS: [(Fault, &[Law]); 41] = {
    use Fault::*;
    use Law::*;
    [
        (FlipDoesNothing, &[SameGroup, Itself]),
        (FlipKeepsTheFrame, &[SameGroup, Itself]),
        (FlipNegatesOneNumberOfTheVertex, &[SameGroup, Itself]),
        (FlipKeepsTheEntries, &[SameGroup, Itself]),
        (FlipByTheOtherParity, &[Itself]),
        (FlipOfSingleCopies, &[SameGroup, Itself]),
        (FlipOfAnyCopies, &[SameGroup, Itself]),
        (FlipKeepsTheWeights, &[SameGroup, Itself]),
        (FlipKeepsTheLastEntry, &[SameGroup, OtherPair, Itself]),
        (FlipInTheFirstPairInstead, &[SameGroup, OtherPair, Itself]),
        (FlipOnlyInTheFirstPair, &[SameGroup, Itself]),
        (FlipReversesTheNet, &[SameGroup, Itself]),
        (FlipBySignOfTheFirstVertex, &[EitherOrder, SameGroup, OtherPair, Itself]),
        (FlipWorksOutTheLargestSometimes, &[Twice]),
        (FlipChangesAWrongLargestByTheVertex, &[EitherOrder]),
        (FlipNegatesTheLargest, &[SameGroup, OtherPair]),
        (FlipClearsPlacesAfterTheEntries, &[Twice, Itself]),
        (FlipClearsPlacesAfterTheFrame, &[Twice, Itself]),
        (FlipClearsPlacesAfterTheNet, &[Twice, Itself]),
        (FlipRefusesTheLeastNumberOfAFrame, &Law::ALL),
        (FlipRefusesTheLeastComponent, &Law::ALL),
        (FlipRefusesANegativeLargest, &Law::ALL),
        (ReplaceDoesNothing, &[Itself]),
        (ReplaceKeepsTheFrame, &[Itself]),
        (AbsoluteWeights, &[SameGroup, Itself]),
        (AbsoluteOwnWeight, &[Itself]),
        (AbsoluteOtherWeights, &[SameGroup]),
        (WeightsExchanged, &[SameGroup, Itself]),
        (LeastWeightRefused, &[SameGroup, Itself]),
        (NegativeOwnWeightRefused, &[Itself]),
        (LimitRefusedForOneSign, &[SameGroup, OtherPair]),
        (RefusalLeavesTheNewVertex, &[Itself]),
        (RefusalLeavesHalfANet, &[SameGroup, OtherPair, Itself]),
        (RefusalWritesTheLargest, &[Itself]),
        (RefusalTakesBackAFlip, &[SameGroup, OtherPair, Itself]),
        (RefusalFlipsTheVertex, &[Itself]),
        (SizeIsTwelveForANegativeOwnWeight, &[Itself]),
        (SizeIsTwelveForANegativeOtherWeight, &[SameGroup]),
        (LargestWithItsSign, &[SameGroup, OtherPair]),
        (NegatedByTheOtherPair, &[OtherPair]),
        (ReplaceInTheOtherPair, &[SameGroup, OtherPair, Itself]),
    ]
};

struct Spoiled {
    fault: Fault,
    /// The vertex of the last call and the net before it, where that was a flip.
    flipped: Option<(u8, Net)>,
}

impl Spoiled {
    fn new(fault: Fault) -> Spoiled {
        Spoiled { fault, flipped: None }
    }

    fn is(&self, fault: Fault) -> bool {
        self.fault == fault
    }

    fn flip(&self, net: &mut Net, shape: Shape, vertex: u8, weights: Weights) -> Result<(), u8> {
        let before = net.clone();
        let second_pair = shape.kind == Kind::Rect && (3..=4).contains(&vertex);
        let flipped = if self.is(Fault::FlipInTheFirstPairInstead) && second_pair { vertex - 2 } else { vertex };
        Model.take(net, FLIP, flipped, weights)?;
        if let Some(number) = self.refuses_the_flip(&before, shape) {
            *net = before;
            return Err(number);
        }
        match self.fault {
            Fault::FlipDoesNothing => *net = before,
            Fault::FlipOnlyInTheFirstPair if second_pair => *net = before,
            Fault::FlipKeepsTheFrame => net.write_frame(before.frame(shape)),
            Fault::FlipNegatesOneNumberOfTheVertex => {
                let rest = Net::vertex_places(shape, vertex).start + 1..Net::vertex_places(shape, vertex).end;
                net.0[rest.clone()].copy_from_slice(&before.0[rest]);
            }
            _ => {
                self.spoil_entries(net, &before, shape, vertex);
                self.spoil_what_is_kept(net, &before, shape, vertex);
            }
        }
        Ok(())
    }

    fn refuses_the_flip(&self, before: &Net, shape: Shape) -> Option<u8> {
        match self.fault {
            Fault::FlipRefusesTheLeastNumberOfAFrame if before.frame(shape).contains(&-RANGE) => Some(12),
            Fault::FlipRefusesTheLeastComponent if before.numbers(shape).contains(&-RANGE) => Some(10),
            Fault::FlipRefusesANegativeLargest if before.claimed() < 0 => Some(10),
            _ => None,
        }
    }

    /// What a flip leaves as entries: those of a right flip, of none, or these with other signs.
    fn spoil_entries(&self, net: &mut Net, before: &Net, shape: Shape, vertex: u8) {
        let (right, old) = (net.used(shape), before.used(shape));
        let copies: Vec<usize> = shape.copies().iter().map(|copies| copies[place_of(vertex)]).collect();
        let where_negated = |negated: fn(usize) -> bool| -> Vec<[i64; 4]> {
            old.iter().zip(&copies).map(|(entry, copies)| if negated(*copies) { entry.map(|c| -c) } else { *entry }).collect()
        };
        let entries = match self.fault {
            Fault::FlipKeepsTheEntries => old,
            Fault::FlipByTheOtherParity => where_negated(|copies| copies % 2 == 0),
            Fault::FlipOfSingleCopies => where_negated(|copies| copies == 1),
            Fault::FlipOfAnyCopies => where_negated(|copies| copies > 0),
            Fault::FlipKeepsTheWeights => right.iter().zip(&old).map(|([x, y, z, _], [_, _, _, w])| [*x, *y, *z, *w]).collect(),
            Fault::FlipKeepsTheLastEntry => [&right[..right.len() - 1], &old[old.len() - 1..]].concat(),
            // in even degrees, where a second one undoes it
            Fault::FlipReversesTheNet if shape.kind == Kind::Curve && shape.degrees[0] % 2 == 0 => {
                right.into_iter().rev().collect()
            }
            Fault::FlipBySignOfTheFirstVertex if vertex > 1 && before.0[FRAME] < 0 => {
                let [x, y, z, w] = right[0];
                [&[[-x, y, z, w]], &right[1..]].concat()
            }
            _ => return,
        };
        net.write_entries(&entries);
    }

    /// What a flip leaves in places that it should not touch.
    fn spoil_what_is_kept(&self, net: &mut Net, before: &Net, shape: Shape, vertex: u8) {
        let (handed, right) = (before.claimed(), before.most(shape));
        // no maximum is that large, so nothing but another flip touches it before a replace is taken
        let far = handed.unsigned_abs() > 1 << 50;
        match self.fault {
            Fault::FlipWorksOutTheLargestSometimes if handed == right - 1 => net.0[LARGEST] = right,
            Fault::FlipChangesAWrongLargestByTheVertex if far && vertex == 1 => net.0[LARGEST] = handed.wrapping_neg(),
            Fault::FlipChangesAWrongLargestByTheVertex if far => net.0[LARGEST] = !handed,
            Fault::FlipNegatesTheLargest => net.0[LARGEST] = handed.wrapping_neg(),
            Fault::FlipClearsPlacesAfterTheEntries => net.0[ENTRIES + 4 * shape.places()..LARGEST].fill(0),
            Fault::FlipClearsPlacesAfterTheFrame => net.0[FRAME + shape.kind.frame_numbers()..ENTRIES].fill(0),
            Fault::FlipClearsPlacesAfterTheNet => net.0[PLACES..].fill(0),
            _ => {}
        }
    }

    fn replace(&mut self, net: &mut Net, shape: Shape, vertex: u8, weights: Weights) -> Result<(), u8> {
        if !(1..=shape.vertices()).contains(&usize::from(vertex)) {
            return Model.take(net, REPLACE, vertex, weights);
        }
        let (before, flipped) = (net.clone(), self.flipped.take());
        let exchanged = self.is(Fault::ReplaceInTheOtherPair) && shape.kind == Kind::Rect;
        let replaced = if exchanged { (vertex + 1) % 4 + 1 } else { vertex };
        let answer = Model.take(net, REPLACE, replaced, self.read_weights(net, shape, vertex, weights));
        let answer = self.judged(net, shape, vertex, weights, answer);
        if answer.is_err() {
            *net = before.clone();
        }
        match (self.fault, answer) {
            (Fault::ReplaceDoesNothing, Ok(())) => *net = before,
            (Fault::ReplaceKeepsTheFrame, Ok(())) => net.write_frame(before.frame(shape)),
            (Fault::LargestWithItsSign, Ok(())) => net.0[LARGEST] = net.numbers(shape).iter().copied().max().unwrap_or(0),
            (Fault::RefusalLeavesTheNewVertex, Err(10)) => {
                net.write_vertex(shape, vertex, &before.new_vertex(shape, REPLACE, vertex, weights));
            }
            (Fault::RefusalLeavesHalfANet, Err(10)) => net.0[ENTRIES] = (net.0[ENTRIES] + 1).min(RANGE),
            (Fault::RefusalWritesTheLargest, Err(_)) => net.0[LARGEST] = before.most(shape),
            // so that the two ways of the last law end alike, at the old net or at the flipped one
            (Fault::RefusalTakesBackAFlip, Err(_)) => *net = flipped.map_or(before, |(_, old)| old),
            (Fault::RefusalFlipsTheVertex, Err(_)) if flipped.is_none_or(|(last, _)| last != vertex) => {
                Model.take(net, FLIP, vertex, NO_WEIGHTS)?;
            }
            _ => {}
        }
        answer
    }

    /// The weights as a library takes them.
    fn read_weights(&self, net: &Net, shape: Shape, vertex: u8, weights: Weights) -> Weights {
        let (_, seat) = seats(shape.kind, vertex);
        let mut read = weights;
        match self.fault {
            Fault::AbsoluteWeights => read = weights.map(i64::saturating_abs),
            Fault::AbsoluteOwnWeight => read[seat] = weights[seat].saturating_abs(),
            Fault::AbsoluteOtherWeights => {
                read = weights.map(i64::saturating_abs);
                read[seat] = weights[seat];
            }
            Fault::WeightsExchanged => read.swap(0, 1),
            Fault::NegatedByTheOtherPair if shape.kind == Kind::Rect => {
                let other = 1 - shape.kind.group_of(place_of(vertex));
                if net.0[FRAME + 4 * other] < 0 {
                    read[0] = weights[0].wrapping_neg();
                }
            }
            _ => {}
        }
        read
    }

    /// What a library answers that refuses more than it should, or with another number.
    fn judged(&self, net: &Net, shape: Shape, vertex: u8, weights: Weights, answer: Result<(), u8>) -> Result<(), u8> {
        let (_, seat) = seats(shape.kind, vertex);
        let mut others = weights;
        others[seat] = 0;
        match self.fault {
            Fault::SizeIsTwelveForANegativeOwnWeight if answer == Err(10) && weights[seat] < 0 => Err(12),
            Fault::SizeIsTwelveForANegativeOtherWeight if answer == Err(10) && others.iter().any(|weight| *weight < 0) => Err(12),
            Fault::LeastWeightRefused if weights.contains(&-4096) => Err(8),
            Fault::NegativeOwnWeightRefused if answer.is_ok() && weights[seat] < 0 => Err(9),
            Fault::LimitRefusedForOneSign if answer.is_ok() && net.numbers(shape).contains(&RANGE) => Err(10),
            _ => answer,
        }
    }
}

impl Library for Spoiled {
    fn take(&mut self, net: &mut Net, operation: u8, vertex: u8, weights: Weights) -> Result<(), u8> {
        match (operation, net.shape()) {
            (FLIP, Some(shape)) => {
                let before = net.clone();
                self.flip(net, shape, vertex, weights)?;
                self.flipped = Some((vertex, before));
                Ok(())
            }
            (REPLACE, Some(shape)) => self.replace(net, shape, vertex, weights),
            _ => Model.take(net, operation, vertex, weights),
        }
    }

    fn read(&mut self, record: &[u8], net: &mut Net) -> Result<(), Refusal> {
        self.flipped = None;
        Model.read(record, net)
    }

    fn first(&mut self, given: &Given, net: &mut Net) -> Result<(), u8> {
        Model.first(given, net)
    }

    fn find(&mut self, net: &Net, weights: Weights, found: &mut [i64]) -> Result<(), u8> {
        Model.find(net, weights, found)
    }

    fn project(&mut self, point: [i64; 4], room: &mut Room) -> u8 {
        Model.project(point, room)
    }

    fn project_found(&mut self, found: &[i64], room: &mut Room) -> u8 {
        Model.project_found(found, room)
    }

    fn text(&mut self, record: &[u8], buffer: &mut [u8]) -> Result<usize, u8> {
        Model.text(record, buffer)
    }

    fn field(&mut self, record: &[u8], tag: u8) -> Lookup {
        Model.field(record, tag)
    }
}

/// With nothing that never occurs, from several seeds, and each law alone.
#[test]
fn the_laws_hold_of_the_model() {
    for seed in 1..=3 {
        assert_eq!(run_laws(&mut Model, NETS, seed).unwrap().missing(), Vec::<String>::new());
    }
    for law in Law::ALL {
        run_some_laws(&mut Model, &[law], NETS, 7).unwrap();
    }
}

#[test]
fn every_fault_is_found() {
    for (fault, breaks) in FAULTS {
        let what = run_laws(&mut Spoiled::new(fault), NETS, 7).err().unwrap_or_else(|| panic!("{fault:?} was not found"));
        println!("{fault:?}: {}", what.chars().take(90).collect::<String>());
        let broken = |law: &Law| run_some_laws(&mut Spoiled::new(fault), &[*law], NETS, 7).is_err();
        let found_by: Vec<Law> = Law::ALL.into_iter().filter(broken).collect();
        assert_eq!(found_by, breaks, "{fault:?}");
    }
}

#[test]
fn no_law_follows_from_the_others() {
    for law in Law::ALL {
        assert!(FAULTS.iter().any(|(_, breaks)| *breaks == [law]), "{law:?}");
    }
}
