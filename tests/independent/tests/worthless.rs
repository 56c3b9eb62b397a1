//! Libraries that are wrong in one place each, the paper's worthless boards among
//! them. The comparison must find every one.

mod divisions;

use divisions::{Division, Used};
use independent::calls::{place_of, Answer, Call, Weights, FLIP, REPLACE};
use independent::compare::{compare_calls, judge_calls};
use independent::counts::OF_A_LIBRARY;
use independent::first::Given;
use independent::handed::{largest, Net, ENTRIES, FRAME, LARGEST, PLACES};
use independent::library::{Library, Model};
use independent::named::{is_beyond, named, Name, GROUPS};
use independent::polar::{scale, trinomial};
use independent::projection::{project, project_found, project_into, Projection, Room, COORDINATES, DIRECTION, FOUND};
use independent::record::{read_with_net, told_kind, Lookup, Refusal};
use independent::shape::{in_range, Copies, Kind, Shape, RANGE};
use independent::text::{outcome, text, write, Outcome};

/// How many wrong libraries there are.
const FAULTS: usize = 253;

#[derive(Clone, Copy, Debug, PartialEq)]
enum Fault {
    None,
    FlipDoesNothing,
    ReplaceDoesNothing,
    SecondNetReversed,
    RefusesBeforeTheLimit,
    RefusesAfterTheLimit,
    LooksOnlyAtTheNewNet,
    LooksOnlyAtThePointFound,
    SaysTenTooSoon,
    NineBeforeEight,
    StoresHalf,
    WritesPastTheEntries,
    WritesTheFramesPlaces,
    WritesPastTheNet,
    SecondDegreeNotLookedAt,
    SecondDegreeKept,
    KindByItsLowByte,
    LooksPastTheEntries,
    TakesShortRuns,
    RefusesLongerRuns,
    PointWithoutRoom,
    PointPastItsPlaces,
    FirstNetLooksAtUnusedCoefficients,
    FirstNetLooksAtUnusedFrameNumbers,
    FirstNetZeroesTheRest,
    FirstNetWithoutRoom,
    NegativeZero,
    DirectionNotTurned,
    DirectionNotReduced,
    LengthTurned,
    LengthOfTwo,
    ComponentForLength,
    LengthLeftOut,
    DirectionInThreePlaces,
    NowhereForDirections,
    ProjectsAnything,
    WritesShortBuffers,
    WritesPastTheText,
    RefusedRecordMakesANet,
    OffsetOfTheValue,
    TakesHandedNetsOutOfRange,
    ThirdWeightOfACurve,
    OutcomeKeptBesideARefusal,
    OutcomeInTheNumber,
    ProjectionWithoutRoom,
    RangeBeforeRoom,
    ProjectionPastItsPlaces,
    DirectionClearedBesideAPoint,
    FieldsOfRecordsRefusedSeven,
    FieldsOfEveryRecord,
    FieldWithoutTheNumber,
    FieldFromItsTag,
    FieldLengthByItsLowByte,
    AbsentFieldAtTheStart,
    EmptyFieldAtTheEnd,
    TagByItsLowBits,
    FourthWeightOfAMove,
    FourthWeightOfAPoint,
    ThreeBytesForACurve,
    PairsExchanged,
    PairsOfAPointExchanged,
    SecondStageLeftOut,
    SymmetricSizeTest,
    SecondPairIdle,
    ThirdWeightOfARect,
    FlipOnlyInTheFirstPair,
    OneScaleForBothPairs,
    EntriesJThenI,
    OneDeterminantOfARecord,
    OneDeterminantOfAFirstNet,
    FirstNetOfARectNeverTooLarge,
    SecondDegreePrintedFirst,
    FrameKept,
    FrameKeptByAFlip,
    FrameKeptByAReplace,
    NewVertexInTheNextPlace,
    QOfTheOtherPair,
    RefusalLeavesTheNewVertex,
    TwelveAfterSize,
    TwelveAfterSizeOfAPoint,
    TwelveBeforeEight,
    TwelveBeforeNine,
    TwelveBeforeTheEntries,
    FrameLimitOneLess,
    FrameLimitOneMore,
    QNotTested,
    NegativeQNotTested,
    LastNumberOfQNotTested,
    PointsQTested,
    HandedFrameNotTested,
    HandedFrameNotTestedByFlips,
    HandedFrameNotTestedByPoints,
    HandedFrameNotTestedByReplaces,
    NegativeFramesNotTested,
    OnlyTheOwnPairTested,
    OnlyTheMovedVertexTested,
    UnusedFramePlacesTested,
    HandedDeterminantTested,
    FirstNetWithoutItsFrame,
    RecordsNetWithoutItsFrame,
    FirstNetZeroesTheFramesRest,
    TextWithoutTheFrame,
    TextWithTheRecordsFrame,
    TextWithTheFrameBeforeTheMoves,
    TextWithTheFrameLast,
    LargestKeptByAReplace,
    LargestOfTheOldNet,
    LargestNeverFalling,
    LargestOfOldAndNew,
    LargestWorkedOutByAFlip,
    LargestNegatedByAFlip,
    LargestOfAFlipWithoutSign,
    LargestInRangeAfterAFlip,
    LargestCleared,
    LargestWithTheSignNotDropped,
    LargestWithItsSign,
    LargestOfNegativesOneLess,
    LargestWithoutTheLastEntry,
    LargestWithoutTheFirstEntry,
    LargestWithoutTheWeights,
    LargestOfTheLastRow,
    LargestOverPlacesNotInUse,
    LargestOverTheFrameToo,
    LargestInThirtyTwoBits,
    LargestAfterTheEntries,
    LargestInTheLastPlace,
    WrongLargestRefused,
    NegativeLargestRefused,
    LargestBeyondTheRangeRefused,
    LargestWrittenOnARefusal,
    LargestWrittenOnARefusalForSize,
    LargestLeftByAFirstNet,
    LargestLeftByARecordsNet,
    LargestOfTheCoefficients,
    LargestOfAFirstNetNeverFalling,
    LargestWrittenByARefusedFirstNet,
    TextWithTheLargest,
    LargestJudgedByAPoint,
    LargestClearedByAFlip,
    LeavesOut(LeftOut),
    TagsModulo(u16),
    LengthsModulo(u16),
    FieldsFourAndFiveExchanged,
    RefusesABufferOfTheTextsLength,
    ZeroNotProjected,
    ZeroByRAlone,
    ZeroBySAlone,
    ZeroByTheWeightOfR,
    ZeroLeavesOut(usize),
    ZeroScanEndsBeforeM,
    ZeroByTheNextOne,
    ZeroOfEachComponent,
    ZeroByTheWeightAlone,
    ZeroReduced,
    ZeroNegated,
    ZeroTimesTheBinomial,
    ZeroOverAFlatFrameNowhere,
    ZeroAtVerticesAlone,
    ZerosOfAPatchScanned(Kind),
    FoundReplacedByTheNumbersProjected,
    ProjectedAtZerosAlone,
    ProjectedOfPatchesNotWritten,
    ProjectedOnARefusal,
    FourPlacesEnough,
    SevenPlacesEnough,
    LengthKept,
    LengthOneEverywhere,
    LengthByTheWeightOfTheFirstFour,
    LengthByThreeOfTheFirstFour,
    LengthByTheSecondFour,
    FoundByTheFirstFour,
    FoundJudgesTheFirstFour,
    FoundJudgesBothFours,
    FoundOfAnyRange,
    FoundOfFourNumbers,
    FoundOfSevenNumbers,
    FoundOfEightNumbersAlone,
    FoundOutcomeKept,
    FoundRangeBeforeRoom,
    FoundWithoutRoom,
    TextZeroNowhere,
    TextLengthKept,
    TextLengthOne,
    Divides(Division, Used),
}

/// A size test that does not look at some of the values that a replace or a point names: in one group of one
/// kind, those of q and these points.
#[derive(Clone, Copy, Debug, PartialEq)]
struct LeftOut {
    point: bool,
    kind: Kind,
    group: usize,
    with_q: WithQ,
}

/// Of a replace, `AnyVertex` leaves the value of q alone as the only one with q that is looked at, and
/// `TheReplacedVertex` those that the new net has. Two vertices are every vertex but on a triangular patch.
#[derive(Clone, Copy, Debug, PartialEq)]
enum WithQ {
    EveryVertex,
    TwoVertices,
    AnyVertex,
    TheReplacedVertex,
}

impl WithQ {
    const ALL: [WithQ; 4] =
        [WithQ::EveryVertex, WithQ::TwoVertices, WithQ::AnyVertex, WithQ::TheReplacedVertex];
}

impl LeftOut {
    fn all() -> Vec<LeftOut> {
        let mut all = Vec::new();
        for (kind, group) in GROUPS {
            for with_q in WithQ::ALL {
                for point in [false, true] {
                    let nothing_new = with_q == WithQ::TwoVertices && kind != Kind::Patch;
                    if !nothing_new && !(point && with_q == WithQ::TheReplacedVertex) {
                        all.push(LeftOut { point, kind, group, with_q });
                    }
                }
            }
        }
        all
    }

    /// Whether this value of a call is not looked at.
    fn has(self, shape: Shape, call: &Call, name: Name) -> bool {
        let (is_point, replaced) = match *call {
            Call::Move { vertex, .. } => (false, name.copies[place_of(vertex)] > 0),
            Call::Point { .. } => (true, false),
        };
        let here = is_point == self.point && shape.kind == self.kind && name.is_mixed(shape, self.group);
        here && match self.with_q {
            WithQ::EveryVertex => name.has_every_vertex(shape, self.group),
            WithQ::TwoVertices => name.different_vertices(shape, self.group) > 1,
            WithQ::AnyVertex => true,
            WithQ::TheReplacedVertex => replaced,
        }
    }

    /// The values of a call that is refused for size, if each one that is beyond is not looked at.
    fn overlooked(self, net: &Net, call: &Call) -> Option<Vec<(Name, [i128; 4])>> {
        let shape = net.judged(call).ok()?;
        let values = named(shape, &net.used(shape), call)?;
        values.iter().all(|(name, value)| !is_beyond(value) || self.has(shape, call, *name)).then_some(values)
    }

    /// A replace that is refused for size, taken where nothing else is beyond.
    fn take(self, net: &mut Net, vertex: u8, weights: Weights) -> Option<()> {
        let call = Call::Move { operation: REPLACE, vertex, weights };
        let values = self.overlooked(net, &call)?;
        let (shape, at) = (net.shape()?, place_of(vertex));
        let group = shape.kind.group_of(at);
        let entry = |copies: Copies| {
            let mut name = Name { q: [0; 2], copies };
            (name.q[group], name.copies[at]) = (copies[at], 0);
            values.iter().find(|(other, _)| *other == name).map(|(_, value)| *value)
        };
        let entries = shape.copies().into_iter().map(entry).collect::<Option<Vec<_>>>()?;
        let new = net.new_vertex(shape, REPLACE, vertex, weights);
        net.write(shape, &narrow(&entries));
        net.write_vertex(shape, vertex, &new);
        Some(())
    }

    /// A point that is refused for size, found where nothing else is beyond.
    fn find(self, net: &Net, weights: Weights) -> Option<[i64; 4]> {
        let values = self.overlooked(net, &Call::Point { weights })?;
        let (_, last) = values.iter().find(|(name, _)| name.copies == [0; 4])?;
        Some(last.map(|component| component as i64))
    }
}

/// What a fault in the largest component does not touch.
#[derive(Clone, Copy, Debug, PartialEq)]
enum Spared {
    Nothing,
    FirstNets,
    Replaces,
}

struct Spoiled {
    fault: Fault,
    spared: Spared,
    model: Model,
}

impl Spoiled {
    fn is(&self, fault: Fault) -> bool {
        self.fault == fault
    }

    /// A place that no call writes, where the fault is to write one.
    fn written_place(&self, net: &Net) -> Option<usize> {
        let place = match self.fault {
            Fault::WritesPastTheEntries => 191,
            Fault::WritesTheFramesPlaces => 11,
            Fault::WritesPastTheNet => PLACES,
            _ => return None,
        };
        let in_use = (place == 191 && net.0[..2] == [2, 8]) || (place == 11 && net.0[0] == 2);
        (place < net.0.len() && !in_use).then_some(place)
    }

    fn write_elsewhere(&self, net: &mut Net) {
        if let Some(place) = self.written_place(net) {
            net.0[place] = 0;
        }
    }

    /// What a first net leaves in the places of the frame, which held `before`.
    fn spoil_first_frame(&self, net: &mut Net, before: &[i64]) {
        let Some(shape) = net.shape() else { return };
        let used = shape.kind.frame_numbers();
        match self.fault {
            Fault::FirstNetWithoutItsFrame | Fault::RecordsNetWithoutItsFrame => net.write_frame(&before[FRAME..FRAME + used]),
            Fault::FirstNetZeroesTheFramesRest => net.0[FRAME + used..ENTRIES].fill(0),
            _ => {}
        }
    }

    /// What a library takes for the largest component of a net that it made, where `before` stood
    /// and, for a first net, of these coefficients.
    fn wrong_largest(&self, net: &Net, before: &Net, shape: Shape, coefficients: &[i64]) -> Option<i64> {
        let (entries, numbers) = (net.used(shape), net.numbers(shape));
        let absolute = |numbers: &[i64]| numbers.iter().map(|number| number.saturating_abs()).max().unwrap_or(0);
        let (right, handed) = (largest(&entries), before.claimed());
        Some(match self.fault {
            Fault::LargestWithTheSignNotDropped => *numbers.iter().max()?,
            Fault::LargestWithItsSign => *numbers.iter().rev().find(|number| number.abs() == right)?,
            Fault::LargestOfNegativesOneLess => numbers.iter().map(|number| if *number < 0 { !number } else { *number }).max()?,
            Fault::LargestWithoutTheLastEntry => largest(&entries[..entries.len() - 1]),
            Fault::LargestWithoutTheFirstEntry => largest(&entries[1..]),
            Fault::LargestWithoutTheWeights => largest(&entries.iter().map(|[x, y, z, _]| [*x, *y, *z, 0]).collect::<Vec<_>>()),
            Fault::LargestOfTheLastRow if shape.kind == Kind::Rect => largest(&entries[entries.len() - shape.degrees[1] - 1..]),
            Fault::LargestOverPlacesNotInUse => absolute(&net.0[ENTRIES..LARGEST]),
            Fault::LargestOverTheFrameToo => right.max(absolute(net.frame(shape))),
            Fault::LargestInThirtyTwoBits => i64::from(right as i32),
            Fault::LargestCleared => 0,
            Fault::LargestKeptByAReplace if coefficients.is_empty() => handed,
            Fault::LargestOfTheOldNet if coefficients.is_empty() => before.most(shape),
            Fault::LargestOfOldAndNew if coefficients.is_empty() => right.max(before.most(shape)),
            Fault::LargestNeverFalling if coefficients.is_empty() => right.max(handed),
            Fault::LargestOfAFirstNetNeverFalling if !coefficients.is_empty() => right.max(handed),
            Fault::LargestOfTheCoefficients if !coefficients.is_empty() => absolute(coefficients),
            _ => return None,
        })
    }

    /// A net that was made where `before` stood, by a replace or, of these coefficients, as a first one.
    fn spoil_largest(&self, net: &mut Net, before: &Net, coefficients: &[i64]) {
        let Some(shape) = net.shape() else { return };
        if self.spared == (if coefficients.is_empty() { Spared::Replaces } else { Spared::FirstNets }) {
            return;
        }
        if let Some(wrong) = self.wrong_largest(net, before, shape, coefficients) {
            net.0[LARGEST] = wrong;
        }
        let elsewhere = match self.fault {
            Fault::LargestAfterTheEntries => ENTRIES + 4 * shape.places(),
            Fault::LargestInTheLastPlace => net.0.len() - 1,
            _ => return,
        };
        let right = std::mem::replace(&mut net.0[LARGEST], before.claimed());
        net.0[elsewhere] = right;
    }

    /// A move that is wrong in the largest component alone. Nothing if this fault has no say here.
    fn spoil_largest_of_a_move(&self, net: &mut Net, before: &Net, answer: Result<(), u8>, operation: u8) -> Option<Result<(), u8>> {
        let shape = if before.is_short() { None } else { before.shape() };
        let (shape, handed) = (shape?, before.claimed());
        match (self.fault, answer) {
            (Fault::WrongLargestRefused, Ok(())) if handed != before.most(shape) => return refused(net, before),
            (Fault::NegativeLargestRefused, Ok(())) if handed < 0 => return refused(net, before),
            (Fault::LargestBeyondTheRangeRefused, Ok(())) if !in_range(handed) => return refused(net, before),
            (Fault::LargestWrittenOnARefusal, Err(_)) => net.0[LARGEST] = before.most(shape),
            (Fault::LargestWrittenOnARefusalForSize, Err(10)) if usable(before, shape) => net.0[LARGEST] = 0,
            (Fault::LargestWorkedOutByAFlip, Ok(())) if operation == FLIP => net.0[LARGEST] = net.most(shape),
            (Fault::LargestNegatedByAFlip, Ok(())) if operation == FLIP => net.0[LARGEST] = handed.wrapping_neg(),
            (Fault::LargestOfAFlipWithoutSign, Ok(())) if operation == FLIP => net.0[LARGEST] = handed.saturating_abs(),
            (Fault::LargestInRangeAfterAFlip, Ok(())) if operation == FLIP => net.0[LARGEST] = handed.clamp(-RANGE, RANGE),
            (Fault::LargestClearedByAFlip, Ok(())) if operation == FLIP => net.0[LARGEST] = 0,
            (_, Ok(())) if operation == REPLACE => self.spoil_largest(net, before, &[]),
            _ => {}
        }
        None
    }

    /// Whether a move that is refused 12 passes where the test is as this fault has it.
    fn overlooks(&self, net: &Net, shape: Shape, operation: u8, vertex: u8, weights: Weights) -> bool {
        let q = if operation == REPLACE { net.new_vertex(shape, operation, vertex, weights) } else { Vec::new() };
        let largest = q.iter().map(|number| number.abs()).max().unwrap_or(0);
        let (frame_good, q_good, limit) = (net.frame_in_range(shape), largest <= i128::from(RANGE), i128::from(RANGE));
        let good = |places: std::ops::Range<usize>| net.0[places].iter().all(|&number| in_range(number));
        match self.fault {
            Fault::FrameLimitOneMore => frame_good && largest == limit + 1,
            Fault::QNotTested => frame_good,
            Fault::NegativeQNotTested => frame_good && q.iter().all(|number| *number <= limit),
            Fault::LastNumberOfQNotTested => frame_good && q.iter().rev().skip(1).all(|number| number.abs() <= limit),
            Fault::HandedFrameNotTested => q_good,
            Fault::HandedFrameNotTestedByFlips => operation == FLIP,
            Fault::HandedFrameNotTestedByReplaces => operation == REPLACE && q_good,
            Fault::NegativeFramesNotTested => q_good && net.frame(shape).iter().all(|&number| number <= RANGE),
            Fault::OnlyTheMovedVertexTested => q_good && good(Net::vertex_places(shape, vertex)),
            Fault::OnlyTheOwnPairTested if shape.kind == Kind::Rect => {
                let pair = FRAME + 4 * shape.kind.group_of(place_of(vertex));
                q_good && good(pair..pair + 4)
            }
            _ => false,
        }
    }

    /// A move without the test for 12, on a net and with weights that are else in order.
    fn take_unjudged(&mut self, net: &mut Net, shape: Shape, operation: u8, vertex: u8, weights: Weights) -> Result<(), u8> {
        let mut moved = over_zeros(net, shape);
        self.model.take(&mut moved, operation, vertex, weights)?;
        moved.write_frame(net.frame(shape));
        moved.write_vertex(shape, vertex, &net.new_vertex(shape, operation, vertex, weights));
        *net = moved;
        Ok(())
    }

    /// Moves that are wrong in the frame alone: what they leave in its places, and what they answer
    /// for it. Nothing if this fault has no say here.
    fn spoil_frame(
        &mut self,
        (net, before): (&mut Net, &Net),
        answer: Result<(), u8>,
        (operation, vertex, weights): (u8, u8, Weights),
    ) -> Option<Result<(), u8>> {
        let shape = if before.is_short() { None } else { before.shape() };
        let shape = shape?;
        let known = (1..=2).contains(&operation) && (1..=shape.vertices()).contains(&usize::from(vertex));
        let beyond = !before.frame_in_range(shape);
        match (self.fault, answer) {
            (_, Err(12)) if self.overlooks(before, shape, operation, vertex, weights) => {
                return Some(self.take_unjudged(net, shape, operation, vertex, weights));
            }
            (Fault::TwelveAfterSize, Err(12)) => {
                let size = self.model.take(&mut over_zeros(before, shape), operation, vertex, weights);
                return Some(if size == Err(10) { size } else { answer });
            }
            (Fault::TwelveBeforeEight, Err(8)) if beyond => return Some(Err(12)),
            (Fault::TwelveBeforeNine, Err(9)) => {
                let q = before.new_vertex(shape, operation, vertex, weights);
                let large = q.iter().any(|number| number.abs() > i128::from(RANGE));
                return Some(Err(if beyond || large { 12 } else { 9 }));
            }
            (Fault::TwelveBeforeTheEntries, Err(10)) if beyond => return Some(Err(12)),
            (Fault::RefusalLeavesTheNewVertex, Err(10)) if known && !beyond => {
                net.write_vertex(shape, vertex, &before.new_vertex(shape, operation, vertex, weights));
            }
            (Fault::UnusedFramePlacesTested, Ok(())) if !before.0[FRAME..ENTRIES].iter().all(|&number| in_range(number)) => {
                *net = before.clone();
                return Some(Err(12));
            }
            (Fault::HandedDeterminantTested, Ok(())) if shape.kind == Kind::Curve && flat(before.frame(shape)) => {
                *net = before.clone();
                return Some(Err(12));
            }
            (Fault::FrameLimitOneLess, Ok(())) if operation == REPLACE && net.frame(shape).iter().any(|number| number.abs() == RANGE) => {
                *net = before.clone();
                return Some(Err(12));
            }
            (Fault::FrameKept, Ok(())) => net.write_frame(before.frame(shape)),
            (Fault::FrameKeptByAFlip, Ok(())) if operation == FLIP => net.write_frame(before.frame(shape)),
            (Fault::FrameKeptByAReplace, Ok(())) if operation == REPLACE => net.write_frame(before.frame(shape)),
            (Fault::NewVertexInTheNextPlace, Ok(())) => {
                net.write_frame(before.frame(shape));
                let next = place_of(vertex + 1) % shape.vertices();
                net.write_vertex(shape, next as u8 + 1, &before.new_vertex(shape, operation, vertex, weights));
            }
            (Fault::QOfTheOtherPair, Ok(())) if operation == REPLACE && shape.kind == Kind::Rect => {
                let other = 1 - shape.kind.group_of(place_of(vertex));
                net.write_vertex(shape, vertex, &before.named(shape, other, &weights));
            }
            _ => return None,
        }
        Some(answer)
    }

    /// A point that is wrong in its test of the frame.
    fn spoil_point(&mut self, net: &Net, answer: Result<(), u8>, weights: Weights, found: &mut [i64]) -> Option<Result<(), u8>> {
        let shape = if net.is_short() { None } else { net.shape() };
        let shape = shape?;
        let beyond = |(group, weights): (usize, Vec<i64>)| net.named(shape, group, &weights).iter().any(|n| n.abs() > i128::from(RANGE));
        match (self.fault, answer) {
            (Fault::LargestJudgedByAPoint, Ok(())) if !in_range(net.claimed()) => return Some(Err(10)),
            (Fault::PointsQTested, Ok(())) => {
                let large = shape.kind.grouped(&weights).into_iter().enumerate().any(beyond);
                return Some(if large { Err(12) } else { answer });
            }
            (Fault::TwelveAfterSizeOfAPoint, Err(12)) => {
                let size = self.model.find(&over_zeros(net, shape), weights, &mut [0; FOUND]);
                return Some(if size == Err(10) { size } else { answer });
            }
            (Fault::NegativeFramesNotTested, Err(12)) if net.frame(shape).iter().any(|&number| number > RANGE) => return None,
            (Fault::HandedFrameNotTested | Fault::HandedFrameNotTestedByPoints | Fault::NegativeFramesNotTested, Err(12)) => {
                return Some(self.model.find(&over_zeros(net, shape), weights, found));
            }
            (Fault::TwelveBeforeNine, Err(9)) | (Fault::TwelveBeforeEight, Err(8)) if !net.frame_in_range(shape) => {
                return Some(Err(12));
            }
            _ => None,
        }
    }

    /// The numbers projected, wrong at a common zero of a curve or elsewhere, in the places for a point,
    /// which held `lent`. Nothing if this fault has no say here.
    fn spoil_projected(&self, net: &Net, weights: Weights, (found, lent): (&mut [i64], &[i64]), answer: Result<(), u8>) -> Option<()> {
        let eight = found.first_chunk_mut::<FOUND>()?;
        let (point, projected) = eight.split_at_mut(4);
        if answer.is_err() {
            return self.is(Fault::ProjectedOnARefusal).then(|| projected.fill(0));
        }
        let (shape, zero) = (net.shape()?, point == [0; 4]);
        let zero_of_a_curve = zero && shape.kind == Kind::Curve;
        let wrong = match self.fault {
            Fault::FoundReplacedByTheNumbersProjected => {
                point.copy_from_slice(projected);
                return Some(());
            }
            Fault::ProjectedAtZerosAlone if !zero => [lent[4], lent[5], lent[6], lent[7]],
            Fault::ProjectedOfPatchesNotWritten if shape.kind != Kind::Curve => [lent[4], lent[5], lent[6], lent[7]],
            Fault::ZerosOfAPatchScanned(kind) if zero && kind == shape.kind => *net.used(shape).iter().find(|entry| **entry != [0; 4])?,
            _ if zero_of_a_curve => self.wrong_at_a_zero(net, shape, weights, [projected[0], projected[1], projected[2], projected[3]])?,
            _ => return None,
        };
        projected.copy_from_slice(&wrong);
        Some(())
    }

    /// What a library takes for the numbers projected at a common zero of a curve, where these are right.
    fn wrong_at_a_zero(&self, net: &Net, shape: Shape, weights: Weights, right: [i64; 4]) -> Option<[i64; 4]> {
        let degree = shape.degrees[0];
        let polar = |vertex: usize, d: usize| {
            let mut copies = [0; 4];
            copies[vertex] = d;
            expand(net, shape, copies, &vec![(0, &weights[..2]); degree - d]).map(|number| number as i64)
        };
        let first = |values: Vec<[i64; 4]>| values.into_iter().find(|value| *value != [0; 4]).unwrap_or([0; 4]);
        let scan = |vertex: usize| (1..=degree).map(|d| polar(vertex, d)).collect::<Vec<_>>();
        let other = if weights[1] == 0 { 1 } else { 0 };
        let order = net.left(shape, weights)?.order;
        let divisor = right.iter().fold(0, |found, number| divisor(found, number.abs()));
        Some(match self.fault {
            Fault::ZeroNotProjected => [0; 4],
            Fault::ZeroByRAlone => first(scan(0)),
            Fault::ZeroBySAlone => first(scan(1)),
            Fault::ZeroByTheWeightOfR => first(scan(if weights[0] == 0 { 0 } else { 1 })),
            Fault::ZeroLeavesOut(left_out) => first((1..=degree).filter(|d| *d != left_out).map(|d| polar(other, d)).collect()),
            Fault::ZeroScanEndsBeforeM => first((1..degree).map(|d| polar(other, d)).collect()),
            Fault::ZeroByTheNextOne => polar(other, degree.min(order + 1)),
            Fault::ZeroOfEachComponent => {
                let values = scan(other);
                [0, 1, 2, 3].map(|c| values.iter().map(|value| value[c]).find(|number| *number != 0).unwrap_or(0))
            }
            Fault::ZeroByTheWeightAlone => scan(other).into_iter().find(|value| value[3] != 0).unwrap_or([0; 4]),
            Fault::ZeroReduced => right.map(|number| number / divisor),
            Fault::ZeroNegated => right.map(|number| -number),
            Fault::ZeroTimesTheBinomial => right.map(|number| number * trinomial(degree, (order, 0))),
            Fault::ZeroOverAFlatFrameNowhere if flat(net.frame(shape)) => [0; 4],
            Fault::ZeroAtVerticesAlone if weights[0] != 0 && weights[1] != 0 => [0; 4],
            _ => return None,
        })
    }

    /// A projection of what a point found that is wrong in itself. Nothing if this fault has no say here.
    fn spoil_projection_of_found(&mut self, found: &[i64], room: &mut Room) -> Option<u8> {
        let Some(&[a, b, c, d, x, y, z, w]) = found.first_chunk::<FOUND>() else {
            return match self.fault {
                Fault::FoundOfFourNumbers => found.first_chunk::<4>().map(|four| project_into(*four, room)),
                Fault::FoundOfSevenNumbers => found.get(4..7).map(|three| project_into([three[0], three[1], three[2], 0], room)),
                Fault::FoundOutcomeKept => Some(11),
                _ => None,
            };
        };
        let (first, second) = ([a, b, c, d], [x, y, z, w]);
        let (out, all_out) = (!first.iter().all(|&number| in_range(number)), !second.iter().all(|&number| in_range(number)));
        let far = |one: bool| match project(second) {
            Ok(Projection::Direction { x, y, z, .. }) if one => Ok(Projection::Direction { x, y, z, length: 1 }),
            answer => answer,
        };
        if room.is_short() {
            return match self.fault {
                Fault::FoundRangeBeforeRoom if all_out => Some(room.tell(Err(10))),
                Fault::FoundWithoutRoom if project(second) == Ok(Projection::Nowhere) => Some(room.tell(Ok(Projection::Nowhere))),
                _ => None,
            };
        }
        let answer = match self.fault {
            Fault::LengthKept => far(false),
            Fault::LengthOneEverywhere => far(true),
            Fault::LengthByTheWeightOfTheFirstFour => far(d == 0),
            Fault::LengthByThreeOfTheFirstFour => far([a, b, c] == [0; 3]),
            Fault::LengthByTheSecondFour => far(second == [0; 4]),
            Fault::FoundByTheFirstFour => project_found(first, first),
            Fault::FoundJudgesTheFirstFour if out || all_out => if out { Err(10) } else { Ok(Projection::Nowhere) },
            Fault::FoundJudgesBothFours if out => Err(10),
            Fault::FoundOfAnyRange if all_out => Ok(Projection::Nowhere),
            Fault::FoundOfEightNumbersAlone if found.len() > FOUND => Err(11),
            Fault::Divides(division, Used::AfterAPoint) => divided(division, second),
            Fault::Divides(division, Used::AtZeros) if first == [0; 4] => divided(division, second),
            _ => return None,
        };
        Some(room.tell(answer))
    }

    /// A text with the line of the point spoiled at a common zero of a curve, or with every length.
    fn spoil_point_line(&self, record: &[u8]) -> Option<String> {
        let mut outcome = outcome(record);
        let Outcome::Made { point: Some(Answer::Point { x, y, z, w, projected, projection }), .. } = &mut outcome else {
            return None;
        };
        let zero = [*x, *y, *z, *w] == [0; 4];
        match (self.fault, &mut *projection) {
            (Fault::TextZeroNowhere, _) if zero => *projection = Projection::Nowhere,
            (Fault::TextLengthKept, _) => *projection = project(*projected).ok()?,
            (Fault::TextLengthOne, Projection::Direction { length, .. }) => *length = 1,
            (Fault::Divides(division, Used::InTexts), _) => *projection = divided(division, *projected).ok()?,
            _ => return None,
        }
        Some(write(&outcome))
    }

    /// A text with the line of the frame spoiled.
    fn spoil_text(&self, record: &[u8]) -> Option<String> {
        if let Some(spoiled) = self.spoil_point_line(record) {
            return Some(spoiled);
        }
        let right = text(record);
        let lines: Vec<&str> = right.split_inclusive('\n').collect();
        let at = lines.iter().position(|line| line.starts_with("frame"))?;
        let mut others = lines.clone();
        let line = others.remove(at);
        match self.fault {
            Fault::TextWithoutTheFrame => {}
            Fault::TextWithTheFrameBeforeTheMoves => others.insert(1, line),
            Fault::TextWithTheFrameLast => others.push(line),
            Fault::TextWithTheLargest => {
                let (record, entries) = read_with_net(record).ok()?;
                let (before, after) = lines.split_at(at + 1 + entries.len());
                let most = format!("largest {}\n", largest(&entries));
                return record.moves.is_empty().then(|| [before.concat(), most, after.concat()].concat());
            }
            Fault::TextWithTheRecordsFrame => {
                let numbers = read_with_net(record).ok()?.0.frame_numbers();
                let line: String = numbers.iter().map(|number| format!(" {number}")).collect();
                return Some([&lines[..at].concat(), "frame", &line, "\n", &lines[at + 1..].concat()].concat());
            }
            _ => return None,
        }
        Some(others.concat())
    }

    /// A first net of a rectangular patch with the wrong scale or order.
    fn spoil_first_net(&self, net: &mut Net) {
        let Some(shape) = rect(net) else { return };
        let entries = net.used(shape);
        let second = scale(Shape::curve(shape.degrees[1]));
        match self.fault {
            Fault::OneScaleForBothPairs => net.write(shape, &entries.iter().map(|e| e.map(|c| c / second)).collect::<Vec<_>>()),
            Fault::EntriesJThenI => {
                let exchanged = Shape::rect(shape.degrees[1], shape.degrees[0]);
                net.write(shape, &net.with_pairs_exchanged(shape).used(exchanged));
            }
            _ => {}
        }
    }

    /// A point without the second stage of its size test: the first is that of a replace in
    /// the first pair.
    fn without_second_stage(&mut self, net: &Net, weights: Weights) -> Option<[i64; 4]> {
        let shape = rect(net)?;
        let vertex = if weights[0] != 0 { 1 } else { 2 };
        let mut moved = net.clone();
        self.model.take(&mut moved, REPLACE, vertex, [weights[0], weights[1], 0, 0]).ok()?;
        let mut copies = [0; 4];
        copies[usize::from(vertex) - 1] = shape.degrees[0];
        let value = expand(&moved, shape, copies, &vec![(1, &weights[2..]); shape.degrees[1]]);
        value.iter().all(|c| i64::try_from(*c).is_ok()).then(|| value.map(|c| c as i64))
    }

    /// The record as a library would see it that does not look at the high bits of tags or of lengths.
    fn misread_record(&self, record: &[u8]) -> Option<Vec<u8>> {
        let (tags, lengths) = match self.fault {
            Fault::TagsModulo(tags) => (tags, None),
            Fault::LengthsModulo(lengths) => (256, Some(lengths)),
            _ => return None,
        };
        let (mut read, mut at) = (record.to_vec(), 0);
        while let Some([tag, high, low]) = record.get(at..at + 3) {
            let length = u16::from_be_bytes([*high, *low]);
            let length = lengths.map_or(length, |lengths| length % lengths);
            read[at] = (u16::from(*tag) % tags) as u8;
            read[at + 1..at + 3].copy_from_slice(&length.to_be_bytes());
            at += 3 + usize::from(length);
        }
        Some(read)
    }

    /// The net as a library would see it that judges the head otherwise.
    fn misread(&self, net: &Net) -> Option<Net> {
        let mut read = net.clone();
        match self.fault {
            Fault::SecondDegreeNotLookedAt if !net.is_short() && (1..=2).contains(&net.0[0]) => read.0[2] = 0,
            Fault::KindByItsLowByte if !net.is_short() => read.0[0] &= 255,
            Fault::TakesShortRuns if net.0.len() == PLACES - 1 => read.0.push(0),
            Fault::RefusesLongerRuns if net.0.len() > PLACES => read.0.clear(),
            Fault::LooksPastTheEntries if !net.is_short() && net.shape().is_some_and(|s| s.places() < 45) => {
                let past = net.0[ENTRIES + 4 * net.shape().unwrap().places()];
                if !in_range(past) {
                    read.0[ENTRIES] = past;
                }
            }
            _ => return None,
        }
        Some(read)
    }
}

/// A point and the numbers projected, which are its own, in the places for both.
fn write_found(found: &mut [i64], point: [i64; 4]) {
    found[..FOUND].copy_from_slice(&[point, point].concat());
}

/// A call that is refused for the number in the place of the largest component.
fn refused(net: &mut Net, before: &Net) -> Option<Result<(), u8>> {
    *net = before.clone();
    Some(Err(10))
}

/// Points q to put in places of a net, each with its group.
type Qs<'a> = Vec<(usize, &'a [i64])>;

/// A replace that keeps only the new net, with its own limit and no other test.
fn plain_replace(net: &Net, shape: Shape, vertex: u8, weights: Weights) -> Vec<[i128; 4]> {
    let at = usize::from(vertex) - 1;
    let group = shape.kind.group_of(at);
    let value = |copies: Copies| {
        let mut others = copies;
        others[at] = 0;
        expand(net, shape, others, &vec![(group, &weights[..]); copies[at]])
    };
    shape.copies().into_iter().map(value).collect()
}

/// A point and nothing on the way to it.
fn plain_point(net: &Net, shape: Shape, weights: Weights) -> [i128; 4] {
    let of = |group: independent::shape::Group| vec![group; group.degree];
    let places = shape.groups().into_iter().flat_map(of);
    let qs: Qs = places.map(|group| (shape.kind.group_of(group.first), &weights[group.span()])).collect();
    expand(net, shape, [0; 4], &qs)
}

/// The polar value with these copies of the vertices and these points, by plain recursion.
fn expand(net: &Net, shape: Shape, copies: Copies, qs: &[(usize, &[i64])]) -> [i128; 4] {
    let Some(((group, weights), others)) = qs.split_first() else {
        let place = shape.copies().iter().position(|c| *c == copies).unwrap();
        return [0, 1, 2, 3].map(|c| i128::from(net.numbers(shape)[4 * place + c]));
    };
    let mut sum = [0; 4];
    for (vertex, &weight) in shape.groups()[*group].span().zip(*weights).filter(|(_, weight)| **weight != 0) {
        let mut longer = copies;
        longer[vertex] += 1;
        let part = expand(net, shape, longer, others);
        (0..4).for_each(|c| sum[c] += i128::from(weight) * part[c]);
    }
    sum
}

/// The same net over a frame of zeros, where no call is refused 12.
fn over_zeros(net: &Net, shape: Shape) -> Net {
    let mut other = net.clone();
    other.write_frame(&vec![0; shape.kind.frame_numbers()]);
    other
}

/// Whether the four numbers of a curve's frame have the determinant 0.
fn flat(frame: &[i64]) -> bool {
    i128::from(frame[0]) * i128::from(frame[3]) == i128::from(frame[1]) * i128::from(frame[2])
}

/// The shape of a net, if it is a rectangular patch.
fn rect(net: &Net) -> Option<Shape> {
    let shape = if net.is_short() { None } else { net.shape() };
    shape.filter(|shape| shape.kind == Kind::Rect)
}

/// Vertices 1 and 3, 2 and 4 for each other.
fn in_the_other_pair(vertex: u8) -> u8 {
    match vertex {
        1 | 2 => vertex + 2,
        3 | 4 => vertex - 2,
        _ => vertex,
    }
}

/// Whether eight numbers of a frame pass where the second determinant is not looked at.
fn first_pair_is_good(numbers: &[i64]) -> bool {
    numbers[..8].iter().all(|number| number.unsigned_abs() <= 4) && numbers[0] * numbers[3] != numbers[1] * numbers[2]
}

/// The numbers of the frame of a rectangular patch, where its bytes are whole.
fn frame_of_a_rect(record: &[u8]) -> Option<Vec<i64>> {
    let value = record.get(9..25).filter(|_| record[..3] == [1, 0, 3] && record[6..9] == [2, 0, 16])?;
    Some(value.chunks(2).map(|two| i64::from(i16::from_be_bytes([two[0], two[1]]))).collect())
}

/// Where a field lies, by tags and lengths alone.
fn walk(record: &[u8], tag: u8) -> Lookup {
    let mut at = 0;
    while let Some([own, high, low]) = record.get(at..at + 3) {
        let length = usize::from(*high) * 256 + usize::from(*low);
        if *own == tag && at + 3 + length <= record.len() {
            return Lookup { number: 0, start: at + 3, length };
        }
        at += 3 + length;
    }
    Lookup { number: 0, start: record.len(), length: 0 }
}

/// Refused for size alone, and small enough for plain recursion.
fn usable(net: &Net, shape: Shape) -> bool {
    shape.degrees.iter().all(|degree| *degree <= 3) && net.used(shape).iter().flatten().all(|c| in_range(*c))
}

fn within(values: &[[i128; 4]], limit: i64) -> bool {
    values.iter().flatten().all(|value| value.abs() <= i128::from(limit))
}

fn narrow(values: &[[i128; 4]]) -> Vec<[i64; 4]> {
    values.iter().map(|entry| entry.map(|c| c as i64)).collect()
}

impl Library for Spoiled {
    fn read(&mut self, record: &[u8], net: &mut Net) -> Result<(), Refusal> {
        if let (Fault::ThreeBytesForACurve, [1, 0, 3, 1 | 2, degree, 0, rest @ ..]) = (self.fault, record) {
            return self.model.read(&[&[1, 0, 2, record[3], *degree], rest].concat(), net);
        }
        if let Some(read) = self.misread_record(record) {
            return self.model.read(&read, net);
        }
        let lent = net.clone();
        let before = net.0.get(2).copied().unwrap_or(0);
        let answer = self.model.read(record, net);
        if let (Ok((read, _)), Ok(())) = (read_with_net(record), answer) {
            self.spoil_largest(net, &lent, &read.coefficients.concat());
        }
        match (self.fault, answer) {
            (Fault::LargestLeftByARecordsNet, Ok(())) => net.0[LARGEST] = lent.claimed(),
            (Fault::LargestWrittenByARefusedFirstNet, Err(Refusal { number: 7, .. })) => net.0[LARGEST] = RANGE,
            (Fault::RecordsNetWithoutItsFrame | Fault::FirstNetZeroesTheFramesRest, Ok(())) => self.spoil_first_frame(net, &lent.0),
            (Fault::OneScaleForBothPairs | Fault::EntriesJThenI, Ok(())) => self.spoil_first_net(net),
            (Fault::FirstNetOfARectNeverTooLarge, Err(Refusal { number: 7, .. })) if told_kind(record) == Some(Kind::Rect) => {
                return Ok(());
            }
            (Fault::OneDeterminantOfARecord, Err(Refusal { number: 5, .. })) if told_kind(record) == Some(Kind::Rect) => {
                let good = frame_of_a_rect(record).is_some_and(|numbers| first_pair_is_good(&numbers));
                return if good { Ok(()) } else { answer };
            }
            (Fault::RefusedRecordMakesANet, Err(_)) => net.0.iter_mut().take(1).for_each(|kind| *kind = 0),
            (Fault::SecondDegreeKept, Ok(())) => net.0[2] = before,
            (_, Ok(())) => self.write_elsewhere(net),
            (Fault::OffsetOfTheValue, Err(refusal)) if refusal.number == 6 => {
                return Err(Refusal { number: 6, offset: refusal.offset + 3 });
            }
            _ => {}
        }
        answer
    }

    fn first(&mut self, given: &Given, net: &mut Net) -> Result<(), u8> {
        let lent = net.clone();
        let answer = self.model.first(given, net);
        if answer.is_ok() {
            self.spoil_largest(net, &lent, &given.coefficients[..net.numbers(net.shape().unwrap()).len()]);
        }
        match self.fault {
            Fault::LargestLeftByAFirstNet if answer.is_ok() => net.0[LARGEST] = lent.claimed(),
            Fault::LargestWrittenByARefusedFirstNet if answer == Err(7) => net.0[LARGEST] = RANGE,
            Fault::FirstNetWithoutItsFrame | Fault::FirstNetZeroesTheFramesRest if answer.is_ok() => self.spoil_first_frame(net, &lent.0),
            Fault::FirstNetLooksAtUnusedCoefficients if answer.is_ok() => {
                let outside = given.coefficients[..180].iter().any(|a| a.unsigned_abs() > 1 << 20);
                return if outside { Err(6) } else { Ok(()) };
            }
            Fault::FirstNetLooksAtUnusedFrameNumbers if answer.is_ok() => {
                let outside = given.frame[..9].iter().any(|a| a.unsigned_abs() > 4);
                return if outside { Err(5) } else { Ok(()) };
            }
            Fault::FirstNetZeroesTheRest if answer.is_ok() => {
                let used = ENTRIES + 4 * net.shape().unwrap().places();
                net.0[used..LARGEST].fill(0);
            }
            Fault::FirstNetWithoutRoom if answer == Err(11) && !net.is_short() => return Err(6),
            Fault::OneScaleForBothPairs | Fault::EntriesJThenI if answer.is_ok() => self.spoil_first_net(net),
            Fault::OneDeterminantOfAFirstNet if answer == Err(5) && given.kind == 3 => {
                return if first_pair_is_good(&given.frame) { Ok(()) } else { Err(5) };
            }
            Fault::FirstNetOfARectNeverTooLarge if answer == Err(7) && given.kind == 3 => return Ok(()),
            _ if answer.is_ok() => self.write_elsewhere(net),
            _ => {}
        }
        answer
    }

    fn take(&mut self, net: &mut Net, operation: u8, vertex: u8, weights: Weights) -> Result<(), u8> {
        let before = net.clone();
        if self.is(Fault::PairsExchanged) && rect(net).is_some() {
            return self.model.take(net, operation, in_the_other_pair(vertex), weights);
        }
        if let Some(mut read) = self.misread(net) {
            let answer = self.model.take(&mut read, operation, vertex, weights);
            if answer.is_ok() {
                let end = net.0.len();
                net.0[FRAME..].copy_from_slice(&read.0[FRAME..end]);
            }
            return answer;
        }
        let answer = self.model.take(net, operation, vertex, weights);
        if let Some(spoiled) = self.spoil_largest_of_a_move(net, &before, answer, operation) {
            return spoiled;
        }
        if let Some(spoiled) = self.spoil_frame((&mut *net, &before), answer, (operation, vertex, weights)) {
            return spoiled;
        }
        let shape = if before.is_short() { None } else { before.shape() };
        match self.fault {
            Fault::FlipDoesNothing if operation == 2 => *net = before,
            Fault::ReplaceDoesNothing if operation == 1 => *net = before,
            Fault::SecondNetReversed if operation == 2 && answer.is_ok() && net.0[0] == 1 => {
                let mut entries = net.used(net.shape().unwrap());
                entries.reverse();
                net.write_entries(&entries);
            }
            Fault::RefusesBeforeTheLimit if operation == 1 && answer.is_ok() => {
                let edge = net.used(shape.unwrap()).iter().flatten().any(|c| c.abs() == RANGE);
                if edge {
                    *net = before;
                    return Err(10);
                }
            }
            Fault::RefusesAfterTheLimit | Fault::LooksOnlyAtTheNewNet if operation == 1 && answer == Err(10) => {
                let limit = if self.is(Fault::RefusesAfterTheLimit) { RANGE + 1 } else { RANGE };
                if let Some(shape) = shape.filter(|s| usable(&before, *s)) {
                    let values = plain_replace(&before, shape, vertex, weights);
                    if within(&values, limit) {
                        net.write(shape, &narrow(&values));
                        net.write_vertex(shape, vertex, &before.new_vertex(shape, operation, vertex, weights));
                        return Ok(());
                    }
                }
            }
            Fault::LeavesOut(left_out) if operation == REPLACE && answer == Err(10) => {
                if left_out.take(net, vertex, weights).is_some() {
                    return Ok(());
                }
            }
            Fault::SaysTenTooSoon if answer.is_ok() && net.0[ENTRIES..ENTRIES + 4].iter().any(|c| c.abs() > 1 << 40) => {
                *net = before;
                return Err(10);
            }
            Fault::NineBeforeEight if answer == Err(8) && operation == 1 && (1..=2).contains(&vertex) => {
                if weights[usize::from(vertex) - 1] == 0 {
                    return Err(9);
                }
            }
            Fault::StoresHalf if answer == Err(10) && operation == 1 => net.0[ENTRIES] = net.0[ENTRIES].wrapping_add(1),
            Fault::TakesHandedNetsOutOfRange if operation == 2 && answer == Err(10) => return Ok(()),
            Fault::ThirdWeightOfACurve if operation == 1 && answer == Err(8) && net.0[0] == 1 => {
                return self.model.take(net, operation, vertex, [weights[0], weights[1], 0, weights[3]]);
            }
            Fault::ThirdWeightOfARect if operation == 1 && answer == Err(8) && net.0[0] == 3 => {
                return self.model.take(net, operation, vertex, [weights[0], weights[1], 0, weights[3]]);
            }
            Fault::FourthWeightOfAMove if operation == 1 && answer == Err(8) => {
                return self.model.take(net, operation, vertex, [weights[0], weights[1], weights[2], 0]);
            }
            Fault::FlipOnlyInTheFirstPair if operation == FLIP && rect(&before).is_some() && vertex > 2 => *net = before,
            _ if answer.is_ok() => self.write_elsewhere(net),
            _ => {}
        }
        answer
    }

    fn find(&mut self, net: &Net, weights: Weights, found: &mut [i64]) -> Result<(), u8> {
        if let Some(read) = self.misread(net) {
            return self.model.find(&read, weights, found);
        }
        if self.is(Fault::PairsOfAPointExchanged) && rect(net).is_some() {
            let [r1, s1, r2, s2] = weights;
            return self.model.find(net, [r2, s2, r1, s1], found);
        }
        let lent = found.to_vec();
        let answer = self.model.find(net, weights, found);
        if let Some(spoiled) = self.spoil_point(net, answer, weights, found) {
            return spoiled;
        }
        if self.spoil_projected(net, weights, (found, &lent), answer).is_some() {
            return answer;
        }
        match self.fault {
            Fault::FourPlacesEnough | Fault::SevenPlacesEnough if answer == Err(11) => {
                let least = if self.is(Fault::FourPlacesEnough) { 4 } else { 7 };
                let mut enough = [0; FOUND];
                if found.len() < least || self.model.find(net, weights, &mut enough).is_err() {
                    return answer;
                }
                found.copy_from_slice(&enough[..found.len()]);
                return Ok(());
            }
            Fault::SecondStageLeftOut if answer == Err(10) => {
                if let Some(value) = self.without_second_stage(net, weights) {
                    write_found(found, value);
                    return Ok(());
                }
            }
            Fault::SymmetricSizeTest if answer.is_ok() => {
                if let Some(shape) = rect(net) {
                    let [r1, s1, r2, s2] = weights;
                    return self.model.find(&net.with_pairs_exchanged(shape), [r2, s2, r1, s1], &mut [0; FOUND]);
                }
            }
            Fault::LeavesOut(left_out) if answer == Err(10) => {
                if let Some(value) = left_out.find(net, weights) {
                    write_found(found, value);
                    return Ok(());
                }
            }
            Fault::SecondPairIdle if answer == Err(9) && weights[..2] != [0, 0] => {
                write_found(found, [0; 4]);
                return Ok(());
            }
            Fault::FourthWeightOfAPoint if answer == Err(8) && rect(net).is_none() => {
                return self.model.find(net, [weights[0], weights[1], weights[2], 0], found);
            }
            Fault::LooksOnlyAtThePointFound if answer == Err(10) => {
                if let Some(shape) = net.shape().filter(|s| usable(net, *s)) {
                    let value = plain_point(net, shape, weights);
                    if within(&[value], RANGE) {
                        write_found(found, value.map(|c| c as i64));
                        return Ok(());
                    }
                }
            }
            Fault::PointWithoutRoom if answer == Err(11) && !net.is_short() && net.shape().is_none() => return Err(4),
            Fault::PointPastItsPlaces if answer.is_ok() => found[FOUND..].fill(0),
            _ => {}
        }
        answer
    }

    fn project(&mut self, point: [i64; 4], room: &mut Room) -> u8 {
        let [x, y, z, w] = point;
        let answer = project(point);
        if room.is_short() {
            return match (self.fault, answer) {
                (Fault::ProjectionWithoutRoom, Ok(Projection::Nowhere)) => room.tell(answer),
                (Fault::DirectionInThreePlaces, Ok(Projection::Finite { .. }))
                    if room.bits.len() >= COORDINATES && room.direction.len() == DIRECTION - 1 =>
                {
                    room.tell(answer)
                }
                (Fault::RangeBeforeRoom, Err(10)) => room.tell(answer),
                (Fault::OutcomeKeptBesideARefusal, _) => 11,
                _ => room.tell(Err(11)),
            };
        }
        match (self.fault, answer) {
            (Fault::OutcomeKeptBesideARefusal, Err(number)) => return number,
            (Fault::OutcomeInTheNumber, Err(10)) => {
                room.outcome = 10;
                return 10;
            }
            (Fault::ProjectionPastItsPlaces, Ok(Projection::Finite { .. })) => room.bits[COORDINATES..].fill(0),
            (Fault::DirectionClearedBesideAPoint, Ok(Projection::Finite { .. })) => room.direction.fill(0),
            (Fault::LengthLeftOut, Ok(Projection::Direction { .. })) => {
                let old = room.direction[DIRECTION - 1];
                room.tell(answer);
                room.direction[DIRECTION - 1] = old;
                return 0;
            }
            _ => {}
        }
        let answer = match (self.fault, answer) {
            (Fault::NegativeZero, Ok(Projection::Finite { y, z, .. })) if x == 0 && w < 0 => {
                Ok(Projection::Finite { x: (-0f64).to_bits(), y, z })
            }
            (Fault::DirectionNotTurned, Ok(Projection::Direction { x: dx, y: dy, z: dz, length })) if x < 0 => {
                Ok(Projection::Direction { x: -dx, y: -dy, z: -dz, length })
            }
            (Fault::DirectionNotReduced, Ok(Projection::Direction { .. })) => Ok(Projection::Direction { x, y, z, length: 1 }),
            (Fault::LengthTurned, Ok(Projection::Direction { x: dx, y: dy, z: dz, length })) if x < 0 => {
                Ok(Projection::Direction { x: dx, y: dy, z: dz, length: -length })
            }
            (Fault::LengthOfTwo, Ok(Projection::Direction { x: dx, y: dy, z: dz, length })) if (x, y) != (0, 0) => {
                Ok(Projection::Direction { x: dx, y: dy, z: dz, length: length * divisor(dx.abs(), dy.abs()) })
            }
            (Fault::ComponentForLength, Ok(Projection::Direction { x: dx, y: dy, z: dz, .. })) => {
                Ok(Projection::Direction { x: dx, y: dy, z: dz, length: x })
            }
            (Fault::NowhereForDirections, Ok(Projection::Direction { .. })) => Ok(Projection::Nowhere),
            (Fault::ProjectsAnything, Err(10)) => Ok(Projection::Nowhere),
            (Fault::Divides(division, Used::Always), _) => divided(division, point),
            _ => answer,
        };
        room.tell(answer)
    }

    /// The second four go through `project`, with what is wrong there.
    fn project_found(&mut self, found: &[i64], room: &mut Room) -> u8 {
        if let Some(number) = self.spoil_projection_of_found(found, room) {
            return number;
        }
        let Some(&[a, b, c, d, x, y, z, w]) = found.first_chunk::<FOUND>() else {
            return room.tell(Err(11));
        };
        let number = self.project([x, y, z, w], room);
        if number == 0 && room.outcome == 2 && [a, b, c, d] == [0; 4] {
            room.direction[DIRECTION - 1] = 1;
        }
        number
    }

    fn field(&mut self, record: &[u8], tag: u8) -> Lookup {
        if let Some(read) = self.misread_record(record) {
            return self.model.field(&read, tag);
        }
        let lookup = self.model.field(record, tag);
        let wherever = |number| Lookup { number, ..walk(record, tag) };
        match (self.fault, lookup.number) {
            (Fault::FieldsOfRecordsRefusedSeven, 7) => wherever(7),
            (Fault::FieldsOfEveryRecord, 1..) => wherever(lookup.number),
            (Fault::FieldWithoutTheNumber, 1..) => Lookup { number: 0, ..lookup },
            (Fault::FieldFromItsTag, 0) if lookup.length > 0 => {
                Lookup { number: 0, start: lookup.start - 3, length: lookup.length + 3 }
            }
            (Fault::FieldLengthByItsLowByte, 0) => Lookup { length: lookup.length % 256, ..lookup },
            (Fault::AbsentFieldAtTheStart, 0) if lookup.start == record.len() => Lookup { start: 0, ..lookup },
            (Fault::EmptyFieldAtTheEnd, 0) if lookup.length == 0 => Lookup { start: record.len(), ..lookup },
            (Fault::TagByItsLowBits, 0) => self.model.field(record, tag % 128),
            (Fault::FieldsFourAndFiveExchanged, 0) if (4..=5).contains(&tag) => {
                self.model.field(record, 9 - tag)
            }
            _ => lookup,
        }
    }

    fn text(&mut self, record: &[u8], buffer: &mut [u8]) -> Result<usize, u8> {
        if let Some(spoiled) = self.spoil_text(record) {
            let room = buffer.get_mut(..spoiled.len()).ok_or(11)?;
            room.copy_from_slice(spoiled.as_bytes());
            return Ok(spoiled.len());
        }
        if let Some(read) = self.misread_record(record) {
            return self.model.text(&read, buffer);
        }
        if self.is(Fault::RefusesABufferOfTheTextsLength) && buffer.len() == text(record).len() {
            return Err(11);
        }
        let answer = self.model.text(record, buffer);
        match (self.fault, answer) {
            (Fault::WritesShortBuffers, Err(11)) => buffer.iter_mut().take(1).for_each(|byte| *byte = byte.wrapping_add(1)),
            (Fault::WritesPastTheText, Ok(length)) => buffer[length..].fill(0),
            (Fault::SecondDegreePrintedFirst, Ok(_)) if buffer.starts_with(b"rect ") => buffer.swap(5, 7),
            _ => {}
        }
        answer
    }
}

/// The projection of four numbers, with the coordinates of a finite point wrong.
fn divided(division: Division, point: [i64; 4]) -> Result<Projection, u8> {
    match project(point)? {
        Projection::Finite { .. } => Ok(division.project(point)),
        other => Ok(other),
    }
}

/// Every wrong division, and one of them for points, at common zeros and in texts alone.
fn divisions() -> Vec<Fault> {
    let always = Division::ALL.map(|division| Fault::Divides(division, Used::Always));
    let apart = [Used::AfterAPoint, Used::AtZeros, Used::InTexts];
    always.into_iter().chain(apart.map(|used| Fault::Divides(Division::AwayFromZero, used))).collect()
}

/// The greatest common divisor of two.
fn divisor(a: i64, b: i64) -> i64 {
    if b == 0 {
        a
    } else {
        divisor(b, a % b)
    }
}

#[test]
fn the_model_itself_agrees() {
    let mut library = Spoiled { fault: Fault::None, spared: Spared::Nothing, model: Model };
    compare_calls(&mut library, 300, 7).unwrap();
}

/// The bound on coordinates finds each wrong division without any comparison of bits. A wrong direction, which
/// the comparison finds, it does not see.
#[test]
fn the_bound_alone_finds_wrong_divisions() {
    let spoiled = |fault| Spoiled { fault, spared: Spared::Nothing, model: Model };
    let counts = judge_calls(&mut spoiled(Fault::None), 4000, 7).unwrap();
    let missing = counts.missing(OF_A_LIBRARY);
    assert!(!missing.iter().any(|what| what.contains("coordinate")), "{missing:?}");
    judge_calls(&mut spoiled(Fault::DirectionNotTurned), 300, 7).unwrap();
    for fault in divisions().into_iter().chain([Fault::NegativeZero]) {
        let answer = judge_calls(&mut spoiled(fault), 4000, 7);
        let what = answer.err().unwrap_or_else(|| panic!("{fault:?} keeps to the bound"));
        assert!(what.contains("coordinate "), "{fault:?}: {what}");
        println!("{fault:?}: {}", what.chars().take(120).collect::<String>());
    }
}

#[test]
fn every_fault_is_found() {
    use Fault::*;
    let faults = [
        FlipDoesNothing, ReplaceDoesNothing, SecondNetReversed, RefusesBeforeTheLimit, RefusesAfterTheLimit,
        LooksOnlyAtTheNewNet, LooksOnlyAtThePointFound, SaysTenTooSoon, NineBeforeEight, StoresHalf,
        WritesPastTheEntries, WritesTheFramesPlaces, WritesPastTheNet, SecondDegreeNotLookedAt,
        SecondDegreeKept, KindByItsLowByte, LooksPastTheEntries, TakesShortRuns, RefusesLongerRuns, PointWithoutRoom,
        PointPastItsPlaces, FirstNetLooksAtUnusedCoefficients, FirstNetLooksAtUnusedFrameNumbers, FirstNetZeroesTheRest,
        FirstNetWithoutRoom, NegativeZero, DirectionNotTurned, DirectionNotReduced, LengthTurned, LengthOfTwo,
        ComponentForLength, LengthLeftOut, DirectionInThreePlaces, NowhereForDirections,
        ProjectsAnything, WritesShortBuffers, WritesPastTheText, RefusedRecordMakesANet, OffsetOfTheValue,
        TakesHandedNetsOutOfRange, ThirdWeightOfACurve, OutcomeKeptBesideARefusal, OutcomeInTheNumber,
        ProjectionWithoutRoom, RangeBeforeRoom, ProjectionPastItsPlaces, DirectionClearedBesideAPoint,
        FieldsOfRecordsRefusedSeven, FieldsOfEveryRecord, FieldWithoutTheNumber, FieldFromItsTag,
        FieldLengthByItsLowByte, AbsentFieldAtTheStart, EmptyFieldAtTheEnd, TagByItsLowBits, FourthWeightOfAMove,
        FourthWeightOfAPoint, ThreeBytesForACurve, PairsExchanged, PairsOfAPointExchanged, SecondStageLeftOut,
        SymmetricSizeTest, SecondPairIdle, ThirdWeightOfARect, FlipOnlyInTheFirstPair, OneScaleForBothPairs,
        EntriesJThenI, OneDeterminantOfARecord, OneDeterminantOfAFirstNet, FirstNetOfARectNeverTooLarge,
        SecondDegreePrintedFirst, FrameKept, FrameKeptByAFlip, FrameKeptByAReplace, NewVertexInTheNextPlace, QOfTheOtherPair,
        RefusalLeavesTheNewVertex, TwelveAfterSize, TwelveAfterSizeOfAPoint, TwelveBeforeEight, TwelveBeforeNine,
        TwelveBeforeTheEntries, FrameLimitOneLess, FrameLimitOneMore, QNotTested, NegativeQNotTested,
        LastNumberOfQNotTested, PointsQTested, HandedFrameNotTested, HandedFrameNotTestedByFlips,
        HandedFrameNotTestedByPoints, HandedFrameNotTestedByReplaces, NegativeFramesNotTested, OnlyTheOwnPairTested,
        OnlyTheMovedVertexTested, UnusedFramePlacesTested, HandedDeterminantTested, FirstNetWithoutItsFrame,
        RecordsNetWithoutItsFrame, FirstNetZeroesTheFramesRest, TextWithoutTheFrame, TextWithTheRecordsFrame,
        TextWithTheFrameBeforeTheMoves, TextWithTheFrameLast, LargestKeptByAReplace, LargestOfTheOldNet,
        LargestNeverFalling, LargestOfOldAndNew, LargestWorkedOutByAFlip, LargestNegatedByAFlip,
        LargestOfAFlipWithoutSign, LargestInRangeAfterAFlip, WrongLargestRefused, NegativeLargestRefused,
        LargestBeyondTheRangeRefused, LargestWrittenOnARefusal, LargestWrittenOnARefusalForSize, LargestLeftByAFirstNet,
        LargestLeftByARecordsNet, LargestOfTheCoefficients, LargestOfAFirstNetNeverFalling,
        LargestWrittenByARefusedFirstNet, TextWithTheLargest, LargestJudgedByAPoint, LargestClearedByAFlip,
        ZeroNotProjected, ZeroByRAlone, ZeroBySAlone, ZeroByTheWeightOfR, ZeroScanEndsBeforeM, ZeroByTheNextOne,
        ZeroOfEachComponent, ZeroByTheWeightAlone, ZeroReduced, ZeroNegated, ZeroTimesTheBinomial,
        ZeroOverAFlatFrameNowhere, ZeroAtVerticesAlone, ZerosOfAPatchScanned(Kind::Patch),
        ZerosOfAPatchScanned(Kind::Rect), FoundReplacedByTheNumbersProjected, ProjectedAtZerosAlone,
        ProjectedOfPatchesNotWritten, ProjectedOnARefusal, FourPlacesEnough, SevenPlacesEnough, LengthKept,
        LengthOneEverywhere, LengthByTheWeightOfTheFirstFour, LengthByThreeOfTheFirstFour, LengthByTheSecondFour,
        FoundByTheFirstFour, FoundJudgesTheFirstFour, FoundJudgesBothFours, FoundOfAnyRange, FoundOfFourNumbers,
        FoundOfSevenNumbers, FoundOfEightNumbersAlone, FoundOutcomeKept, FoundRangeBeforeRoom, FoundWithoutRoom,
        TextZeroNowhere, TextLengthKept, TextLengthOne,
        FieldsFourAndFiveExchanged, RefusesABufferOfTheTextsLength, TagsModulo(8), TagsModulo(16),
        TagsModulo(32), TagsModulo(64), TagsModulo(128), LengthsModulo(1024), LengthsModulo(2048),
        LengthsModulo(4096), LengthsModulo(8192), LengthsModulo(16384), LengthsModulo(32768),
    ];
    // once in replaces alone and once in first nets alone
    let of_either = [
        LargestWithTheSignNotDropped, LargestWithItsSign, LargestOfNegativesOneLess, LargestWithoutTheLastEntry,
        LargestWithoutTheFirstEntry, LargestWithoutTheWeights, LargestOfTheLastRow, LargestOverPlacesNotInUse,
        LargestOverTheFrameToo, LargestInThirtyTwoBits, LargestAfterTheEntries, LargestInTheLastPlace, LargestCleared,
    ];
    let alone = |fault| [(fault, Spared::FirstNets), (fault, Spared::Replaces)];
    let sizes = LeftOut::all().into_iter().map(LeavesOut);
    let sizes = sizes.chain((1..=10).map(ZeroLeavesOut)).chain(divisions());
    let whole = faults.into_iter().chain(sizes).map(|fault| (fault, Spared::Nothing));
    let all: Vec<(Fault, Spared)> = whole.chain(of_either.into_iter().flat_map(alone)).collect();
    assert_eq!(all.len(), FAULTS);
    for (fault, spared) in all {
        let mut library = Spoiled { fault, spared, model: Model };
        let answer = compare_calls(&mut library, 4000, 7);
        let what = answer.err().unwrap_or_else(|| panic!("{fault:?} was not found, {spared:?} spared"));
        println!("{fault:?}, {spared:?} spared: {}", what.chars().take(70).collect::<String>());
    }
}
