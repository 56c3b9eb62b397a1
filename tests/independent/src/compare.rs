//! A library, answer by answer and net by net, against the machine and the
//! handed-net model.

use crate::bound::judge_all;
use crate::calls::{Answer, Call, NO_WEIGHTS};
use crate::counts::{place, Counts, AT_ZEROS, OF_FOUND, OF_FOUR, OF_TEXTS};
use crate::generate::{any_claim, any_first, any_found, any_record, any_room, any_run, any_shape, encode, everywhere, four_numbers};
use crate::generate::{handed, made, near_tie, with_zero, Caller, Mood};
use crate::handed::{Net, LARGEST};
use crate::library::{answer, Library};
use crate::exact::Exact;
use crate::machine::Machine;
use crate::projection::{project_found_into, project_into, Projection, Room, FOUND};
use crate::random::Random;
use crate::record::{field_of, read_with_net, told_kind, Record, Refusal};
use crate::shape::{Kind, Shape};
use crate::text::{coordinates, outcome, write};

/// A full sweep of damages, at every byte, once in so many lists.
const SWEEP_ONCE_IN: usize = 400;

/// From sweep to sweep so many shapes further on, which comes to all 43 and takes turns
/// among the kinds.
const SWEEP_STEP: usize = 16;

/// Every tag there is, once in so many records; else the five, two beside them, the
/// largest and any one.
const ALL_TAGS_ONCE_IN: usize = 32;

/// Before one call in so many on a handed net, another number is put in the place of its largest
/// component: a replace that is taken would else leave none but right ones.
const CLAIM_ONCE_IN: usize = 3;

/// One handed net in so many is a curve's with a common zero, and the calls begin there.
const ZERO_ONCE_IN: usize = 3;

/// Bits of a weight.
pub const WEIGHT_BITS: u32 = 64;

/// Runs so many lists. The first disagreement ends it, with what leads to it.
pub fn compare_calls(library: &mut dyn Library, lists: usize, seed: u64) -> Result<Counts, String> {
    run_lists(library, lists, seed, false)
}

/// The same lists, but what is answered to points, projections and texts is not compared with anything: the
/// coordinates of finite points alone are judged, by their bound.
pub fn judge_calls(library: &mut dyn Library, lists: usize, seed: u64) -> Result<Counts, String> {
    run_lists(library, lists, seed, true)
}

fn run_lists(library: &mut dyn Library, lists: usize, seed: u64, bound_alone: bool) -> Result<Counts, String> {
    let mut counts = Counts::default();
    for number in 0..lists {
        let mut run = Run { library, counts: &mut counts, random: Random::of_part(seed, number), bound_alone };
        run.one_list(number).map_err(|what| format!("seed {seed}, list {number}: {what}"))?;
    }
    Ok(counts)
}

struct Run<'a> {
    library: &'a mut dyn Library,
    counts: &'a mut Counts,
    random: Random,
    bound_alone: bool,
}

impl Run<'_> {
    fn one_list(&mut self, number: usize) -> Result<(), String> {
        if number % SWEEP_ONCE_IN == 0 {
            return self.sweep(number / SWEEP_ONCE_IN);
        }
        match number % 10 {
            0..=6 => self.record_list(number),
            7 | 8 => self.handed_list(),
            _ => self.loose_ends(),
        }
    }

    /// The third demand: one record, one list, the machine beside it.
    fn record_list(&mut self, number: usize) -> Result<(), String> {
        let mood = Mood::ALL[number % Mood::ALL.len()];
        let shape = any_shape(&mut self.random);
        let made = made(&mut self.random, shape, mood);
        let bytes = encode(&made.record);
        let context = |what: String, calls: &[Call]| format!("{what}\nrecord {}\ncalls {calls:?}", hex(&bytes));
        let mut net = handed(&mut self.random);
        self.check_read(&bytes, &mut net)?;
        self.check_text(&bytes)?;
        let mut machine = Machine::new(&made.record);
        let mut caller = Caller::new(&made, mood, WEIGHT_BITS);
        let mut calls = Vec::new();
        for _ in 0..mood.length(&mut self.random) {
            let call = caller.next(&mut self.random, machine.frame());
            calls.push(call);
            let expected = machine.answer(&call);
            caller.heard(&call, expected == Answer::Taken);
            self.check_call(&mut net, &call, Some(expected)).map_err(|what| context(what, &calls))?;
            if self.random.once_in(8) {
                check_net(&machine, &net).map_err(|what| context(what, &calls))?;
            }
        }
        check_net(&machine, &net).map_err(|what| context(what, &calls))?;
        self.counts.list(net.frame(machine.shape()));
        Ok(())
    }

    /// Calls on a net of any numbers.
    fn handed_list(&mut self) -> Result<(), String> {
        let (mut net, opening) = if self.random.once_in(ZERO_ONCE_IN) {
            with_zero(&mut self.random)
        } else {
            (any_run(&mut self.random), Vec::new())
        };
        self.counts.run(&net);
        let start = net.clone();
        let shape = if net.is_short() { None } else { net.shape() };
        let kind = shape.map_or(Kind::Patch, |shape| shape.kind);
        let mood = self.random.pick(&[Mood::Plain, Mood::Units, Mood::Wide, Mood::Broken]);
        let mut caller = Caller::blind(kind, mood, WEIGHT_BITS);
        let mut calls = Vec::new();
        let length = opening.len() + self.random.below(25);
        caller.open_with(opening);
        for _ in 0..length {
            let call = caller.next(&mut self.random, &[]);
            if self.random.once_in(CLAIM_ONCE_IN) {
                any_claim(&mut self.random, &mut net);
            }
            calls.push((net.0.get(LARGEST).copied(), call));
            let taken = self.check_call(&mut net, &call, None);
            let answer = taken.map_err(|what| format!("{what}\nhanded {start:?}\nlargest and call {calls:?}"))?;
            caller.heard(&call, answer == Answer::Taken);
        }
        Ok(())
    }

    /// Records of every sort, first nets without one, texts into short buffers,
    /// quadruples to project.
    fn loose_ends(&mut self) -> Result<(), String> {
        for _ in 0..6 {
            let bytes = any_record(&mut self.random);
            let mut net = any_run(&mut self.random);
            self.check_read(&bytes, &mut net)?;
            self.check_text(&bytes)?;
            self.check_first()?;
        }
        for _ in 0..20 {
            let point = four_numbers(&mut self.random);
            self.check_projection(point)?;
            let found = any_found(&mut self.random);
            self.check_projection_of_found(&found)?;
        }
        (0..4).try_for_each(|_| self.check_near_tie())
    }

    fn check_near_tie(&mut self) -> Result<(), String> {
        let point = near_tie(&mut self.random);
        self.check_projection(point)?;
        let first = self.random.pick(&[point, [0; 4]]);
        self.check_projection_of_found(&[first, point].concat())
    }

    /// One record damaged at every byte and cut at every length.
    fn sweep(&mut self, number: usize) -> Result<(), String> {
        let all = Shape::all();
        let shape = all[SWEEP_STEP * number % all.len()];
        let mut made = made(&mut self.random, shape, Mood::Plain);
        let moved = Call::Move { operation: 1, vertex: 1, weights: [1, -1, 0, 0] };
        made.record.moves = vec![moved, Call::Move { operation: 2, vertex: 2, weights: NO_WEIGHTS }];
        made.record.point = Some(if shape.kind == Kind::Rect { [1, 2, 0, 1] } else { [1, 2, 0, 0] });
        let lent = handed(&mut self.random);
        for bytes in everywhere(&encode(&made.record)) {
            self.check_read(&bytes, &mut lent.clone())?;
        }
        Ok(())
    }

    /// The answer and every place left, of the net's and of those lent for a point, against
    /// the model's, and the answer against the machine's where there is one.
    fn check_call(&mut self, net: &mut Net, call: &Call, expected: Option<Answer>) -> Result<Answer, String> {
        let before = net.clone();
        let mut model = net.clone();
        let modelled = model.answer(call);
        let by_a_machine = expected.is_some();
        let mut expected = expected.unwrap_or(modelled);
        if modelled != expected {
            return Err(format!("the handed net answers {modelled:?}, the machine {expected:?}"));
        }
        let mut found = vec![self.random.next() as i64; self.random.pick(&[8, 8, 8, 8, 8, 9, 13, 7, 4, 0])];
        let mut wanted = found.clone();
        match (*call, expected) {
            (Call::Point { .. }, _) if found.len() < FOUND => expected = Answer::Refused(11),
            (Call::Point { weights }, Answer::Point { x, y, z, w, projected, projection }) => {
                wanted[..FOUND].copy_from_slice(&[[x, y, z, w], projected].concat());
                if before.kind() == Some(Kind::Curve) && [x, y, z, w] == [0; 4] {
                    self.counts.common_zero(by_a_machine, &before, weights, &projection);
                }
            }
            _ => {}
        }
        if let (Call::Point { weights }, Ok(shape)) = (*call, before.judged(call)) {
            self.counts.point_in_order(&before, shape, weights);
        }
        if expected == Answer::Refused(12) {
            self.counts.twelve(&before, call);
        }
        if let (Answer::Refused(10), Ok(shape)) = (expected, before.judged(call)) {
            self.counts.refused_for_size(&before, shape, call);
        }
        let given = answer(self.library, net, call, &mut found);
        self.counts.answer(before.kind(), &given);
        self.counts.claim(&before, call, &expected);
        self.judge_point(&before, &expected, &given)?;
        if self.bound_alone {
            return Ok(given);
        }
        if given != expected {
            return Err(format!("the library answers {given:?}, expected {expected:?}, on {before:?}"));
        }
        if *net != model {
            return Err(format!("{call:?} leaves {net:?}, expected {model:?}"));
        }
        if found != wanted {
            return Err(format!("{call:?} leaves {found:?} for the point, expected {wanted:?}"));
        }
        if given == Answer::Taken {
            let shape = net.shape().expect("the model's net, on which a move is taken");
            self.counts.limit(net.numbers(shape));
            self.counts.frame_limit(net.frame(shape));
            self.counts.worked_out(net, call);
        }
        Ok(given)
    }

    /// A point by the bound on its coordinates, with the numbers projected that are expected.
    fn judge_point(&mut self, net: &Net, expected: &Answer, given: &Answer) -> Result<(), String> {
        let (Answer::Point { x, y, z, w, projected, .. }, Answer::Point { projection, .. }) = (*expected, given) else {
            return Ok(());
        };
        let kind = net.kind().expect("a net on which a point is found");
        let at_zero = kind == Kind::Curve && [x, y, z, w] == [0; 4];
        self.judge(if at_zero { AT_ZEROS } else { place(kind) }, projected, projection)
    }

    /// What a projection of these numbers leaves in its places.
    fn judge_room(&mut self, of: usize, projected: [i64; 4], number: u8, room: &Room) -> Result<(), String> {
        match room.told(number).filter(|_| !room.is_short()) {
            Some(Ok(projection)) => self.judge(of, projected, &projection),
            _ => Ok(()),
        }
    }

    fn judge(&mut self, of: usize, projected: [i64; 4], projection: &Projection) -> Result<(), String> {
        if let Projection::Finite { x, y, z } = *projection {
            self.counts.judged(of, judge_all(projected, [x, y, z])?);
        }
        Ok(())
    }

    fn check_read(&mut self, bytes: &[u8], net: &mut Net) -> Result<(), String> {
        let mut expected_net = net.clone();
        let judged = read_with_net(bytes);
        let expected = match &judged {
            _ if net.is_short() => Err(Refusal { number: 11, offset: 0 }),
            Ok((record, first)) => {
                expected_net.write_first(record, first);
                self.counts.first_over(0, net, &expected_net);
                Ok(record.shape)
            }
            Err(refusal) => Err(*refusal),
        };
        let given = self.library.read(bytes, net);
        self.counts.read(told_kind(bytes), expected);
        if given != expected.map(|_| ()) {
            return Err(format!("read {given:?}, expected {expected:?}\nrecord {}", hex(bytes)));
        }
        if *net != expected_net {
            return Err(format!("read {net:?}, expected {expected_net:?}\nrecord {}", hex(bytes)));
        }
        self.check_fields(bytes, judged.err())
    }

    /// A first net without a record.
    fn check_first(&mut self) -> Result<(), String> {
        let numbers = any_first(&mut self.random);
        let mut net = any_run(&mut self.random);
        let mut expected_net = net.clone();
        let expected = numbers.make(&mut expected_net);
        if expected.is_ok() {
            self.counts.first_over(1, &net, &expected_net);
        }
        let given = self.library.first(&numbers, &mut net);
        self.counts.first(Kind::numbered(numbers.kind.into()), &expected);
        if given != expected {
            return Err(format!("first net {given:?}, expected {expected:?}\n{numbers:?}"));
        }
        if net != expected_net {
            return Err(format!("first net {net:?}, expected {expected_net:?}\n{numbers:?}"));
        }
        Ok(())
    }

    fn check_fields(&mut self, bytes: &[u8], refusal: Option<Refusal>) -> Result<(), String> {
        let few = [0, 1, 2, 3, 4, 5, 6, 255, self.random.next() as u8];
        let tags = if self.random.once_in(ALL_TAGS_ONCE_IN) { (0..=255).collect() } else { few.to_vec() };
        if refusal.is_none() {
            self.counts.optional(field_of(bytes, None, 4).length, field_of(bytes, None, 5).length);
        }
        for tag in tags {
            let (expected, given) = (field_of(bytes, refusal, tag), self.library.field(bytes, tag));
            self.counts.lookup(tag, &expected, bytes.len());
            if given != expected {
                return Err(format!("field {tag} is {given:?}, expected {expected:?}\nrecord {}", hex(bytes)));
            }
        }
        Ok(())
    }

    /// The text into buffers of the right length, too long, and too short.
    fn check_text(&mut self, bytes: &[u8]) -> Result<(), String> {
        let outcome = outcome(bytes);
        let expected = write(&outcome).into_bytes();
        let long = expected.len() + 1 + self.random.below(40);
        let short = self.random.below(expected.len());
        for length in [expected.len(), long, expected.len() - 1, short, 0] {
            let filler = self.random.next() as u8;
            let mut buffer = vec![filler; length];
            let mut wanted = buffer.clone();
            let wanted_answer = if length < expected.len() { Err(11) } else { Ok(expected.len()) };
            if wanted_answer.is_ok() {
                wanted[..expected.len()].copy_from_slice(&expected);
            }
            let given = self.library.text(bytes, &mut buffer);
            self.counts.text(told_kind(bytes), &wanted_answer);
            let said = given.ok().and_then(|length| buffer.get(..length)).and_then(coordinates);
            if let (Some(projected), Some([x, y, z])) = (outcome.projected(), said) {
                let judged = self.judge(OF_TEXTS, projected, &Projection::Finite { x, y, z });
                judged.map_err(|what| format!("{what}\nrecord {}", hex(bytes)))?;
            }
            if self.bound_alone {
                continue;
            }
            if given != wanted_answer || buffer != wanted {
                let (said, should) = (String::from_utf8_lossy(&buffer), String::from_utf8_lossy(&wanted));
                return Err(format!("text {given:?}\n{said}\nexpected {wanted_answer:?}\n{should}\nrecord {}", hex(bytes)));
            }
        }
        Ok(())
    }

    fn check_projection_of_found(&mut self, found: &[i64]) -> Result<(), String> {
        let mut room = any_room(&mut self.random);
        let (before, mut wanted) = (room.clone(), room.clone());
        let expected = project_found_into(found, &mut wanted);
        let given = self.library.project_found(found, &mut room);
        self.counts.projection_of_found(found, expected, &wanted);
        if let Some(&[.., x, y, z, w]) = found.first_chunk::<FOUND>() {
            self.judge_room(OF_FOUND, [x, y, z, w], given, &room)?;
        }
        if self.bound_alone {
            return Ok(());
        }
        if given != expected || room != wanted {
            return Err(format!("found {found:?} into {before:?}: {given} {room:?}, expected {expected} {wanted:?}"));
        }
        Ok(())
    }

    fn check_projection(&mut self, point: [i64; 4]) -> Result<(), String> {
        let mut room = any_room(&mut self.random);
        let (before, mut wanted) = (room.clone(), room.clone());
        let expected = project_into(point, &mut wanted);
        let given = self.library.project(point, &mut room);
        self.counts.projection(expected, &wanted);
        self.judge_room(OF_FOUR, point, given, &room)?;
        if self.bound_alone {
            return Ok(());
        }
        if given != expected || room != wanted {
            return Err(format!("{point:?} into {before:?}: {given} {room:?}, expected {expected} {wanted:?}"));
        }
        Ok(())
    }
}

/// The net left must be of the machine's shape, carry the machine's own frame, number by
/// number, hold what that frame gives, entry by entry, and store the largest component of that.
pub fn check_net(machine: &Machine, net: &Net) -> Result<(), String> {
    let shape = net.shape().ok_or("the net has lost its shape")?;
    if shape != machine.shape() {
        return Err(format!("the net is {shape:?}, the record {:?}", machine.shape()));
    }
    let frame: Vec<Exact> = net.frame(shape).iter().map(|&number| Exact::from_i64(number)).collect();
    if frame != machine.frame_numbers() {
        return Err(format!("the frame is {:?}, the machine's {:?}", net.frame(shape), machine.frame_numbers()));
    }
    let expected = machine.net().ok_or("an entry over the machine's frame is out of range")?;
    if net.used(shape) != expected {
        return Err(format!("entries {:?}, over the machine's frame {expected:?}", net.used(shape)));
    }
    if Some(net.claimed()) != machine.largest() {
        return Err(format!("largest {}, over the machine's frame {:?}", net.claimed(), machine.largest()));
    }
    Ok(())
}

pub fn hex(bytes: &[u8]) -> String {
    bytes.iter().map(|byte| format!("{byte:02x}")).collect()
}

/// The first net of a record as a net.
pub fn first_net(record: &Record) -> Net {
    let mut net = Net::empty();
    net.write_first(record, &record.first_net().expect("an accepted record"));
    net
}
