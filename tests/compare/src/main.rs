//! The static library against the independent implementation: `compare [LISTS SEED]`; and the laws of flips
//! and replaces on the static library alone: `compare laws [NETS SEED]`.
//!
//! Every lent buffer goes back to the comparison as the library left it, so a refused call that wrote
//! something is found, and so is a place of a net that was touched and is not in use. Behind each buffer
//! stand further places that belong to nobody, and here it is asked whether they were touched.

use gadwemosh::raw;
use independent::calls::Weights;
use independent::closing::close;
use independent::compare::compare_calls;
use independent::counts::OF_A_LIBRARY;
use independent::first::Given;
use independent::handed::Net;
use independent::laws::run_laws;
use independent::library::Library;
use independent::projection::{Room, FOUND};
use independent::record::{Lookup, Refusal};
use std::process::ExitCode;
use std::time::Instant;

/// A lent buffer with places behind it.
struct Lent<T> {
    places: Vec<T>,
    length: usize,
    behind: [T; 2],
}

impl<T: Copy + PartialEq> Lent<T> {
    fn of(own: &[T], behind: [T; 2]) -> Lent<T> {
        Lent { places: [own, &behind].concat(), length: own.len(), behind }
    }

    fn lend(&mut self) -> &mut [T] {
        &mut self.places[..self.length]
    }

    fn back(self, own: &mut [T]) {
        assert!(self.places[self.length..] == self.behind, "the places behind a buffer were written");
        own.copy_from_slice(&self.places[..self.length]);
    }
}

const BEHIND: [i64; 2] = [0x5a5a_5a5a_5a5a, -0x5a5a_5a5a_5a5b];

fn answer(number: u8) -> Result<(), u8> {
    if number == 0 { Ok(()) } else { Err(number) }
}

/// The package says how many places a point wants; the comparison has it from the specification.
const _: () = assert!(raw::FOUND == FOUND);

struct Static;

impl Library for Static {
    fn read(&mut self, record: &[u8], net: &mut Net) -> Result<(), Refusal> {
        let mut lent = Lent::of(&net.0, BEHIND);
        let mut offset = u64::MAX;
        let number = raw::open(record, lent.lend(), &mut offset);
        lent.back(&mut net.0);
        assert!(number != 0 || offset == 0, "an accepted record has an offset");
        answer(number).map_err(|number| Refusal { number, offset: offset as usize })
    }

    fn first(&mut self, given: &Given, net: &mut Net) -> Result<(), u8> {
        let Given { kind, degree, second, frame, coefficients } = given;
        let mut lent = Lent::of(&net.0, BEHIND);
        let number = raw::first(*kind, *degree, *second, frame, coefficients, lent.lend());
        lent.back(&mut net.0);
        answer(number)
    }

    fn take(&mut self, net: &mut Net, operation: u8, vertex: u8, weights: Weights) -> Result<(), u8> {
        let mut lent = Lent::of(&net.0, BEHIND);
        let number = raw::make_move(lent.lend(), operation, vertex, weights);
        lent.back(&mut net.0);
        answer(number)
    }

    fn find(&mut self, net: &Net, weights: Weights, found: &mut [i64]) -> Result<(), u8> {
        let mut lent = Lent::of(found, BEHIND);
        let number = raw::point(&net.0, weights, lent.lend());
        lent.back(found);
        answer(number)
    }

    fn project(&mut self, point: [i64; 4], room: &mut Room) -> u8 {
        let mut bits = Lent::of(&room.bits, BEHIND.map(|number| number as u64));
        let mut direction = Lent::of(&room.direction, BEHIND);
        let number = raw::project(point, &mut room.outcome, bits.lend(), direction.lend());
        bits.back(&mut room.bits);
        direction.back(&mut room.direction);
        number
    }

    fn project_found(&mut self, found: &[i64], room: &mut Room) -> u8 {
        let mut bits = Lent::of(&room.bits, BEHIND.map(|number| number as u64));
        let mut direction = Lent::of(&room.direction, BEHIND);
        let number = raw::project_found(found, &mut room.outcome, bits.lend(), direction.lend());
        bits.back(&mut room.bits);
        direction.back(&mut room.direction);
        number
    }

    fn text(&mut self, record: &[u8], buffer: &mut [u8]) -> Result<usize, u8> {
        let mut lent = Lent::of(buffer, *b"->");
        let mut length = u64::MAX;
        let number = raw::text(record, lent.lend(), &mut length);
        lent.back(buffer);
        assert!(number == 0 || length == 0, "a refused text has a length");
        answer(number).map(|()| length as usize)
    }

    fn field(&mut self, record: &[u8], tag: u8) -> Lookup {
        let (mut start, mut length) = (u64::MAX, u64::MAX);
        let number = raw::field(record, tag, &mut start, &mut length);
        Lookup { number, start: start as usize, length: length as usize }
    }
}

fn main() -> ExitCode {
    let words: Vec<String> = std::env::args().skip(1).collect();
    let started = Instant::now();
    let number = |place: usize, otherwise: u64| words.get(place).map_or(otherwise, |word| word.parse().expect("a number"));
    if words.first().is_some_and(|word| word == "laws") {
        let (nets, seed) = (number(1, 200_000), number(2, 1));
        return close(run_laws(&mut Static, nets as usize, seed).map(|counts| counts.closing()), started);
    }
    let (lists, seed) = (number(0, 20000), number(1, 1));
    close(compare_calls(&mut Static, lists as usize, seed).map(|counts| counts.closing(OF_A_LIBRARY)), started)
}
