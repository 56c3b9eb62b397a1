//! What a library under comparison offers, and this package's own model of it.

use crate::calls::{Answer, Call, Weights};
use crate::first::Given;
use crate::handed::Net;
use crate::projection::{project_found_into, project_into, Room, FOUND};
use crate::record::{self, Lookup, Refusal};
use crate::text::text_into;

/// Every buffer is handed over with the length it has; a number that is returned is
/// the refusal's, and what is refused writes nothing.
pub trait Library {
    /// Reads a record and writes its first net.
    fn read(&mut self, record: &[u8], net: &mut Net) -> Result<(), Refusal>;

    /// Makes a first net without a record.
    fn first(&mut self, given: &Given, net: &mut Net) -> Result<(), u8>;

    /// Takes a move.
    fn take(&mut self, net: &mut Net, operation: u8, vertex: u8, weights: Weights) -> Result<(), u8>;

    /// Finds a point and writes its numbers into the first four places, the numbers projected into the next
    /// four.
    fn find(&mut self, net: &Net, weights: Weights, found: &mut [i64]) -> Result<(), u8>;

    /// Projects four numbers into the places lent for it; 0 or the refusal's number.
    fn project(&mut self, point: [i64; 4], room: &mut Room) -> u8;

    /// Projects what `find` wrote into the places lent for it; 0 or the refusal's number.
    fn project_found(&mut self, found: &[i64], room: &mut Room) -> u8;

    /// Writes netprint's text; its length.
    fn text(&mut self, record: &[u8], buffer: &mut [u8]) -> Result<usize, u8>;

    /// Looks a field up.
    fn field(&mut self, record: &[u8], tag: u8) -> Lookup;
}

/// This package as a library: the self check of the comparison.
pub struct Model;

impl Library for Model {
    fn read(&mut self, bytes: &[u8], net: &mut Net) -> Result<(), Refusal> {
        if net.is_short() {
            return Err(Refusal { number: 11, offset: 0 });
        }
        let (record, first) = record::read_with_net(bytes)?;
        net.write_first(&record, &first);
        Ok(())
    }

    fn first(&mut self, given: &Given, net: &mut Net) -> Result<(), u8> {
        given.make(net)
    }

    fn take(&mut self, net: &mut Net, operation: u8, vertex: u8, weights: Weights) -> Result<(), u8> {
        match net.answer(&Call::Move { operation, vertex, weights }) {
            Answer::Refused(number) => Err(number),
            _ => Ok(()),
        }
    }

    fn find(&mut self, net: &Net, weights: Weights, found: &mut [i64]) -> Result<(), u8> {
        let room = found.first_chunk_mut::<FOUND>().ok_or(11)?;
        match net.clone().answer(&Call::Point { weights }) {
            Answer::Point { x, y, z, w, projected: [a, b, c, d], .. } => *room = [x, y, z, w, a, b, c, d],
            Answer::Refused(number) => return Err(number),
            Answer::Taken => unreachable!("a point is found or refused"),
        }
        Ok(())
    }

    fn project(&mut self, point: [i64; 4], room: &mut Room) -> u8 {
        project_into(point, room)
    }

    fn project_found(&mut self, found: &[i64], room: &mut Room) -> u8 {
        project_found_into(found, room)
    }

    fn text(&mut self, record: &[u8], buffer: &mut [u8]) -> Result<usize, u8> {
        text_into(record, buffer)
    }

    fn field(&mut self, record: &[u8], tag: u8) -> Lookup {
        record::field(record, tag)
    }
}

/// The whole answer to a call, the projection of a found point included. A move does
/// not use the places for a point.
pub fn answer(library: &mut dyn Library, net: &mut Net, call: &Call, found: &mut [i64]) -> Answer {
    let answered = match *call {
        Call::Move { operation, vertex, weights } => library.take(net, operation, vertex, weights).map(|()| Answer::Taken),
        Call::Point { weights } => library.find(net, weights, found).and_then(|()| projected(library, found)),
    };
    answered.unwrap_or_else(Answer::Refused)
}

/// A library that found a point without room for it has not answered it, and neither has
/// one that tells an outcome that there is not.
fn projected(library: &mut dyn Library, found: &[i64]) -> Result<Answer, u8> {
    let Some(&[x, y, z, w, a, b, c, d]) = found.first_chunk::<FOUND>() else {
        return Ok(Answer::Taken);
    };
    let mut room = Room::enough();
    let number = library.project_found(found, &mut room);
    let Some(projection) = room.told(number) else {
        return Ok(Answer::Taken);
    };
    Ok(Answer::Point { x, y, z, w, projected: [a, b, c, d], projection: projection? })
}
