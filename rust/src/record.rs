//! Records: their own moves and point, and their text.

use crate::net::{Move, Net};
use crate::raw;
use crate::refused::{answer, RecordRefused, Refused};
use crate::Weights;

/// The fields of a record.
#[derive(Clone, Copy, Debug, PartialEq, Eq, Hash)]
pub enum Field {
    /// Kind and degree, a byte each, and a byte for the second degree of a rectangular patch.
    Kind = 1,
    /// The frame of the first net.
    Frame = 2,
    /// The coefficients.
    Coefficients = 3,
    /// The moves, if there are any.
    Moves = 4,
    /// The point, if there is one.
    Point = 5,
}

/// A record that was accepted.
#[derive(Clone, Debug, PartialEq, Eq, Hash)]
pub struct Record<'a> {
    bytes: &'a [u8],
    net: Net,
}

impl<'a> Record<'a> {
    /// Opens a record.
    pub fn open(bytes: &'a [u8]) -> Result<Record<'a>, RecordRefused> {
        let net = Net::open(bytes)?;
        Ok(Record { bytes, net })
    }

    /// The first net. None of the record's own moves has been made on it.
    pub fn first_net(&self) -> &Net {
        &self.net
    }

    /// The value of a field, as the part of the record that it is. A field that the record does not have
    /// is the empty part at its end. Each lookup takes as long as opening the record.
    pub fn field(&self, field: Field) -> &'a [u8] {
        let (mut start, mut length) = (0, 0);
        let number = raw::field(self.bytes, field as u8, &mut start, &mut length);
        debug_assert_eq!(number, 0, "the record was accepted");
        &self.bytes[start as usize..][..length as usize]
    }

    /// The record's own moves, in their order. A move that is refused when it is taken is passed over,
    /// and the next one is tried.
    pub fn moves(&self) -> Vec<Move> {
        let eights = self.field(Field::Moves).chunks_exact(8);
        eights
            .map(|eight| Move {
                operation: eight[0],
                vertex: eight[1],
                weights: weights(&eight[2..]),
            })
            .collect()
    }

    /// The weights of the record's own point, which is meant over the frame that its moves lead to.
    pub fn point(&self) -> Option<Weights> {
        let value = self.field(Field::Point);
        (!value.is_empty()).then(|| weights(value))
    }
}

/// Up to four weights: a move has three, and a point two, three or four. What is not there is 0.
fn weights(bytes: &[u8]) -> Weights {
    let mut weights = [0; 4];
    for (weight, two) in weights.iter_mut().zip(bytes.chunks_exact(2)) {
        *weight = i64::from(i16::from_be_bytes([two[0], two[1]]));
    }
    weights
}

/// The text that the program `netprint` prints for a record, accepted or not.
pub fn text(record: &[u8]) -> String {
    let mut out = [0; raw::LONGEST_TEXT];
    let length = write_text(record, &mut out).expect("no text is longer than LONGEST_TEXT");
    String::from_utf8_lossy(&out[..length]).into_owned()
}

/// Writes the same text into a lent buffer and says how many bytes it has. A buffer that is too short for
/// the whole text is refused ([`Refused::SHORT`]), and none of it is written.
pub fn write_text(record: &[u8], out: &mut [u8]) -> Result<usize, Refused> {
    let mut length = 0;
    answer(raw::text(record, out, &mut length)).map(|()| length as usize)
}
