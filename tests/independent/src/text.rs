//! netprint's whole text for any bytes.

use crate::calls::{Answer, Call};
use crate::handed::Net;
use crate::polar::scale;
use crate::projection::{Projection, COORDINATES};
use crate::record::{read_with_net, Record, Refusal};
use crate::shape::{Copies, Kind, Shape};

/// What comes after so many bytes is not read.
pub const LONGEST_INPUT: usize = 2048;

/// What a record comes to: the refusal, or the moves' answers, the net reached with the
/// numbers of its frame, and the point's answer.
pub enum Outcome {
    Refused(Refusal),
    Made { shape: Shape, moves: Vec<Answer>, frame: Vec<i64>, net: Vec<[i64; 4]>, point: Option<Answer> },
}

impl Outcome {
    /// The numbers projected of its point, if it has one.
    pub fn projected(&self) -> Option<[i64; 4]> {
        match self {
            Outcome::Made { point: Some(Answer::Point { projected, .. }), .. } => Some(*projected),
            _ => None,
        }
    }
}

pub fn outcome(bytes: &[u8]) -> Outcome {
    match read_with_net(bytes) {
        Err(refusal) => Outcome::Refused(refusal),
        Ok((record, first)) => made(&record, &first),
    }
}

/// Moves after a refused one still count; they start from the last net taken.
fn made(record: &Record, first: &[[i64; 4]]) -> Outcome {
    let shape = record.shape;
    let mut net = Net::empty();
    net.write_first(record, first);
    let moves = record.moves.iter().map(|call| net.answer(call)).collect();
    let point = record.point.map(|weights| net.answer(&Call::Point { weights }));
    Outcome::Made { shape, moves, frame: net.frame(shape).to_vec(), net: net.used(shape), point }
}

pub fn text(bytes: &[u8]) -> String {
    write(&outcome(bytes))
}

pub fn write(outcome: &Outcome) -> String {
    match outcome {
        Outcome::Refused(Refusal { number, offset }) => format!("refused {number} at {offset}\n"),
        Outcome::Made { shape, moves, frame, net, point } => {
            let mut text = first_line(*shape);
            text.extend(moves.iter().enumerate().map(|(before, answer)| move_line(before + 1, answer)));
            text += &frame_line(frame);
            text.extend(shape.copies().iter().zip(net).map(|(copies, entry)| entry_line(shape.kind, copies, entry)));
            text.extend(point.iter().map(point_line));
            text
        }
    }
}

/// Moves that were taken have no line but count in K.
fn move_line(number: usize, answer: &Answer) -> String {
    match answer {
        Answer::Refused(refusal) => format!("move {number} refused {refusal}\n"),
        _ => String::new(),
    }
}

/// Kind word, the degree or both, scale.
fn first_line(shape: Shape) -> String {
    let degrees: String = shape.groups().iter().map(|group| format!(" {}", group.degree)).collect();
    format!("{}{degrees} {}\n", shape.kind.word(), scale(shape))
}

/// The frame that the net is over, right before its entries.
fn frame_line(frame: &[i64]) -> String {
    let numbers: String = frame.iter().map(|number| format!(" {number}")).collect();
    format!("frame{numbers}\n")
}

/// One line an entry: its index, one number, three or two, before its components.
fn entry_line(kind: Kind, copies: &Copies, [x, y, z, w]: &[i64; 4]) -> String {
    let index = match (kind, copies) {
        (Kind::Curve, [_, j, ..]) => format!("{j}"),
        (Kind::Patch, [i, j, k, _]) => format!("{i} {j} {k}"),
        (Kind::Rect, [_, i, _, j]) => format!("{i} {j}"),
    };
    format!("{index} {x} {y} {z} {w}\n")
}

fn point_line(answer: &Answer) -> String {
    match answer {
        Answer::Point { projection: Projection::Finite { x, y, z }, .. } => format!("at {x:016x} {y:016x} {z:016x}\n"),
        Answer::Point { projection: Projection::Direction { x, y, z, length }, .. } => format!("far {x} {y} {z} {length}\n"),
        Answer::Point { projection: Projection::Nowhere, .. } => "nowhere\n".to_string(),
        Answer::Refused(number) => format!("point refused {number}\n"),
        Answer::Taken => unreachable!("a point is found or refused"),
    }
}

/// The bit patterns in a text's line `at`, if it has one.
pub fn coordinates(text: &[u8]) -> Option<[u64; COORDINATES]> {
    let line = std::str::from_utf8(text).ok()?.lines().find_map(|line| line.strip_prefix("at "))?;
    let bits: Option<Vec<u64>> = line.split(' ').map(|word| u64::from_str_radix(word, 16).ok()).collect();
    bits?.try_into().ok()
}

/// The text into a lent buffer, whole or not at all (11); what lies past it is left.
pub fn text_into(bytes: &[u8], buffer: &mut [u8]) -> Result<usize, u8> {
    let text = text(bytes);
    let Some(room) = buffer.get_mut(..text.len()) else {
        return Err(11);
    };
    room.copy_from_slice(text.as_bytes());
    Ok(text.len())
}
