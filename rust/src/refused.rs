//! What the library refuses, and why.

use std::error::Error;
use std::fmt::{Display, Formatter, Result as Written};

/// Why a call was refused. The constants are the causes that there are, with the numbers of
/// docs/RECORDS.md.
#[derive(Clone, Copy, Debug, PartialEq, Eq, Hash)]
pub struct Refused(u8);

impl Refused {
    /// The bytes of a record end within a field.
    pub const CUT_SHORT: Refused = Refused(1);
    /// A field of a record that must not stand there, or a missing one.
    pub const TAG: Refused = Refused(2);
    /// A length that a field of a record cannot have.
    pub const LENGTH: Refused = Refused(3);
    /// A kind or a degree that no net has, or a record's field 1 that is not of its kind's length.
    pub const KIND: Refused = Refused(4);
    /// A number of a first frame beyond 4, or a determinant 0.
    pub const FRAME: Refused = Refused(5);
    /// A coefficient beyond 1048576.
    pub const COEFFICIENT: Refused = Refused(6);
    /// A first net with a number beyond 2 to the 48th.
    pub const FIRST_NET: Refused = Refused(7);
    /// An operation, a vertex or a weight that there is not, or an unused weight that is not 0.
    pub const ARGUMENT: Refused = Refused(8);
    /// The replaced vertex, or every vertex of a point or of one of its pairs, has weight 0.
    pub const NO_WEIGHT: Refused = Refused(9);
    /// An entry or a component that was handed over, or a polar value that the call names, is beyond 2 to the
    /// 48th.
    pub const RANGE: Refused = Refused(10);
    /// A lent buffer has too few places.
    pub const SHORT: Refused = Refused(11);
    /// A number of a frame that was handed over, or of the point that a replace would put in a vertex's place, is
    /// beyond 2 to the 48th.
    pub const FRAME_RANGE: Refused = Refused(12);

    /// The number of the refusal.
    pub fn number(self) -> u8 {
        self.0
    }

    fn reason(self) -> &'static str {
        match self {
            Refused::CUT_SHORT => "the bytes end within a field",
            Refused::TAG => "a field must not stand there, or one is missing",
            Refused::LENGTH => "a length that the field cannot have",
            Refused::KIND => "a kind or degree that no net has",
            Refused::FRAME => "a number of the first frame beyond 4, or determinant 0",
            Refused::COEFFICIENT => "a coefficient beyond 1048576",
            Refused::FIRST_NET => "a number of the first net beyond 2 to the 48th",
            Refused::ARGUMENT => {
                "an operation, vertex or weight that there is not, or an unused weight other than 0"
            }
            Refused::NO_WEIGHT => {
                "weight 0 for the replaced vertex, or for every vertex of a point or of a pair"
            }
            Refused::RANGE => "an entry, a component or a polar value beyond 2 to the 48th",
            Refused::SHORT => "a buffer with too few places",
            Refused::FRAME_RANGE => "a number of the frame or of a new vertex beyond 2 to the 48th",
            _ => "a cause that this package does not know",
        }
    }
}

impl Display for Refused {
    fn fmt(&self, f: &mut Formatter) -> Written {
        write!(f, "refused {}: {}", self.number(), self.reason())
    }
}

impl Error for Refused {}

/// A record's refusal, with the place of its cause.
#[derive(Clone, Copy, Debug, PartialEq, Eq, Hash)]
pub struct RecordRefused {
    /// Why the record was refused.
    pub refused: Refused,
    /// Where the field at fault begins, or the record's length where a field is missing at the end.
    pub offset: usize,
}

impl Display for RecordRefused {
    fn fmt(&self, f: &mut Formatter) -> Written {
        let (number, reason) = (self.refused.number(), self.refused.reason());
        write!(f, "refused {number} at byte {}: {reason}", self.offset)
    }
}

impl Error for RecordRefused {}

/// A number that a function of [`raw`](crate::raw) answered, as a result.
pub(crate) fn answer(number: u8) -> Result<(), Refused> {
    match number {
        0 => Ok(()),
        _ => Err(Refused(number)),
    }
}
