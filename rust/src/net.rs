//! Control nets and the calls on them.

use crate::projection::Found;
use crate::raw;
use crate::refused::{answer, RecordRefused, Refused};
use crate::{Components, Weights};
use std::fmt::{Debug, Formatter, Result as Written};

/// What a net is a net of.
#[derive(Clone, Copy, Debug, PartialEq, Eq, Hash)]
pub enum Kind {
    /// A rational curve, with the frame r, s.
    Curve = 1,
    /// A triangular patch, with the frame r, s, t.
    Triangular = 2,
    /// A rectangular patch, with the frame r1, s1, r2, s2, a pair for each of its degrees.
    Rectangular = 3,
}

impl Kind {
    /// The vertices of a frame, in their order.
    pub fn vertices(self) -> &'static [Vertex] {
        match self {
            Kind::Curve => &[Vertex::R, Vertex::S],
            Kind::Triangular => &[Vertex::R, Vertex::S, Vertex::T],
            Kind::Rectangular => &[Vertex::R1, Vertex::S1, Vertex::R2, Vertex::S2],
        }
    }

    /// How many numbers a vertex has.
    pub fn coordinates(self) -> usize {
        match self {
            Kind::Curve | Kind::Rectangular => 2,
            Kind::Triangular => 3,
        }
    }

    /// How many numbers a frame has.
    pub fn frame_numbers(self) -> usize {
        self.vertices().len() * self.coordinates()
    }

    /// The largest degree, for both degrees of a rectangular patch; the smallest is 1.
    pub fn largest_degree(self) -> u8 {
        match self {
            Kind::Curve => 10,
            Kind::Triangular => 8,
            Kind::Rectangular => 5,
        }
    }

    /// How many entries a net of these degrees has, which is also the number of monomials; nothing where
    /// a degree is outside.
    pub fn entries(self, degrees: impl Into<Degrees>) -> Option<usize> {
        let degrees = degrees.into();
        if !self.has_degrees(degrees) {
            return None;
        }
        let (m, q) = (usize::from(degrees.first), usize::from(degrees.second));
        Some(match self {
            Kind::Curve => m + 1,
            Kind::Triangular => (m + 1) * (m + 2) / 2,
            Kind::Rectangular => (m + 1) * (q + 1),
        })
    }

    fn has_degrees(self, degrees: Degrees) -> bool {
        let inside = 1..=self.largest_degree();
        let second = match self {
            Kind::Curve | Kind::Triangular => degrees.second == 0,
            Kind::Rectangular => inside.contains(&degrees.second),
        };
        inside.contains(&degrees.first) && second
    }
}

/// The degrees of a net. A number stands for the one degree of a curve or of a triangular patch, a pair of
/// numbers for the two of a rectangular patch:
///
/// ```
/// use gadwemosh::Kind;
///
/// assert_eq!(Kind::Triangular.entries(3), Some(10));
/// assert_eq!(Kind::Rectangular.entries([3, 2]), Some(12));
/// ```
#[derive(Clone, Copy, Debug, PartialEq, Eq, Hash)]
pub struct Degrees {
    /// The only degree, or the one in the first pair of a rectangular patch.
    pub first: u8,
    /// The degree in the second pair of a rectangular patch; 0 for the other kinds.
    pub second: u8,
}

impl From<u8> for Degrees {
    fn from(degree: u8) -> Degrees {
        Degrees {
            first: degree,
            second: 0,
        }
    }
}

impl From<[u8; 2]> for Degrees {
    fn from([first, second]: [u8; 2]) -> Degrees {
        Degrees { first, second }
    }
}

/// A vertex of a frame. [`Kind::vertices`] says which vertices a kind has.
#[derive(Clone, Copy, Debug, PartialEq, Eq, Hash)]
pub enum Vertex {
    /// The first vertex of a curve or of a triangular patch.
    R,
    /// The second vertex of a curve or of a triangular patch.
    S,
    /// The third vertex of a triangular patch.
    T,
    /// The first vertex of a rectangular patch's first pair.
    R1,
    /// The second vertex of a rectangular patch's first pair.
    S1,
    /// The first vertex of a rectangular patch's second pair.
    R2,
    /// The second vertex of a rectangular patch's second pair.
    S2,
}

impl Vertex {
    /// The number that a [`Move`] has for the vertex.
    pub fn number(self) -> u8 {
        match self {
            Vertex::R | Vertex::R1 => 1,
            Vertex::S | Vertex::S1 => 2,
            Vertex::T | Vertex::R2 => 3,
            Vertex::S2 => 4,
        }
    }
}

/// A move as a record has it. Any numbers can stand here; they are judged when the move is taken.
#[derive(Clone, Copy, Debug, PartialEq, Eq, Hash)]
pub struct Move {
    /// 1 replace, 2 flip.
    pub operation: u8,
    /// The vertex's number ([`Vertex::number`]).
    pub vertex: u8,
    /// The weights of the point that takes the vertex's place.
    pub weights: Weights,
}

/// A control net over the frame that it has reached, with the largest component of its entries. Two nets are equal
/// where kind, degrees, every number of the frame, signs included, and every entry are; then their largest components
/// are equal too.
#[derive(Clone, PartialEq, Eq, Hash)]
pub struct Net {
    /// What `include/gadwemosh.h` says; the places that are not in use are 0, and the largest component is
    /// always right.
    places: [i64; raw::NET],
}

/// Says what is in use, and nothing of the other places.
impl Debug for Net {
    fn fmt(&self, f: &mut Formatter) -> Written {
        f.debug_struct("Net")
            .field("kind", &self.kind())
            .field("degrees", &self.degrees())
            .field("frame", &self.frame())
            .field("entries", &self.entries().collect::<Vec<_>>())
            .field("largest", &self.largest())
            .finish()
    }
}

impl Net {
    /// The first net of a record, over the record's frame.
    pub fn open(record: &[u8]) -> Result<Net, RecordRefused> {
        let mut net = Net::blank();
        let mut offset = 0;
        let number = raw::open(record, &mut net.places, &mut offset);
        match answer(number) {
            Ok(()) => Ok(net),
            Err(refused) => Err(RecordRefused {
                refused,
                offset: offset as usize,
            }),
        }
    }

    /// The first net of polynomials over a frame. The frame's numbers stand vertex by vertex: as T, Z for a
    /// curve, as U, V, Z for a triangular patch, as T₁, Z₁ for r1 and s1 and T₂, Z₂ for r2 and s2 of a
    /// rectangular one. The coefficients stand one monomial after the other, in the record's order: the
    /// exponent of T rising for a curve; for a triangular patch that of U rising, and for each of them that
    /// of V rising; for a rectangular patch that of T₁ rising, and for each of them that of T₂ rising.
    ///
    /// Too few numbers are refused ([`Refused::SHORT`]), and numbers past those that kind and degrees use
    /// are not looked at.
    pub fn first(
        kind: Kind,
        degrees: impl Into<Degrees>,
        frame: &[i64],
        coefficients: &[Components],
    ) -> Result<Net, Refused> {
        let mut net = Net::blank();
        let degrees = degrees.into();
        // a degree outside uses nothing here, and is refused below
        let monomials = kind.entries(degrees).unwrap_or(0);
        let frame: [i64; raw::FRAME] = filled(frame, kind.frame_numbers())?;
        let coefficients: [i64; raw::COEFFICIENTS] =
            filled(coefficients.as_flattened(), 4 * monomials)?;
        let number = raw::first(
            kind as u8,
            degrees.first,
            degrees.second,
            &frame,
            &coefficients,
            &mut net.places,
        );
        answer(number).map(|()| net)
    }

    /// The net with this frame and these entries, in the order of [`Net::frame`] and [`Net::entries`]. A net that
    /// somebody passed on is made again so:
    ///
    /// ```
    /// use gadwemosh::{Kind, Net, Refused, Vertex};
    ///
    /// let entries = [[2, 0, 0, 2], [4, 2, 0, 4], [6, 8, 0, 10]];
    /// let mut net = Net::of_entries(Kind::Curve, 2, &[0, 1, 1, 2], &entries)?;
    /// net.flip(Vertex::S)?;
    /// assert_eq!(net.frame(), [0, 1, -1, -2]);
    /// assert_eq!(net.largest(), 10);
    /// # Ok::<(), Refused>(())
    /// ```
    ///
    /// The largest component is no argument: it is worked out here, from the entries, so that it is right whoever
    /// passed them on. (A net in places of the caller's own, for [`raw`], may have any number there.)
    ///
    /// Nothing is guessed: entries alone do not say over which frame they stand, so the frame must be there, and
    /// it is taken as it is. Its determinant may be 0, and its numbers may be up to 2 to the 48th; one beyond is
    /// refused ([`Refused::FRAME_RANGE`]), as is such a number of an entry ([`Refused::RANGE`]), which is judged
    /// first. Too few numbers or entries are refused ([`Refused::SHORT`]), and those past what kind and degrees
    /// use are not looked at.
    pub fn of_entries(
        kind: Kind,
        degrees: impl Into<Degrees>,
        frame: &[i64],
        entries: &[Components],
    ) -> Result<Net, Refused> {
        let degrees = degrees.into();
        let count = kind.entries(degrees).ok_or(Refused::KIND)?;
        let vertices = frame.get(..kind.frame_numbers()).ok_or(Refused::SHORT)?;
        let used = entries.get(..count).ok_or(Refused::SHORT)?.as_flattened();
        let mut net = Net::blank();
        let head = [kind as u8, degrees.first, degrees.second];
        net.places[..3].copy_from_slice(&head.map(i64::from));
        net.places[raw::FRAME_PLACE..][..vertices.len()].copy_from_slice(vertices);
        net.places[raw::ENTRIES..][..used.len()].copy_from_slice(used);
        // a flip is refused for nothing but the net that it gets, so a copy's flip says how the net is
        net.clone().flip(kind.vertices()[0])?;
        // the numbers are in range, so each has its absolute value
        let largest = used.iter().map(|number| number.abs()).max();
        net.places[raw::LARGEST_PLACE] = largest.unwrap_or(0);
        Ok(net)
    }

    fn blank() -> Net {
        Net {
            places: [0; raw::NET],
        }
    }

    /// Curve, triangular patch or rectangular patch.
    pub fn kind(&self) -> Kind {
        match self.places[0] {
            1 => Kind::Curve,
            2 => Kind::Triangular,
            _ => Kind::Rectangular,
        }
    }

    /// The degrees.
    pub fn degrees(&self) -> Degrees {
        Degrees {
            first: self.places[1] as u8,
            second: self.places[2] as u8,
        }
    }

    /// The frame that the net has reached, vertex by vertex in the order of [`Kind::vertices`]: T, Z of r and s
    /// for a curve, U, V, Z of r, s and t for a triangular patch, T₁, Z₁ of r1 and s1 and T₂, Z₂ of r2 and s2 for a
    /// rectangular one. These are 4, 9 or 8 numbers ([`Kind::frame_numbers`]), none of them beyond 2 to the 48th.
    ///
    /// The frame of a first net is that of its record, or the one that it was made over. A replace that is taken
    /// puts the point at its weights in the vertex's place, and a flip puts the vertex's negative there; a refused
    /// call leaves the frame as it was.
    ///
    /// ```
    /// use gadwemosh::{Kind, Net, Vertex};
    ///
    /// let mut net = Net::first(Kind::Curve, 1, &[0, 1, 1, 1], &[[0, 0, 0, 1], [1, 0, 0, 0]])?;
    /// net.replace(Vertex::S, [1, 1, 0, 0])?;
    /// net.flip(Vertex::R)?;
    /// assert_eq!(net.frame(), [0, -1, 1, 2]);
    /// let mut vertices = net.frame().chunks(net.kind().coordinates());
    /// assert_eq!(vertices.next(), Some(&[0, -1][..]));
    /// # Ok::<(), gadwemosh::Refused>(())
    /// ```
    pub fn frame(&self) -> &[i64] {
        &self.places[raw::FRAME_PLACE..][..self.kind().frame_numbers()]
    }

    /// The entries in their order. For a curve the copies of s rise; for a triangular patch the copies of r
    /// fall, and for each of them those of s fall; for a rectangular patch the copies of s1 rise, and for each
    /// of them those of s2 rise.
    pub fn entries(&self) -> impl ExactSizeIterator<Item = Components> + DoubleEndedIterator + '_ {
        let count = self.kind().entries(self.degrees()).unwrap_or(0);
        let numbers = &self.places[raw::ENTRIES..][..4 * count];
        numbers
            .chunks_exact(4)
            .map(|four| [four[0], four[1], four[2], four[3]])
    }

    /// The largest absolute component of the entries, 0 to 2 to the 48th: the greatest of their numbers, each
    /// without its sign. The net stores it, so nothing is worked out here, and 2 to the 48th less this number is the
    /// room that the entries have left.
    ///
    /// It is worked out when a net is made and by each replace that is taken. A flip, which changes only signs,
    /// leaves it as it is, and so does a refused call.
    ///
    /// ```
    /// use gadwemosh::{Kind, Net, Vertex};
    ///
    /// let mut net = Net::first(Kind::Curve, 1, &[0, 1, 1, 1], &[[0, -7, 0, 1], [1, 4, 0, 0]])?;
    /// assert!(net.entries().eq([[0, -7, 0, 1], [1, -3, 0, 1]]));
    /// assert_eq!(net.largest(), 7);
    /// net.replace(Vertex::R, [1, -2, 0, 0])?;
    /// assert!(net.entries().eq([[-2, -1, 0, -1], [1, -3, 0, 1]]));
    /// assert_eq!(net.largest(), 3);
    /// # Ok::<(), gadwemosh::Refused>(())
    /// ```
    pub fn largest(&self) -> i64 {
        self.places[raw::LARGEST_PLACE]
    }

    /// The run of numbers that the net stands in, as C takes it.
    pub fn places(&self) -> &[i64; raw::NET] {
        &self.places
    }

    /// Takes a move. What is refused leaves the net as it was.
    pub fn take(&mut self, taken: Move) -> Result<(), Refused> {
        answer(raw::make_move(
            &mut self.places,
            taken.operation,
            taken.vertex,
            taken.weights,
        ))
    }

    /// Puts the point at the weights in a vertex's place. A vertex that the kind does not have is refused
    /// ([`Refused::ARGUMENT`]), and so is a point with a number beyond 2 to the 48th ([`Refused::FRAME_RANGE`]).
    pub fn replace(&mut self, vertex: Vertex, weights: Weights) -> Result<(), Refused> {
        self.take(Move {
            operation: raw::REPLACE,
            vertex: self.number_of(vertex),
            weights,
        })
    }

    /// Puts a vertex's negative in its place. A vertex that the kind does not have is refused
    /// ([`Refused::ARGUMENT`]).
    ///
    /// A second flip of the vertex restores the net. A flip and then a replace of another vertex leave what the replace
    /// and then the flip leave, with the flipped vertex's weight negated if the two are in one pair.
    pub fn flip(&mut self, vertex: Vertex) -> Result<(), Refused> {
        self.take(Move {
            operation: raw::FLIP,
            vertex: self.number_of(vertex),
            weights: [0; 4],
        })
    }

    /// The number of a vertex on this net; 0, which is no vertex, where the kind does not have it.
    fn number_of(&self, vertex: Vertex) -> u8 {
        if self.kind().vertices().contains(&vertex) {
            vertex.number()
        } else {
            0
        }
    }

    /// The point at the weights. [`Found::project`] says where it lies.
    pub fn point(&self, weights: Weights) -> Result<Found, Refused> {
        let mut found = [0; raw::FOUND];
        answer(raw::point(&self.places, weights, &mut found)).map(|()| Found::of(found))
    }
}

/// The numbers in use, in as many places as the library wants.
fn filled<const PLACES: usize>(numbers: &[i64], used: usize) -> Result<[i64; PLACES], Refused> {
    let mut all = [0; PLACES];
    all[..used].copy_from_slice(numbers.get(..used).ok_or(Refused::SHORT)?);
    Ok(all)
}
