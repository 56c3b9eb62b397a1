//! The functions of the static library, one to one, over lent slices.
//!
//! Each takes the buffers as they are, of any length and with any numbers, and answers with a number: 0
//! where nothing is refused, or the number of a refusal ([`Refused`](crate::Refused) names them). A call
//! that is refused leaves the lent net, point, bits, direction or text as it was; the single numbers that
//! go with an answer, `offset`, `start`, `length` and `outcome`, are set with every answer.
//! `include/gadwemosh.h` says what stands where in a net, and more of each function.
//!
//! All of them are safe to call. A slice brings its own length, its pointer is never null, and what is
//! lent to be written is lent to nobody else: that is all that the library takes for granted.

/// The C functions, declared once.
mod c {
    unsafe extern "C" {
        pub fn gadwemosh_open(
            record: *const u8,
            record_length: usize,
            net: *mut i64,
            net_length: usize,
            offset: *mut u64,
        ) -> u8;
        pub fn gadwemosh_first(
            kind: u8,
            degree: u8,
            second: u8,
            frame: *const i64,
            frame_length: usize,
            coefficients: *const i64,
            coefficients_length: usize,
            net: *mut i64,
            net_length: usize,
        ) -> u8;
        pub fn gadwemosh_move(
            net: *mut i64,
            net_length: usize,
            operation: u8,
            vertex: u8,
            r: i64,
            s: i64,
            t: i64,
            u: i64,
        ) -> u8;
        pub fn gadwemosh_point(
            net: *const i64,
            net_length: usize,
            r: i64,
            s: i64,
            t: i64,
            u: i64,
            found: *mut i64,
            found_length: usize,
        ) -> u8;
        pub fn gadwemosh_project(
            x: i64,
            y: i64,
            z: i64,
            w: i64,
            outcome: *mut u8,
            bits: *mut u64,
            bits_length: usize,
            direction: *mut i64,
            direction_length: usize,
        ) -> u8;
        pub fn gadwemosh_project_found(
            found: *const i64,
            found_length: usize,
            outcome: *mut u8,
            bits: *mut u64,
            bits_length: usize,
            direction: *mut i64,
            direction_length: usize,
        ) -> u8;
        pub fn gadwemosh_field(
            record: *const u8,
            record_length: usize,
            tag: u8,
            start: *mut u64,
            length: *mut u64,
        ) -> u8;
        pub fn gadwemosh_text(
            record: *const u8,
            record_length: usize,
            out: *mut u8,
            out_length: usize,
            length: *mut u64,
        ) -> u8;
    }
}

/// How many places a net has at least.
pub const NET: usize = 193;

/// At which place of a net the numbers of its frame begin;
/// [`Kind::frame_numbers`](crate::Kind::frame_numbers) says how many there are.
pub const FRAME_PLACE: usize = 3;

/// At which place of a net its entries begin.
pub const ENTRIES: usize = 12;

/// At which place of a net the largest absolute component of its entries stands. A lent net may have any
/// number there: [`open`], [`first`] and a replace that is taken work it out, a flip hands on the number that
/// it was given, and what is refused leaves it.
pub const LARGEST_PLACE: usize = 192;

/// How many numbers [`first`] wants of a frame at least; a curve uses the first four, a rectangular patch the
/// first eight.
pub const FRAME: usize = 9;

/// How many coefficients [`first`] wants at least; kind and degrees say how many it uses.
pub const COEFFICIENTS: usize = 180;

/// How many places [`point`] wants for what it finds at least: the point's four numbers and the four
/// projected.
pub const FOUND: usize = 8;

/// No text of a record has more bytes.
pub const LONGEST_TEXT: usize = 4183;

/// The operation of [`make_move`] that replaces a vertex.
pub const REPLACE: u8 = 1;

/// The operation of [`make_move`] that flips a vertex.
pub const FLIP: u8 = 2;

/// The outcome of [`project`] and of [`project_found`] that is a finite point.
pub const FINITE: u8 = 1;

/// The outcome of [`project`] and of [`project_found`] that is a direction.
pub const DIRECTION: u8 = 2;

/// The outcome of [`project`] and of [`project_found`] that is nowhere.
pub const NOWHERE: u8 = 3;

/// Opens a record and writes its first net (`gadwemosh_open`). `offset` is set to the place in the record
/// where the cause of a refusal stands, and to 0 where the answer is 0 or 11.
#[inline]
#[must_use]
pub fn open(record: &[u8], net: &mut [i64], offset: &mut u64) -> u8 {
    // SAFETY: each pointer comes from a borrow, with its length; those that are written are exclusive.
    unsafe {
        c::gadwemosh_open(
            record.as_ptr(),
            record.len(),
            net.as_mut_ptr(),
            net.len(),
            offset,
        )
    }
}

/// Makes the first net of polynomials over a frame, without a record (`gadwemosh_first`). The second degree
/// is that of a rectangular patch, and 0 for the other kinds. The frame wants [`FRAME`] numbers and the
/// coefficients want [`COEFFICIENTS`]; those that kind and degrees do not use may be anything. The frame's
/// numbers are written into the net too, from [`FRAME_PLACE`] on, and the largest component to
/// [`LARGEST_PLACE`].
#[inline]
#[must_use]
pub fn first(
    kind: u8,
    degree: u8,
    second: u8,
    frame: &[i64],
    coefficients: &[i64],
    net: &mut [i64],
) -> u8 {
    // SAFETY: as in `open`.
    unsafe {
        c::gadwemosh_first(
            kind,
            degree,
            second,
            frame.as_ptr(),
            frame.len(),
            coefficients.as_ptr(),
            coefficients.len(),
            net.as_mut_ptr(),
            net.len(),
        )
    }
}

/// Replaces or flips a vertex of a lent net (`gadwemosh_move`): a move that is taken writes the entries and
/// the vertex's numbers in the frame, and a replace also the largest component. The weights are those of r, s
/// and t; for a rectangular patch the first two are those of the vertex's own pair. The others are 0.
#[inline]
#[must_use]
pub fn make_move(net: &mut [i64], operation: u8, vertex: u8, weights: [i64; 4]) -> u8 {
    let [r, s, t, u] = weights;
    // SAFETY: as in `open`.
    unsafe { c::gadwemosh_move(net.as_mut_ptr(), net.len(), operation, vertex, r, s, t, u) }
}

/// Finds the point at the weights on a lent net (`gadwemosh_point`): x, y, z and w go into the first four
/// places of `found`, and the numbers projected into the four behind them ([`Found`](crate::Found) says what
/// these are). The weights are those of r, s and t, or of r1, s1, r2 and s2; the others are 0. 11 where
/// `found` has fewer than [`FOUND`] places.
#[inline]
#[must_use]
pub fn point(net: &[i64], weights: [i64; 4], found: &mut [i64]) -> u8 {
    let [r, s, t, u] = weights;
    // SAFETY: as in `open`.
    unsafe {
        c::gadwemosh_point(
            net.as_ptr(),
            net.len(),
            r,
            s,
            t,
            u,
            found.as_mut_ptr(),
            found.len(),
        )
    }
}

/// Projects four numbers (`gadwemosh_project`), as those of an entry. `outcome` is set to [`FINITE`],
/// [`DIRECTION`] or [`NOWHERE`], and to 0 where the answer is a refusal. A finite point is written to the
/// first three places of `bits`, as bit patterns of `f64`; a direction is written to the first three of
/// `direction`, and its length to the fourth.
#[inline]
#[must_use]
pub fn project(
    [x, y, z, w]: [i64; 4],
    outcome: &mut u8,
    bits: &mut [u64],
    direction: &mut [i64],
) -> u8 {
    // SAFETY: as in `open`.
    unsafe {
        c::gadwemosh_project(
            x,
            y,
            z,
            w,
            outcome,
            bits.as_mut_ptr(),
            bits.len(),
            direction.as_mut_ptr(),
            direction.len(),
        )
    }
}

/// Projects what [`point`] found (`gadwemosh_project_found`), by the first [`FOUND`] numbers of `found`: the
/// second four of them, as [`project`] does, but a direction has length 1 where the first four are zeros. 11
/// where there are fewer numbers; the first four may be any.
#[inline]
#[must_use]
pub fn project_found(
    found: &[i64],
    outcome: &mut u8,
    bits: &mut [u64],
    direction: &mut [i64],
) -> u8 {
    // SAFETY: as in `open`.
    unsafe {
        c::gadwemosh_project_found(
            found.as_ptr(),
            found.len(),
            outcome,
            bits.as_mut_ptr(),
            bits.len(),
            direction.as_mut_ptr(),
            direction.len(),
        )
    }
}

/// Finds the field with the tag in a record (`gadwemosh_field`). The answer is the record's refusal;
/// `start` and `length` are set to where the field's value stands. That is the empty part at the record's
/// end where the record is refused or has no such field.
#[inline]
#[must_use]
pub fn field(record: &[u8], tag: u8, start: &mut u64, length: &mut u64) -> u8 {
    // SAFETY: as in `open`.
    unsafe { c::gadwemosh_field(record.as_ptr(), record.len(), tag, start, length) }
}

/// Writes the text that the program `netprint` prints for a record (`gadwemosh_text`). `length` is set to
/// how many bytes the text has, and to 0 where `out` is too short for it.
#[inline]
#[must_use]
pub fn text(record: &[u8], out: &mut [u8], length: &mut u64) -> u8 {
    // SAFETY: as in `open`.
    unsafe {
        c::gadwemosh_text(
            record.as_ptr(),
            record.len(),
            out.as_mut_ptr(),
            out.len(),
            length,
        )
    }
}
