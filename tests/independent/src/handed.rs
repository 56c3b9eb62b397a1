//! Calls on a handed net of any numbers at all. Nothing is known of polynomials
//! here: polar values are linear in each place, so a q is traded for the vertices,
//! each with its weight, until only entries of the net are left. The frame that the
//! net carries is taken as it is: whether it is that of the entries nobody asks. So is the
//! largest component that it claims, which a replace works out anew and a flip hands on.

use crate::calls::{place_of, refused_by_itself, Answer, Call, Weights, FLIP, REPLACE};
use crate::exact::Exact;
use crate::left::{left, Left};
use crate::polar::trinomial;
use crate::projection::project_found;
use crate::record::Record;
use crate::shape::{in_range, Copies, Kind, Shape, RANGE};
use std::ops::Range;

/// So many places a net has at least; fewer are refused, 11, and further ones are its
/// owner's.
pub const PLACES: usize = 193;

/// Where the frame begins, after kind, degree and second degree.
pub const FRAME: usize = 3;

/// Where the entries begin, after nine places for the frame.
pub const ENTRIES: usize = 12;

/// Where the largest absolute component of the entries stands, after the places for them.
pub const LARGEST: usize = 192;

/// A net in a run of 64-bit numbers: kind, degree and second degree (0 for a curve or
/// triangular patch) at 0, 1 and 2, the numbers of the frame from 3 on, vertex by vertex (four of
/// a curve, nine of a patch, eight of a rectangular patch), the components of entry e at 12 + 4e
/// and the three places after it, the largest absolute component at 192. All other places hold anything.
#[derive(Clone, Debug, PartialEq, Eq)]
pub struct Net(pub Vec<i64>);

type Entries = Vec<[i64; 4]>;

impl Net {
    pub fn empty() -> Net {
        Net(vec![0; PLACES])
    }

    pub fn is_short(&self) -> bool {
        self.0.len() < PLACES
    }

    /// Writes a first net: kind, degrees, the record's frame, the entries and the largest component of them.
    pub fn write_first(&mut self, record: &Record, entries: &[[i64; 4]]) {
        self.write(record.shape, entries);
        self.write_frame(&record.frame_numbers());
    }

    /// Writes the numbers of a frame; the places past them keep their values.
    pub fn write_frame(&mut self, numbers: &[i64]) {
        self.0[FRAME..FRAME + numbers.len()].copy_from_slice(numbers);
    }

    /// Writes kind, degrees, entries and their largest component, whatever stood there; the frame
    /// and the unused places keep their values.
    pub fn write(&mut self, shape: Shape, entries: &[[i64; 4]]) {
        self.0[..3].copy_from_slice(&head(shape));
        self.write_entries(entries);
        self.0[LARGEST] = largest(entries);
    }

    /// Writes the entries alone.
    pub fn write_entries(&mut self, entries: &[[i64; 4]]) {
        for (place, number) in self.0[ENTRIES..].iter_mut().zip(entries.iter().flatten()) {
            *place = *number;
        }
    }

    /// What the net claims as its largest component, right or wrong; the run must be long enough.
    pub fn claimed(&self) -> i64 {
        self.0[LARGEST]
    }

    /// The kind that the run says it is of, whatever else is wrong with it.
    pub fn kind(&self) -> Option<Kind> {
        self.0.first().and_then(|&number| Kind::numbered(number))
    }

    pub fn shape(&self) -> Option<Shape> {
        Shape::named(self.0[0], self.0[1], self.0[2])
    }

    /// The numbers of the frame.
    pub fn frame(&self, shape: Shape) -> &[i64] {
        &self.0[FRAME..FRAME + shape.kind.frame_numbers()]
    }

    /// Where the numbers of a vertex stand; vertices are counted from 1.
    pub fn vertex_places(shape: Shape, vertex: u8) -> Range<usize> {
        let numbers = shape.kind.vertex_numbers();
        let first = FRAME + numbers * place_of(vertex);
        first..first + numbers
    }

    /// q of the weights of one group, in 128 bits: a handed frame has any 64-bit numbers.
    pub fn named(&self, shape: Shape, group: usize, weights: &[i64]) -> Vec<i128> {
        let mut q = vec![0; shape.kind.vertex_numbers()];
        for (place, &weight) in shape.groups()[group].span().zip(weights) {
            for (sum, number) in q.iter_mut().zip(&self.0[Net::vertex_places(shape, place as u8 + 1)]) {
                *sum += i128::from(weight) * i128::from(*number);
            }
        }
        q
    }

    /// The vertex that a move puts in place of this one, by the weights or by a flip.
    pub fn new_vertex(&self, shape: Shape, operation: u8, vertex: u8, weights: Weights) -> Vec<i128> {
        if operation == FLIP {
            return self.0[Net::vertex_places(shape, vertex)].iter().map(|&number| -i128::from(number)).collect();
        }
        self.named(shape, shape.kind.group_of(place_of(vertex)), &weights)
    }

    pub fn frame_in_range(&self, shape: Shape) -> bool {
        self.frame(shape).iter().all(|&number| in_range(number))
    }

    /// The numbers of the entries that this shape uses.
    pub fn numbers(&self, shape: Shape) -> &[i64] {
        &self.0[ENTRIES..ENTRIES + 4 * shape.places()]
    }

    /// The same, entry by entry.
    pub fn used(&self, shape: Shape) -> Entries {
        let entry = |four: &[i64]| [four[0], four[1], four[2], four[3]];
        self.numbers(shape).chunks(4).map(entry).collect()
    }

    /// The largest absolute component of these entries, whatever the net claims.
    pub fn most(&self, shape: Shape) -> i64 {
        largest(&self.used(shape))
    }

    /// The net of the same rectangular patch with its two pairs exchanged, frame and entries.
    pub fn with_pairs_exchanged(&self, shape: Shape) -> Net {
        let [p, q] = shape.degrees;
        let entries = self.used(shape);
        let turned: Entries = (0..=q).flat_map(|j| (0..=p).map(move |i| i * (q + 1) + j)).map(|place| entries[place]).collect();
        let mut other = self.clone();
        other.0[..3].copy_from_slice(&head(Shape::rect(q, p)));
        other.write_entries(&turned);
        let (first, second) = self.frame(shape).split_at(shape.kind.frame_numbers() / 2);
        other.write_frame(&[second, first].concat());
        other
    }

    /// The pair with which a point on a rectangular patch is refused for size, counted from
    /// 0; the net and the weights must be in order.
    pub fn refused_in_pair(&self, shape: Shape, weights: Weights) -> Option<usize> {
        at_point(shape, self.used(shape), weights).err()
    }

    /// The shape of a net on which nothing but size can refuse this call, or the number of the
    /// first refusal before: the room (11), the net itself (4, then 10), the call (8, 9), the
    /// handed frame, whatever the call, and the q of a replace (12).
    pub fn judged(&self, call: &Call) -> Result<Shape, u8> {
        if self.is_short() {
            return Err(11);
        }
        let shape = self.shape().ok_or(4)?;
        if !self.numbers(shape).iter().all(|&component| in_range(component)) {
            return Err(10);
        }
        if let Some(number) = refused_by_itself(shape.kind, call) {
            return Err(number);
        }
        let q = match *call {
            Call::Move { operation: REPLACE, vertex, weights } => self.new_vertex(shape, REPLACE, vertex, weights),
            _ => Vec::new(),
        };
        if !self.frame_in_range(shape) || !q.iter().all(|&number| within_range(number)) {
            return Err(12);
        }
        Ok(shape)
    }

    /// What is refused before size, then size (10). A refused call leaves the net, and so does
    /// a point. A move that is taken leaves all of the frame but its vertex. The largest component
    /// is worked out by a replace and handed on by a flip.
    pub fn answer(&mut self, call: &Call) -> Answer {
        self.try_answer(call).unwrap_or_else(Answer::Refused)
    }

    fn try_answer(&mut self, call: &Call) -> Result<Answer, u8> {
        let shape = self.judged(call)?;
        let entries = self.used(shape);
        let (operation, vertex, weights) = match *call {
            Call::Move { operation, vertex, weights } => (operation, vertex, weights),
            Call::Point { weights } => return self.found(shape, weights),
        };
        let new = self.new_vertex(shape, operation, vertex, weights);
        if operation == FLIP {
            self.write_entries(&flipped(shape, &entries, vertex));
        } else {
            let group = shape.kind.group_of(place_of(vertex));
            let levels = levels(shape, entries, group, &weights).ok_or(10)?;
            self.write(shape, &replaced(shape, &levels, vertex));
        }
        self.write_vertex(shape, vertex, &new);
        Ok(Answer::Taken)
    }

    fn found(&self, shape: Shape, weights: Weights) -> Result<Answer, u8> {
        let point = at_point(shape, self.used(shape), weights).map_err(|_| 10)?;
        let zero = shape.kind == Kind::Curve && point == [0; 4];
        let projected = if zero { self.left(shape, weights).map_or(point, |left| left.numbers) } else { point };
        let [x, y, z, w] = point;
        Ok(Answer::Point { x, y, z, w, projected, projection: project_found(point, projected)? })
    }

    /// What is left of a curve at weights at which its point is four zeros; nothing if all entries are. The
    /// entries, times their binomials, are the coefficients of four forms in the weights of s and r, whatever
    /// the frame.
    pub fn left(&self, shape: Shape, [r, s, ..]: Weights) -> Option<Left> {
        let degree = shape.degrees[0];
        let entries = self.used(shape);
        let coefficient = |k: usize, c: usize| Exact::from_i64(entries[k][c]).mul_i64(trinomial(degree, (k, 0)));
        let forms = [0, 1, 2, 3].map(|c| (0..=degree).map(|k| coefficient(k, c)).collect());
        let other = if s == 0 { [1, 0] } else { [0, 1] };
        left(forms, &[s, r].map(Exact::from_i64), &other.map(Exact::from_i64))
    }

    /// The numbers of a vertex in its places; they are known to be 64-bit ones.
    pub fn write_vertex(&mut self, shape: Shape, vertex: u8, numbers: &[i128]) {
        for (place, &number) in Net::vertex_places(shape, vertex).zip(numbers) {
            self.0[place] = number as i64;
        }
    }
}

/// The largest absolute component. That of i64::MIN, which no accepted net has, is not told
/// from that of the number after it.
pub fn largest(entries: &[[i64; 4]]) -> i64 {
    entries.iter().flatten().map(|component| component.saturating_abs()).max().unwrap_or(0)
}

fn within_range(number: i128) -> bool {
    number.abs() <= i128::from(RANGE)
}

/// Kind, degree and second degree.
pub fn head(shape: Shape) -> [i64; 3] {
    [i64::from(shape.kind.number()), shape.degrees[0] as i64, shape.degrees[1] as i64]
}

fn all_in_range(entries: &[[i64; 4]]) -> bool {
    entries.iter().flatten().all(|&component| in_range(component))
}

/// Each copy of the vertex brings one minus sign, and two of them cancel.
fn flipped(shape: Shape, entries: &[[i64; 4]], vertex: u8) -> Entries {
    let odd = |copies: &Copies| copies[place_of(vertex)] % 2 == 1;
    let turn = |(copies, entry): (&Copies, &[i64; 4])| if odd(copies) { entry.map(|c| -c) } else { *entry };
    shape.copies().iter().zip(entries).map(turn).collect()
}

/// Level n holds the polar values with n copies of q and all other points from the frame,
/// q being named by a group's weights and taken in place of its vertices. They stand in
/// the order of a net whose degree of that group is n less. All levels together are all
/// the polar values with any number of q; nothing if one of them is out of range.
fn levels(shape: Shape, entries: Entries, group: usize, weights: &[i64]) -> Option<Vec<Entries>> {
    let mut levels = vec![entries];
    for left in (0..shape.degrees[group]).rev() {
        let next = one_more(shape.with_degree(group, left), &levels[levels.len() - 1], group, weights);
        if !all_in_range(&next) {
            return None;
        }
        levels.push(next);
    }
    Some(levels)
}

/// Puts q in one place more, which leaves a net of this shape. The level below is in range,
/// so a sum of three of its numbers times 4096 is within 2 to the 62nd.
fn one_more(shape: Shape, below: &[[i64; 4]], group: usize, weights: &[i64]) -> Entries {
    let longer_shape = shape.with_degree(group, shape.degrees[group] + 1);
    let vertices = shape.groups()[group].span();
    let sum_at = |copies: Copies| {
        let mut sum = [0; 4];
        for (vertex, weight) in vertices.clone().zip(weights) {
            let mut longer = copies;
            longer[vertex] += 1;
            let entry = below[longer_shape.place(&longer)];
            for (total, component) in sum.iter_mut().zip(entry) {
                *total += weight * component;
            }
        }
        sum
    };
    shape.copies().into_iter().map(sum_at).collect()
}

/// Over the new frame, each copy of the vertex is a copy of q.
fn replaced(shape: Shape, levels: &[Entries], vertex: u8) -> Entries {
    let at = place_of(vertex);
    let group = shape.kind.group_of(at);
    let entry = |copies: Copies| {
        let taken = copies[at];
        let mut others = copies;
        others[at] = 0;
        levels[taken][shape.with_degree(group, shape.degrees[group] - taken).place(&others)]
    };
    shape.copies().into_iter().map(entry).collect()
}

/// One group after the other gives way to its q, until one polar value is left; the group's
/// number if one on the way is out of range.
fn at_point(mut shape: Shape, mut entries: Entries, weights: Weights) -> Result<[i64; 4], usize> {
    for (group, weights) in shape.kind.grouped(&weights).iter().enumerate() {
        let mut levels = levels(shape, entries, group, weights).ok_or(group)?;
        entries = levels.pop().expect("at least the entries");
        shape = shape.with_degree(group, 0);
    }
    Ok(entries[0])
}

#[cfg(test)]
mod tests {
    use super::*;
    use crate::calls::NO_WEIGHTS;
    use crate::projection::Projection;

    #[test]
    fn only_numbers_in_use_are_read_and_written() {
        let shape = Shape::curve(1);
        let mut net = Net((0..200).map(|place| i64::MIN + place).collect());
        let before = net.clone();
        net.write(shape, &[[1, 2, 3, 4], [5, 6, 7, 8]]);
        net.write_frame(&[0, 1, 1, 1]);
        assert_eq!(net.0[..7], [1, 1, 0, 0, 1, 1, 1]);
        assert_eq!(net.0[7..12], before.0[7..12]);
        assert_eq!(net.0[12..20], [1, 2, 3, 4, 5, 6, 7, 8]);
        assert_eq!(net.0[20..192], before.0[20..192]);
        assert_eq!((net.0[192], &net.0[193..]), (8, &before.0[193..]));
        let flip = Call::Move { operation: FLIP, vertex: 2, weights: NO_WEIGHTS };
        assert_eq!(net.answer(&flip), Answer::Taken);
        assert_eq!(net.0[..7], [1, 1, 0, 0, 1, -1, -1]);
        assert_eq!(net.0[7..12], before.0[7..12]);
        assert_eq!(net.0[12..21], [1, 2, 3, 4, -5, -6, -7, -8, before.0[20]]);
        assert_eq!((net.0[192], &net.0[193..]), (8, &before.0[193..]));
    }

    /// Whatever stands in its place: a replace works it out, a flip hands it on, and a point or a
    /// refused call leaves it.
    #[test]
    fn the_largest_component_of_a_handed_net() {
        let replace = |weights| Call::Move { operation: REPLACE, vertex: 2, weights };
        let flip = Call::Move { operation: FLIP, vertex: 2, weights: NO_WEIGHTS };
        for claim in [0, 1, 7, 8, 9, -8, RANGE, RANGE + 1, i64::MAX, i64::MIN] {
            let mut net = Net::empty();
            net.write(Shape::curve(1), &[[1, -2, 3, 0], [-7, 0, 0, 4]]);
            net.write_frame(&[0, 1, 1, 1]);
            assert_eq!(net.claimed(), 7);
            net.0[LARGEST] = claim;
            // what is not in use is not looked at
            net.0[20] = i64::MIN;
            let before = net.clone();
            let asked = [(replace([0, 0, 0, 0]), 9), (replace([0, 4097, 0, 0]), 8), (Call::Point { weights: NO_WEIGHTS }, 9)];
            for (call, number) in asked {
                assert_eq!(net.answer(&call), Answer::Refused(number));
                assert_eq!(net, before);
            }
            assert!(matches!(net.answer(&Call::Point { weights: [1, 1, 0, 0] }), Answer::Point { x: -6, .. }));
            assert_eq!(net, before);
            assert_eq!(net.answer(&flip), Answer::Taken);
            assert_eq!((net.claimed(), net.0[16]), (claim, 7));
            assert_eq!(net.answer(&flip), Answer::Taken);
            assert_eq!(net, before);
            // 8 times the first entry less the second, and back
            assert_eq!(net.answer(&replace([8, -1, 0, 0])), Answer::Taken);
            assert_eq!((&net.0[16..20], net.claimed()), (&[15, -16, 24, -4][..], 24));
            assert_eq!(net.answer(&replace([-8, 1, 0, 0])), Answer::Taken);
            assert_eq!((&net.0[16..20], net.claimed()), (&[7, 0, 0, -4][..], 7));
            assert_eq!(net.answer(&replace([4096, RANGE, 0, 0])), Answer::Refused(8));
            assert_eq!((net.claimed(), net.0[20]), (7, i64::MIN));
        }
    }

    /// A net of zeros of degree 1 over this frame.
    fn zeros(shape: Shape, frame: &[i64]) -> Net {
        let mut net = Net::empty();
        net.write(shape, &vec![[0; 4]; shape.places()]);
        net.write_frame(frame);
        net
    }

    #[test]
    fn a_move_changes_its_own_vertex_in_the_frame() {
        let replace = |vertex, weights| Call::Move { operation: REPLACE, vertex, weights };
        let flip = |vertex| Call::Move { operation: FLIP, vertex, weights: NO_WEIGHTS };
        let (patch, rect) = (Shape::patch(1), Shape::rect(1, 1));
        for (shape, frame, call, wanted) in [
            (patch, &[1, 2, 3, 4, 5, 6, 7, 8, 9][..], replace(2, [1, 10, -1, 0]), &[1, 2, 3, 34, 44, 54, 7, 8, 9][..]),
            (patch, &[1, 2, 3, 4, 5, 6, 7, 8, 9], flip(3), &[1, 2, 3, 4, 5, 6, -7, -8, -9]),
            (rect, &[1, 2, 3, 4, 5, 6, 7, 8], replace(3, [2, 1, 0, 0]), &[1, 2, 3, 4, 17, 20, 7, 8]),
            (rect, &[1, 2, 3, 4, 5, 6, 7, 8], replace(2, [2, 1, 0, 0]), &[1, 2, 5, 8, 5, 6, 7, 8]),
            (rect, &[1, 2, 3, 4, 5, 6, 7, 8], flip(4), &[1, 2, 3, 4, 5, 6, -7, -8]),
            (patch, &[0; 9], replace(1, [1, 1, 1, 0]), &[0; 9]),
        ] {
            let mut net = zeros(shape, frame);
            assert_eq!(net.answer(&call), Answer::Taken);
            assert_eq!(net, zeros(shape, wanted));
        }
    }

    /// 2 to the 48th passes in the frame and in q, one more is 12: in the frame for every call,
    /// in q for a replace alone. 8 and 9 go before it, and size comes after it.
    #[test]
    fn a_frame_beyond_the_range_is_twelve() {
        let shape = Shape::curve(1);
        let replace = |weights| Call::Move { operation: REPLACE, vertex: 2, weights };
        let flip = Call::Move { operation: FLIP, vertex: 2, weights: NO_WEIGHTS };
        let point = |weights| Call::Point { weights };
        let answer = |frame: [i64; 4], x: i64, call: Call| {
            let mut net = zeros(shape, &frame);
            net.0[ENTRIES + 4] = x;
            match net.answer(&call) {
                Answer::Refused(number) => number,
                _ => 0,
            }
        };
        for edge in [RANGE, -RANGE] {
            let one = edge.signum();
            let frame = [0, edge, 1, one];
            assert_eq!(answer(frame, 0, replace([1, 0, 0, 0])), 9);
            assert_eq!(answer(frame, 0, replace([1, -1, 0, 0])), 0);
            assert_eq!(answer(frame, 0, replace([1, 1, 0, 0])), 12);
            assert_eq!(answer(frame, 0, replace([4096, 0, 0, 0])), 9);
            assert_eq!(answer(frame, 0, replace([4096, 1, 1, 0])), 8);
            assert_eq!(answer(frame, RANGE, replace([1, 2, 0, 0])), 12);
            assert_eq!(answer(frame, RANGE, replace([0, 2, 0, 0])), 10);
            assert_eq!(answer(frame, RANGE + 1, replace([1, 1, 0, 0])), 10);
            assert_eq!(answer(frame, 0, point([4096, 4096, 0, 0])), 0);
            assert_eq!(answer(frame, 0, flip), 0);
        }
        for beyond in [RANGE + 1, -RANGE - 1, i64::MAX, i64::MIN] {
            for frame in [[beyond, 0, 0, 0], [0, beyond, 0, 0], [0, 0, beyond, 0], [0, 0, 0, beyond]] {
                assert_eq!(answer(frame, 0, replace([0, 1, 0, 0])), 12);
                assert_eq!(answer(frame, 0, flip), 12);
                assert_eq!(answer(frame, 0, point([0, 1, 0, 0])), 12);
                assert_eq!(answer(frame, 0, point([0, 0, 0, 0])), 9);
                assert_eq!(answer(frame, RANGE, point([0, 2, 0, 0])), 12);
                assert_eq!(answer(frame, RANGE + 1, flip), 10);
            }
        }
    }

    /// Of degree 2 with entries 0, e and f, over any frame: αr is a zero of order 1 and αe is projected
    /// there; with e = 0 it is of order 2, and f is projected, whatever α is.
    #[test]
    fn a_common_zero_of_a_handed_net() {
        let shape = Shape::curve(2);
        let at = |entries: [[i64; 4]; 3], frame: [i64; 4], r, s| {
            let mut net = zeros(shape, &frame);
            net.write_entries(&entries);
            let before = net.clone();
            let answer = net.answer(&Call::Point { weights: [r, s, 0, 0] });
            assert_eq!(net, before);
            match answer {
                Answer::Point { x, y, z, w, projected, projection } => ([x, y, z, w], projected, projection),
                _ => unreachable!("a point in range"),
            }
        };
        let far = |length| Projection::Direction { x: 2, y: -3, z: 0, length };
        let [e, f] = [[-4, 6, 0, 0], [0, 0, 0, 8]];
        for frame in [[0, 0, 0, 0], [1, 2, 2, 4], [0, 1, 1, 1], [RANGE, 0, 0, -RANGE]] {
            assert_eq!(at([[0; 4], e, f], frame, 1, 0), ([0; 4], e, far(1)));
            assert_eq!(at([[0; 4], e, f], frame, -3, 0), ([0; 4], [12, -18, 0, 0], far(1)));
            assert_eq!(at([f, e, [0; 4]], frame, 0, 5), ([0; 4], [-20, 30, 0, 0], far(1)));
            assert_eq!(at([e, e, [0; 4]], frame, 1, 0), (e, e, far(2)));
            let finite = at([[0; 4], [0; 4], f], frame, 7, 0);
            assert_eq!(finite, ([0; 4], f, Projection::Finite { x: 0, y: 0, z: 0 }));
            assert_eq!(at([[0; 4]; 3], frame, 7, 1), ([0; 4], [0; 4], Projection::Nowhere));
            // e (a − b)(a + b): between r and s, l = a − b and r is the other vertex; e (a − b)^2
            let against = e.map(|number| -number);
            assert_eq!(at([e, [0; 4], against], frame, 2, 2), ([0; 4], e.map(|n| 2 * n), far(1)));
            assert_eq!(at([e, against, e], frame, 3, 3), ([0; 4], e, far(1)));
        }
    }

    #[test]
    fn room_goes_before_the_head() {
        let flip = Call::Move { operation: FLIP, vertex: 1, weights: NO_WEIGHTS };
        for (length, head, number) in [
            (192, [0, 1, 0], 11),
            (0, [0, 1, 0], 11),
            (192, [3, 1, 1], 11),
            (193, [0, 1, 0], 4),
            (193, [1, 1, 1], 4),
            (194, [1, 1, -1], 4),
            (193, [2, 1, 1], 4),
            (193, [3, 1, 0], 4),
            (193, [3, 0, 1], 4),
            (193, [3, 6, 5], 4),
            (193, [3, 5, 261], 4),
            (193, [259, 5, 5], 4),
        ] {
            let mut run = head.to_vec();
            run.resize(length, 0);
            assert_eq!(Net(run).answer(&flip), Answer::Refused(number));
        }
    }

    /// A net of bidegree (1, 1) with entries in x alone: r1 r2, r1 s2, s1 r2, s1 s2.
    fn bilinear(x: [i64; 4]) -> Net {
        let mut net = Net::empty();
        net.write(Shape::rect(1, 1), &x.map(|x| [x, 0, 0, 0]));
        net
    }

    fn point(net: &mut Net, weights: Weights) -> Result<i64, u8> {
        match net.answer(&Call::Point { weights }) {
            Answer::Point { x, .. } => Ok(x),
            Answer::Refused(number) => Err(number),
            Answer::Taken => unreachable!("a point is found or refused"),
        }
    }

    /// Its size is tested with q1 and the second pair's frame, then with q1 and q2: never
    /// with the first pair's frame and q2.
    #[test]
    fn the_size_of_a_point_is_not_symmetric_in_the_pairs() {
        let full = crate::shape::RANGE;
        // r1 at q2 is 2 to the 49th, which only a symmetric test would refuse.
        assert_eq!(point(&mut bilinear([full, full, -full, -full]), [1, 1, 1, 1]), Ok(0));
        // The same with the pairs exchanged: q1 at r2 is refused in the first stage.
        assert_eq!(point(&mut bilinear([full, -full, full, -full]), [1, 1, 1, 1]), Err(10));
        // Within the range for q1 over the second pair, and not at q1, q2.
        assert_eq!(point(&mut bilinear([full, full, 0, 0]), [1, 1, 1, 1]), Err(10));
        assert_eq!(point(&mut bilinear([full, full, 0, 0]), [1, 1, 1, 0]), Ok(full));
        assert_eq!(point(&mut bilinear([full, 1, 0, 0]), [1, 1, 1, -1]), Ok(full - 1));
    }

    /// With q1 = r1 nothing new comes in the first stage; in the second, over r2 r2, r2 s2,
    /// s2 s2 of 2^48, 0 and −2^48, the value at q2 = 2 r2 + 2 s2 is 0, and r2 q2 is 2^49.
    #[test]
    fn the_second_stage_refuses_on_its_way() {
        let full = crate::shape::RANGE;
        let mut net = Net::empty();
        let x = [full, 0, -full, 0, 0, 0, 0, 0, 0];
        net.write(Shape::rect(2, 2), &x.map(|x| [x, 0, 0, 0]));
        assert_eq!(point(&mut net, [1, 0, 1, 1]), Ok(0));
        assert_eq!(point(&mut net, [1, 0, 2, 2]), Err(10));
        assert_eq!(point(&mut net, [0, 1, 2, 2]), Ok(0));
    }

    /// A replace takes its own pair's points from that pair and q, the other's from its frame.
    #[test]
    fn a_replace_looks_at_its_own_pair() {
        let full = crate::shape::RANGE;
        let replace = |vertex, weights| Call::Move { operation: 1, vertex, weights };
        for (vertex, x, weights, wanted) in [
            (1, [full, full, -full, -full], [1, 1, 0, 0], Ok([0, 0, -full, -full])),
            (3, [full, full, -full, -full], [1, 1, 0, 0], Err(10)),
            (3, [full, -full, full, -full], [1, 1, 0, 0], Ok([0, -full, 0, -full])),
            (4, [1, 10, 100, 1000], [2, 3, 0, 0], Ok([1, 32, 100, 3200])),
            (2, [1, 10, 100, 1000], [2, 3, 0, 0], Ok([1, 10, 302, 3020])),
        ] {
            let mut net = bilinear(x);
            let before = net.clone();
            match (net.answer(&replace(vertex, weights)), wanted) {
                (Answer::Taken, Ok(x)) => assert_eq!(net, bilinear(x)),
                (answer, Err(number)) => assert_eq!((answer, net), (Answer::Refused(number), before)),
                (answer, _) => panic!("vertex {vertex}: {answer:?}"),
            }
        }
    }
}
