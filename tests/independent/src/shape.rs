//! Kind and degrees, and the orders they give to monomials and entries.

use std::ops::Range;

/// Sets the groups of vertices and the largest degree.
#[derive(Clone, Copy, Debug, PartialEq, Eq)]
pub enum Kind {
    Curve,
    Patch,
    Rect,
}

/// Vertices that a point q is mixed of: all of a curve or of a patch, one pair of a
/// rectangular patch. In a frame they stand side by side.
#[derive(Clone, Copy, Debug, PartialEq, Eq)]
pub struct Group {
    /// The place of the first of them in the frame.
    pub first: usize,
    /// Two or three.
    pub vertices: usize,
    pub degree: usize,
}

/// A kind with the degree of each of its groups; the second is 0 where there is one group.
#[derive(Clone, Copy, Debug, PartialEq, Eq)]
pub struct Shape {
    pub kind: Kind,
    pub degrees: [usize; 2],
}

/// No frame has more.
pub const MOST_VERTICES: usize = 4;

/// How many copies of each vertex an entry takes.
pub type Copies = [usize; MOST_VERTICES];

/// The exponents (h, l) of one group. A curve's k is written (k, 0), and so are h and l of
/// a rectangular patch, each in its own group.
pub type Exponents = (usize, usize);

/// 2 to the 48th, itself still in range, for either sign: of a component of an entry, and
/// of a number of a frame.
pub const RANGE: i64 = 281_474_976_710_656;

pub fn in_range(number: i64) -> bool {
    (-RANGE..=RANGE).contains(&number)
}

impl Kind {
    pub const ALL: [Kind; 3] = [Kind::Curve, Kind::Patch, Kind::Rect];

    pub fn number(self) -> u8 {
        match self {
            Kind::Curve => 1,
            Kind::Patch => 2,
            Kind::Rect => 3,
        }
    }

    /// The kind with this number.
    pub fn numbered(number: i64) -> Option<Kind> {
        Kind::ALL.into_iter().find(|kind| i64::from(kind.number()) == number)
    }

    pub fn word(self) -> &'static str {
        match self {
            Kind::Curve => "curve",
            Kind::Patch => "patch",
            Kind::Rect => "rect",
        }
    }

    /// How many vertices the groups have: r, s; r, s, t; r1, s1 and r2, s2.
    fn sizes(self) -> &'static [usize] {
        match self {
            Kind::Curve => &[2],
            Kind::Patch => &[3],
            Kind::Rect => &[2, 2],
        }
    }

    /// Of every group.
    pub fn largest_degree(self) -> usize {
        match self {
            Kind::Curve => 10,
            Kind::Patch => 8,
            Kind::Rect => 5,
        }
    }

    /// Where the vertices of each group stand in a frame.
    pub fn spans(self) -> Vec<Range<usize>> {
        let mut end = 0;
        let mut next = |size: &usize| {
            end += size;
            end - size..end
        };
        self.sizes().iter().map(&mut next).collect()
    }

    /// Which group the vertex at this place of a frame belongs to.
    pub fn group_of(self, place: usize) -> usize {
        self.spans().iter().position(|span| span.contains(&place)).expect("a place of the frame")
    }

    /// Something of each vertex, group by group.
    pub fn grouped<T: Clone>(self, frame: &[T]) -> Vec<Vec<T>> {
        self.spans().into_iter().map(|span| frame[span].to_vec()).collect()
    }

    /// How many vertices a frame has.
    pub fn vertices(self) -> usize {
        self.sizes().iter().sum()
    }

    /// How many numbers a vertex has: as many as its group has vertices.
    pub fn vertex_numbers(self) -> usize {
        self.sizes()[0]
    }

    /// How many numbers a frame has.
    pub fn frame_numbers(self) -> usize {
        self.vertices() * self.vertex_numbers()
    }

    /// The numbers of a parameter point (U, V, Z): all three, or T and Z of (T, 0, Z).
    pub fn numbers_of<N: Clone>(self, [u, v, z]: &[N; 3]) -> Vec<N> {
        match self {
            Kind::Patch => vec![u.clone(), v.clone(), z.clone()],
            Kind::Curve | Kind::Rect => vec![u.clone(), z.clone()],
        }
    }

    /// All shapes of this kind.
    pub fn shapes(self) -> Vec<Shape> {
        let degrees = || 1..=self.largest_degree();
        match self {
            Kind::Curve => degrees().map(Shape::curve).collect(),
            Kind::Patch => degrees().map(Shape::patch).collect(),
            Kind::Rect => degrees().flat_map(|p| degrees().map(move |q| Shape::rect(p, q))).collect(),
        }
    }
}

impl Group {
    pub fn span(self) -> Range<usize> {
        self.first..self.first + self.vertices
    }

    /// The record's order: h rising, then l rising.
    pub fn exponents(self) -> Vec<Exponents> {
        let largest_l = |h: usize| if self.vertices == 3 { self.degree - h } else { 0 };
        (0..=self.degree).flat_map(|h| (0..=largest_l(h)).map(move |l| (h, l))).collect()
    }

    /// How many copies of its vertices the entries take, in the net's order: of the first
    /// falling, then of the second.
    fn copies(self) -> Vec<[usize; 3]> {
        let mut list = Vec::new();
        for i in (0..=self.degree).rev() {
            for j in (0..=self.degree - i).rev() {
                let k = self.degree - i - j;
                if self.vertices == 3 || k == 0 {
                    list.push([i, j, k]);
                }
            }
        }
        list
    }

    /// How many monomials, and how many entries: the same number.
    pub fn places(self) -> usize {
        match self.vertices {
            2 => self.degree + 1,
            _ => (self.degree + 1) * (self.degree + 2) / 2,
        }
    }

    /// Where these copies of its vertices stand in the order of the entries: before them
    /// come all with more copies of the first, then those with as many and more of the
    /// second.
    pub fn place(self, copies: &[usize]) -> usize {
        match *copies {
            [_, j] => j,
            [_, j, k] => (j + k) * (j + k + 1) / 2 + k,
            _ => unreachable!("a group has two or three vertices"),
        }
    }
}

impl Shape {
    pub fn curve(degree: usize) -> Shape {
        Shape { kind: Kind::Curve, degrees: [degree, 0] }
    }

    pub fn patch(degree: usize) -> Shape {
        Shape { kind: Kind::Patch, degrees: [degree, 0] }
    }

    pub fn rect(p: usize, q: usize) -> Shape {
        Shape { kind: Kind::Rect, degrees: [p, q] }
    }

    /// The shape that three numbers name, if none is outside.
    pub fn named(kind: i64, degree: i64, second: i64) -> Option<Shape> {
        let kind = Kind::numbered(kind)?;
        let shape = Shape { kind, degrees: [usize::try_from(degree).ok()?, usize::try_from(second).ok()?] };
        kind.shapes().contains(&shape).then_some(shape)
    }

    /// Every shape there is: ten of curves, eight of patches and 25 of rectangular patches.
    pub fn all() -> Vec<Shape> {
        Kind::ALL.into_iter().flat_map(Kind::shapes).collect()
    }

    pub fn groups(self) -> Vec<Group> {
        let group = |(span, degree): (Range<usize>, usize)| Group { first: span.start, vertices: span.len(), degree };
        self.kind.spans().into_iter().zip(self.degrees).map(group).collect()
    }

    /// The same with another degree of one group.
    pub fn with_degree(mut self, group: usize, degree: usize) -> Shape {
        self.degrees[group] = degree;
        self
    }

    pub fn vertices(self) -> usize {
        self.kind.vertices()
    }

    /// The exponents of each monomial, group by group, in the record's order: those of the
    /// first group rise slower.
    pub fn exponents(self) -> Vec<Vec<Exponents>> {
        let join = |earlier: &Vec<Exponents>, own: &Exponents| [&earlier[..], &[*own]].concat();
        let groups = self.groups();
        groups.iter().fold(vec![Vec::new()], |list, group| each_with_each(&list, &group.exponents(), join))
    }

    /// The copies of each entry, in the net's order. A curve's entry j is (m−j, j), a
    /// rectangular patch's entry i j is (p−i, i, q−j, j), i rising, then j.
    pub fn copies(self) -> Vec<Copies> {
        let groups = self.groups();
        groups.iter().fold(vec![[0; MOST_VERTICES]], |list, group| {
            each_with_each(&list, &group.copies(), |earlier: &Copies, own| {
                let mut copies = *earlier;
                copies[group.span()].copy_from_slice(&own[..group.vertices]);
                copies
            })
        })
    }

    /// Where the entry with these copies stands.
    pub fn place(self, copies: &Copies) -> usize {
        let groups = self.groups();
        groups.iter().fold(0, |place, group| place * group.places() + group.place(&copies[group.span()]))
    }

    /// How many monomials, and how many entries: the same number.
    pub fn places(self) -> usize {
        self.groups().into_iter().map(Group::places).product()
    }
}

/// The pairs of both lists, the first list going slower.
fn each_with_each<A, B, C>(slow: &[A], fast: &[B], join: impl Fn(&A, &B) -> C) -> Vec<C> {
    let join = &join;
    slow.iter().flat_map(|a| fast.iter().map(move |b| join(a, b))).collect()
}

#[cfg(test)]
mod tests {
    use super::*;

    #[test]
    fn orders_have_the_right_length_and_ends() {
        for shape in Shape::all() {
            assert_eq!(shape.exponents().len(), shape.places());
            assert_eq!(shape.copies().len(), shape.places());
        }
        assert_eq!(Shape::all().len(), 43);
        assert_eq!(Shape::curve(3).copies()[0], [3, 0, 0, 0]);
        assert_eq!(Shape::rect(3, 2).copies()[0], [3, 0, 2, 0]);
        let quadratic = Shape::patch(2).copies().into_iter().map(|[i, j, k, _]| [i, j, k]).collect::<Vec<_>>();
        assert_eq!(quadratic, [[2, 0, 0], [1, 1, 0], [1, 0, 1], [0, 2, 0], [0, 1, 1], [0, 0, 2]]);
        assert_eq!(Shape::patch(1).exponents().concat(), [(0, 0), (0, 1), (1, 0)]);
    }

    /// Of bidegree (1, 2): h rising then l, and i copies of s1 rising, then j of s2.
    #[test]
    fn the_first_pair_of_a_rectangular_patch_moves_slower() {
        let (shape, both) = (Shape::rect(1, 2), [(0, 0), (0, 1), (0, 2), (1, 0), (1, 1), (1, 2)]);
        let exponents: Vec<_> = shape.exponents().iter().map(|e| (e[0].0, e[1].0)).collect();
        assert_eq!(exponents, both);
        let copies: Vec<_> = shape.copies().iter().map(|copies| (copies[1], copies[3])).collect();
        assert_eq!(copies, both);
        assert!(shape.copies().iter().all(|[r1, s1, r2, s2]| r1 + s1 == 1 && r2 + s2 == 2));
    }

    #[test]
    fn places_count_the_order_of_a_net() {
        for shape in Shape::all() {
            for (index, copies) in shape.copies().iter().enumerate() {
                assert_eq!(shape.place(copies), index);
            }
        }
    }

    #[test]
    fn frames_and_groups() {
        let counts = |kind: Kind| (kind.vertices(), kind.frame_numbers(), kind.spans());
        assert_eq!(counts(Kind::Curve), (2, 4, vec![0..2]));
        assert_eq!(counts(Kind::Patch), (3, 9, vec![0..3]));
        assert_eq!(counts(Kind::Rect), (4, 8, vec![0..2, 2..4]));
        assert_eq!([0, 1, 2, 3].map(|place| Kind::Rect.group_of(place)), [0, 0, 1, 1]);
        assert_eq!(Kind::Rect.numbers_of(&[5, 0, 7]), [5, 7]);
        assert_eq!(Kind::Patch.numbers_of(&[5, 6, 7]), [5, 6, 7]);
    }

    #[test]
    fn outside_shapes_have_no_name() {
        for (kind, degree) in [(0, 1), (4, 1), (1, 0), (1, 11), (2, 0), (2, 9), (-1, 2), (1, i64::MAX), (257, 1), (3, 1)] {
            assert_eq!(Shape::named(kind, degree, 0), None);
        }
        for (degree, second) in [(0, 1), (1, 0), (6, 1), (1, 6), (5, -1), (255, 5), (5, 255), (1, 1 << 32)] {
            assert_eq!(Shape::named(3, degree, second), None);
        }
        assert_eq!((Shape::named(1, 2, 1), Shape::named(2, 2, 2)), (None, None));
        assert_eq!(Shape::named(3, 5, 4), Some(Shape::rect(5, 4)));
    }
}
