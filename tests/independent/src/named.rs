//! The polar values that the size rule of a call names, one by one, by the entries of a net.

use crate::calls::{place_of, Call, Weights, REPLACE};
use crate::shape::{Copies, Kind, Shape, RANGE};

/// The points of a polar value: how often q of each group is taken, and how often each vertex.
#[derive(Clone, Copy, Debug, PartialEq, Eq)]
pub struct Name {
    pub q: [usize; 2],
    pub copies: Copies,
}

pub type Value = (Name, [i128; 4]);

/// The values of a stage, and those of them with q alone in its group.
type Stage = (Vec<Value>, Vec<[i128; 4]>);

/// Values beyond this are not worked out: with one of them no call has just one value beyond the range.
const FAR: i128 = 1 << 100;

impl Name {
    /// Taken of q and of vertices of this group.
    pub fn is_mixed(self, shape: Shape, group: usize) -> bool {
        self.q[group] > 0 && self.different_vertices(shape, group) > 0
    }

    /// Taken of q and of every vertex of this group.
    pub fn has_every_vertex(self, shape: Shape, group: usize) -> bool {
        self.q[group] > 0 && self.different_vertices(shape, group) == shape.groups()[group].vertices
    }

    /// How many different vertices of this group are taken.
    pub fn different_vertices(self, shape: Shape, group: usize) -> usize {
        self.copies[shape.groups()[group].span()].iter().filter(|&&taken| taken > 0).count()
    }
}

/// What a call in order names, if no value is far beyond; a flip names nothing.
pub fn named(shape: Shape, entries: &[[i64; 4]], call: &Call) -> Option<Vec<Value>> {
    match *call {
        Call::Move { operation: REPLACE, vertex, weights } => {
            let group = shape.kind.group_of(place_of(vertex));
            stage(shape, [0; 2], &wide(entries), group, &weights).map(|(values, _)| values)
        }
        Call::Move { .. } => Some(Vec::new()),
        Call::Point { weights } => named_by_point(shape, entries, weights),
    }
}

/// One group after the other: those before it have only their q, those after it their vertices. The values
/// without a q of a later group are those of the stage before.
fn named_by_point(mut shape: Shape, entries: &[[i64; 4]], weights: Weights) -> Option<Vec<Value>> {
    let (mut all, mut q, mut entries) = (Vec::new(), [0; 2], wide(entries));
    for (group, weights) in shape.kind.grouped(&weights).iter().enumerate() {
        let (values, last) = stage(shape, q, &entries, group, weights)?;
        all.extend(values.into_iter().filter(|(name, _)| group == 0 || name.q[group] > 0));
        (q[group], entries) = (shape.degrees[group], last);
        shape = shape.with_degree(group, 0);
    }
    Some(all)
}

/// The values with any number of q and of vertices of one group; of the groups before it q is taken so often.
fn stage(
    shape: Shape,
    mut q: [usize; 2],
    entries: &[[i128; 4]],
    group: usize,
    weights: &[i64],
) -> Option<Stage> {
    let (mut all, mut level) = (Vec::new(), entries.to_vec());
    for left in (0..=shape.degrees[group]).rev() {
        q[group] = shape.degrees[group] - left;
        let names = shape.with_degree(group, left).copies().into_iter().map(|copies| Name { q, copies });
        all.extend(names.zip(level.iter().copied()));
        if left > 0 {
            level = one_more(shape.with_degree(group, left), &level, group, weights);
        }
        if level.iter().flatten().any(|value| value.abs() > FAR) {
            return None;
        }
    }
    Some((all, level))
}

/// The values with q in one place more of a net of this shape: the sums of those with a vertex there, times
/// its weight.
fn one_more(shape: Shape, below: &[[i128; 4]], group: usize, weights: &[i64]) -> Vec<[i128; 4]> {
    let vertices = shape.groups()[group].span();
    let sum_at = |copies: Copies| {
        let mut sum = [0; 4];
        for (vertex, &weight) in vertices.clone().zip(weights) {
            let mut longer = copies;
            longer[vertex] += 1;
            let value = below[shape.place(&longer)];
            (0..4).for_each(|c| sum[c] += i128::from(weight) * value[c]);
        }
        sum
    };
    shape.with_degree(group, shape.degrees[group] - 1).copies().into_iter().map(sum_at).collect()
}

fn wide(entries: &[[i64; 4]]) -> Vec<[i128; 4]> {
    entries.iter().map(|entry| entry.map(i128::from)).collect()
}

/// Whether a component is beyond 2 to the 48th.
pub fn is_beyond(value: &[i128; 4]) -> bool {
    value.iter().any(|component| component.abs() > i128::from(RANGE))
}

/// The names of the values that are beyond.
pub fn beyond(values: &[Value]) -> Vec<Name> {
    values.iter().filter(|(_, value)| is_beyond(value)).map(|(name, _)| *name).collect()
}

/// Where a rule for size may be at fault: curves, triangular patches, and the pairs of rectangular ones.
pub const GROUPS: [(Kind, usize); 4] = [(Kind::Curve, 0), (Kind::Patch, 0), (Kind::Rect, 0), (Kind::Rect, 1)];

#[cfg(test)]
mod tests {
    use super::*;
    use crate::calls::{Answer, NO_WEIGHTS};
    use crate::handed::Net;

    fn names(shape: Shape, call: Call) -> Vec<Name> {
        let values = named(shape, &vec![[0; 4]; shape.places()], &call).unwrap();
        values.into_iter().map(|(name, _)| name).collect()
    }

    /// m points of n, any number of each, are so many.
    fn ways(n: usize, m: usize) -> usize {
        if n == 1 { 1 } else { (0..=m).map(|k| ways(n - 1, k)).sum() }
    }

    #[test]
    fn every_number_of_each_point_is_named_once() {
        for shape in Shape::all() {
            let groups = shape.groups();
            let of_group = |group: usize, q: usize| ways(groups[group].vertices + q, groups[group].degree);
            for vertex in 1..=shape.vertices() as u8 {
                let own = shape.kind.group_of(place_of(vertex));
                let of = |group: usize| of_group(group, usize::from(group == own));
                let wanted: usize = (0..groups.len()).map(of).product();
                let all = names(shape, Call::Move { operation: REPLACE, vertex, weights: [1; 4] });
                assert_eq!(all.len(), wanted);
                assert!(all.iter().enumerate().all(|(n, name)| !all[..n].contains(name)));
                for name in all {
                    let vertices = |group: usize| name.copies[groups[group].span()].iter().sum::<usize>();
                    let taken = |group: usize| name.q[group] + vertices(group);
                    assert!((0..groups.len()).all(|group| taken(group) == groups[group].degree));
                    assert!((0..groups.len()).all(|group| group == own || name.q[group] == 0));
                }
            }
            let all = names(shape, Call::Point { weights: [1; 4] });
            // the first stage, and of the second what it has with q2
            let second = if groups.len() == 2 { of_group(1, 1) - of_group(1, 0) } else { 0 };
            let wanted = of_group(0, 1) * if groups.len() == 2 { of_group(1, 0) } else { 1 } + second;
            assert_eq!(all.len(), wanted);
            assert!(all.iter().enumerate().all(|(n, name)| !all[..n].contains(name)));
            assert_eq!(names(shape, Call::Move { operation: 2, vertex: 1, weights: NO_WEIGHTS }).len(), 0);
        }
    }

    /// q = 2r + 2s on a curve of degree 3: q r s alone is beyond, and a handed net is refused for it.
    #[test]
    fn one_mixed_value_beyond() {
        let shape = Shape::curve(3);
        let entries = [-262143i64, 131072, 13762, -144810].map(|number| [number << 30, 0, 0, 0]);
        let call = Call::Point { weights: [2, 2, 0, 0] };
        let found = beyond(&named(shape, &entries, &call).unwrap());
        assert_eq!(found, [Name { q: [1, 0], copies: [1, 1, 0, 0] }]);
        assert!(found[0].has_every_vertex(shape, 0) && found[0].is_mixed(shape, 0));
        let mut net = Net::empty();
        net.write(shape, &entries);
        assert_eq!(net.answer(&call), Answer::Refused(10));
    }
}
