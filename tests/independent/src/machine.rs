//! The comparison machine: polynomials and a frame of numbers of any size. It is
//! never shown a net, so its answers do not lean on the ones it checks.

use crate::calls::{place_of, refused_by_itself, Answer, Call, Weights, FLIP};
use crate::exact::Exact;
use crate::polar::{parameter, Parameter, Polynomials, Whole};
use crate::left::left;
use crate::projection::project_found;
use crate::record::Record;
use crate::shape::{Kind, Shape};

#[derive(Clone, Debug)]
pub struct Machine {
    polynomials: Polynomials,
    frame: Vec<Parameter<Exact>>,
}

impl Machine {
    pub fn new(record: &Record) -> Machine {
        let frame = record.frame.iter().map(|&vertex| parameter(vertex)).collect();
        Machine { polynomials: record.polynomials(), frame }
    }

    pub fn shape(&self) -> Shape {
        self.polynomials.shape()
    }

    pub fn frame(&self) -> &[Parameter<Exact>] {
        &self.frame
    }

    /// The numbers of the frame, vertex by vertex: T, Z or U, V, Z.
    pub fn frame_numbers(&self) -> Vec<Exact> {
        self.frame.iter().flat_map(|vertex| self.shape().kind.numbers_of(vertex)).collect()
    }

    /// Only a move that is taken touches the frame.
    pub fn answer(&mut self, call: &Call) -> Answer {
        if let Some(number) = refused_by_itself(self.shape().kind, call) {
            return Answer::Refused(number);
        }
        match *call {
            Call::Move { operation: FLIP, vertex, .. } => self.flip(vertex),
            Call::Move { vertex, weights, .. } => self.replace(vertex, weights),
            Call::Point { weights } => self.point(weights),
        }
    }

    /// Every entry's polar value over this frame, in the net's order.
    pub fn net(&self) -> Option<Vec<[i64; 4]>> {
        self.polynomials.values(&self.groups())
    }

    /// How far the components of these values reach from 0, to either side.
    pub fn largest(&self) -> Option<i64> {
        let components: Vec<i64> = self.net()?.into_iter().flatten().collect();
        let (least, most) = (components.iter().min()?, components.iter().max()?);
        Some((-least).max(*most))
    }

    /// The values by the exact integer alone.
    pub fn net_exactly(&self) -> Option<Vec<[i64; 4]>> {
        self.polynomials.values_exactly(&self.groups())
    }

    /// Only signs of polar values change, so no size is tested.
    fn flip(&mut self, vertex: u8) -> Answer {
        let place = place_of(vertex);
        self.frame[place] = negated(&self.frame[place]);
        Answer::Taken
    }

    /// The new vertex itself is judged before its polar values (12 before 10). Its own group
    /// is mixed with it, the other one is not.
    fn replace(&mut self, vertex: u8, weights: Weights) -> Answer {
        let place = place_of(vertex);
        let mut groups = self.groups();
        let own = self.shape().kind.group_of(place);
        let q = named(&groups[own], &weights);
        if q.iter().any(|number| number.when_in_range().is_none()) {
            return Answer::Refused(12);
        }
        mix(&mut groups[own], &q);
        if !self.polynomials.all_in_range(&groups) {
            return Answer::Refused(10);
        }
        self.frame[place] = q;
        Answer::Taken
    }

    /// One group after the other: its own are mixed with its q, those before it have only
    /// their q, and those after it have their frame. The numbers of q may be of any size. The
    /// value comes from powers, by another way than the σ of the size test.
    fn point(&self, weights: Weights) -> Answer {
        let mut groups = self.groups();
        let mut qs = Vec::new();
        for (group, weights) in self.shape().kind.grouped(&weights).iter().enumerate() {
            let q = named(&groups[group], weights);
            mix(&mut groups[group], &q);
            if !self.polynomials.all_in_range(&groups) {
                return Answer::Refused(10);
            }
            groups[group] = vec![q.clone()];
            qs.push(q);
        }
        let found = self.polynomials.scaled_value(&qs);
        let small = |component: &Exact| component.when_in_range().expect("a named polar value, so in range");
        let [x, y, z, w] = [small(&found[0]), small(&found[1]), small(&found[2]), small(&found[3])];
        let projected = self.projected([x, y, z, w], weights);
        let projection = project_found([x, y, z, w], projected).expect("in range");
        Answer::Point { x, y, z, w, projected, projection }
    }

    /// The numbers projected of a point found at these weights. At a common zero of a curve the linear form
    /// that vanishes at q is divided out of the polynomials; there q's weight of s says whether r or s is the
    /// other vertex.
    fn projected(&self, found: [i64; 4], weights: Weights) -> [i64; 4] {
        if self.shape().kind != Kind::Curve || found != [0; 4] {
            return found;
        }
        let in_plane = |[t, _, z]: &Parameter<Exact>| [t.clone(), z.clone()];
        let q = in_plane(&named(&self.frame, &weights));
        let other = in_plane(&self.frame[if weights[1] == 0 { 1 } else { 0 }]);
        left(self.polynomials.scaled_forms(), &q, &other).map_or(found, |left| left.numbers)
    }

    /// The vertices, group by group.
    fn groups(&self) -> Vec<Vec<Parameter<Exact>>> {
        self.shape().kind.grouped(&self.frame)
    }
}

/// q = αr + βs (+ γt), of the vertices of one group.
fn named(group: &[Parameter<Exact>], weights: &[i64]) -> Parameter<Exact> {
    let mut q = parameter([0, 0, 0]);
    for (vertex, &weight) in group.iter().zip(weights) {
        for (sum, number) in q.iter_mut().zip(vertex) {
            sum.add_times(number, weight);
        }
    }
    q
}

/// q goes before the vertices: where the size is too large, its copies mostly show it at
/// once.
fn mix(group: &mut Vec<Parameter<Exact>>, q: &Parameter<Exact>) {
    group.insert(0, q.clone());
}

pub fn negated(vertex: &Parameter<Exact>) -> Parameter<Exact> {
    [vertex[0].neg(), vertex[1].neg(), vertex[2].neg()]
}
