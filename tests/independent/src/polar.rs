//! σ, the scale, and scaled polar values, by document 01's recurrences.
//!
//! A parameter point is written (U, V, Z). A curve's (T, Z) is (T, 0, Z) and its
//! σ_k is σ_(k,0): with V = 0 and l = 0 the patch's recurrence is the curve's. A
//! rectangular patch has such a point and such a σ for each pair, and its σ is their
//! product.

use crate::exact::Exact;
use crate::left::Form;
use crate::shape::{in_range, Exponents, Group, Shape};

pub type Parameter<N> = [N; 3];

/// m!/(h! l! (m−h−l)!); with l = 0 it is the curve's binomial.
pub fn trinomial(m: usize, (h, l): Exponents) -> i64 {
    factorial(m) / (factorial(h) * factorial(l) * factorial(m - h - l))
}

fn factorial(n: usize) -> i64 {
    (1..=n as i64).product()
}

/// The product of the binomials or trinomials of a monomial, one for each group.
pub fn multinomial(shape: Shape, exponents: &[Exponents]) -> i64 {
    shape.degrees.iter().zip(exponents).map(|(&m, &e)| trinomial(m, e)).product()
}

/// L: for each group the smallest number that all its binomials or trinomials divide, and
/// of two groups the product.
pub fn scale(shape: Shape) -> i64 {
    shape.groups().into_iter().map(group_scale).product()
}

fn group_scale(group: Group) -> i64 {
    let all = group.exponents().into_iter().map(|e| trinomial(group.degree, e));
    all.fold(1, least_common_multiple)
}

/// The first multiple of a that b divides.
fn least_common_multiple(a: i64, b: i64) -> i64 {
    (1..=b).map(|times| a * times).find(|multiple| multiple % b == 0).unwrap_or(a * b)
}

/// What σ needs of a number: i128 where a bound known beforehand allows it, the
/// exact integer everywhere else.
pub trait Whole: Clone {
    fn zero() -> Self;
    fn of(number: i64) -> Self;
    fn add_product(&mut self, a: &Self, b: &Self);
    fn add_times(&mut self, a: &Self, times: i64);
    /// The number, if it is in range.
    fn when_in_range(&self) -> Option<i64>;
}

impl Whole for i128 {
    fn zero() -> i128 {
        0
    }

    fn of(number: i64) -> i128 {
        i128::from(number)
    }

    fn add_product(&mut self, a: &i128, b: &i128) {
        *self += a * b;
    }

    fn add_times(&mut self, a: &i128, times: i64) {
        *self += a * i128::from(times);
    }

    fn when_in_range(&self) -> Option<i64> {
        i64::try_from(*self).ok().filter(|&n| in_range(n))
    }
}

impl Whole for Exact {
    fn zero() -> Exact {
        Exact::zero()
    }

    fn of(number: i64) -> Exact {
        Exact::from_i64(number)
    }

    fn add_product(&mut self, a: &Exact, b: &Exact) {
        if !a.is_zero() && !b.is_zero() {
            self.increase(&a.mul(b));
        }
    }

    fn add_times(&mut self, a: &Exact, times: i64) {
        if times != 0 && !a.is_zero() {
            self.increase(&a.mul_i64(times));
        }
    }

    fn when_in_range(&self) -> Option<i64> {
        self.to_i64().filter(|&n| in_range(n))
    }
}

/// The polynomials of a record, ready for polar values.
#[derive(Clone, Debug)]
pub struct Polynomials {
    shape: Shape,
    coefficients: Vec<[i64; 4]>,
    scale: i64,
    /// Each coefficient with its share of L, so that σ is the only factor left.
    multipliers: Vec<[i64; 4]>,
    /// One for each group.
    sigmas: Vec<Sigmas>,
}

impl Polynomials {
    pub fn new(shape: Shape, coefficients: &[[i64; 4]]) -> Polynomials {
        let exponents = shape.exponents();
        assert_eq!(exponents.len(), coefficients.len());
        let scale = scale(shape);
        let factor = |e: &[Exponents]| scale / multinomial(shape, e);
        let multipliers = exponents.iter().zip(coefficients).map(|(e, a)| a.map(|a| a * factor(e))).collect();
        let sigmas = shape.groups().into_iter().enumerate().map(|(number, group)| {
            let used = exponents.iter().zip(coefficients).filter(|(_, a)| **a != [0; 4]);
            Sigmas::new(group, &used.map(|(e, _)| e[number]).collect::<Vec<Exponents>>())
        });
        Polynomials { shape, coefficients: coefficients.to_vec(), scale, multipliers, sigmas: sigmas.collect() }
    }

    pub fn shape(&self) -> Shape {
        self.shape
    }

    pub fn scale(&self) -> i64 {
        self.scale
    }

    /// L × F at a parameter point of each group, from powers and not from σ.
    pub fn scaled_value(&self, q: &[Parameter<Exact>]) -> [Exact; 4] {
        let degrees = self.shape.degrees;
        let powers: Vec<Vec<Vec<Exact>>> =
            q.iter().zip(degrees).map(|(q, m)| q.iter().map(|number| powers(number, m)).collect()).collect();
        let mut value = [Exact::zero(), Exact::zero(), Exact::zero(), Exact::zero()];
        for (exponents, coefficients) in self.shape.exponents().iter().zip(&self.coefficients) {
            if *coefficients == [0; 4] {
                continue;
            }
            let mut monomial = Exact::from_i64(1);
            for ((&(h, l), powers), m) in exponents.iter().zip(&powers).zip(degrees) {
                monomial = monomial.mul(&powers[0][h]).mul(&powers[1][l]).mul(&powers[2][m - h - l]);
            }
            for (component, &a) in value.iter_mut().zip(coefficients) {
                component.add_times(&monomial, a * self.scale);
            }
        }
        value
    }

    /// L × F of a curve, each component as a form in T and Z.
    pub fn scaled_forms(&self) -> [Form; 4] {
        let of = |c: usize| self.coefficients.iter().map(|a| Exact::from_i64(a[c] * self.scale)).collect();
        [0, 1, 2, 3].map(of)
    }

    /// The scaled polar value of listed points, m for a group of degree m, one after the
    /// other.
    pub fn polar_value(&self, lists: &[Vec<Parameter<Exact>>]) -> [Exact; 4] {
        let mut multipliers = self.multipliers_as::<Exact>();
        for (sigmas, list) in self.sigmas.iter().zip(lists) {
            assert_eq!(list.len(), sigmas.degree);
            let mut tables = sigmas.tables::<Exact>();
            for (taken, point) in list.iter().enumerate() {
                sigmas.add_point(&mut tables, taken, point);
            }
            multipliers = sigmas.sum(&tables[sigmas.degree], &multipliers);
        }
        multipliers.swap_remove(0)
    }

    /// Whether all mixtures of these points, of each group as many at a time as its degree
    /// says, have values in range. The points named first are tried first.
    pub fn all_in_range(&self, choices: &[Vec<Parameter<Exact>>]) -> bool {
        self.values(choices).is_some()
    }

    /// The values of all these mixtures, or none if one is out of range. Their
    /// order is that of a net over these points: copies of the first falling, then
    /// of the second; the first group goes slower.
    pub fn values(&self, choices: &[Vec<Parameter<Exact>>]) -> Option<Vec<[i64; 4]>> {
        match self.as_i128(choices) {
            Some(narrow) => self.walk_all(&narrow),
            None => self.walk_all(choices),
        }
    }

    /// The same, never by way of i128.
    pub fn values_exactly(&self, choices: &[Vec<Parameter<Exact>>]) -> Option<Vec<[i64; 4]>> {
        self.walk_all(choices)
    }

    /// The points as i128 numbers, where no sum on the way can leave i128: all σ of
    /// a list sum in absolute value to at most the product of |U| + |V| + |Z| over
    /// it, and a multiplier is below 2 to the 32nd.
    fn as_i128(&self, choices: &[Vec<Parameter<Exact>>]) -> Option<Vec<Vec<Parameter<i128>>>> {
        let size = |p: &Parameter<Exact>| p[0].abs().add(&p[1].abs()).add(&p[2].abs()).bits();
        let largest = |points: &Vec<Parameter<Exact>>| points.iter().map(size).max().unwrap_or(0);
        let bits: Vec<usize> = choices.iter().map(largest).collect();
        let product: usize = bits.iter().zip(self.shape.degrees).map(|(bits, m)| m * bits).sum();
        if bits.iter().any(|&bits| bits > 62) || 32 + product > 126 {
            return None;
        }
        let narrow = |[u, v, z]: &Parameter<Exact>| Some([u.to_i64()?.into(), v.to_i64()?.into(), z.to_i64()?.into()]);
        choices.iter().map(|points| points.iter().map(narrow).collect()).collect()
    }

    fn walk_all<N: Whole>(&self, choices: &[Vec<Parameter<N>>]) -> Option<Vec<[i64; 4]>> {
        let mut found = Vec::new();
        let all = walk_groups(&self.sigmas, choices, &self.multipliers_as(), &mut found);
        all.then_some(found)
    }

    fn multipliers_as<N: Whole>(&self) -> Vec<[N; 4]> {
        self.multipliers.iter().map(|four| four.map(N::of)).collect()
    }
}

/// Tries the choices of one group's points and, for each, those of the groups after it,
/// whose multipliers are then the sums over the group that is done. Where no group is left,
/// one sum is, and it is the value. Ends early, with false, at the first out of range.
fn walk_groups<N: Whole>(
    groups: &[Sigmas],
    choices: &[Vec<Parameter<N>>],
    multipliers: &[[N; 4]],
    found: &mut Vec<[i64; 4]>,
) -> bool {
    let Some((group, later)) = groups.split_first() else {
        let value = narrow(&multipliers[0]);
        found.extend(value);
        return value.is_some();
    };
    let mut chosen = |sigma: &[N]| walk_groups(later, &choices[1..], &group.sum(sigma, multipliers), found);
    group.walk(&choices[0], &mut group.tables(), 0, &mut chosen)
}

/// The σ of one group.
#[derive(Clone, Debug)]
struct Sigmas {
    degree: usize,
    exponents: Vec<Exponents>,
    /// For n points, the σ of n points on which some nonzero coefficient depends.
    wanted: Vec<Vec<usize>>,
    /// Where (h, l) stands in the order of the monomials.
    place: Vec<Vec<usize>>,
}

impl Sigmas {
    /// For nonzero coefficients with these exponents.
    fn new(group: Group, used: &[Exponents]) -> Sigmas {
        let exponents = group.exponents();
        let mut place = vec![vec![0; group.degree + 1]; group.degree + 1];
        for (index, &(h, l)) in exponents.iter().enumerate() {
            place[h][l] = index;
        }
        let wanted = wanted(group.degree, &exponents, used);
        Sigmas { degree: group.degree, exponents, wanted, place }
    }

    /// Each choice of m points, order aside, is reached once, along its points in
    /// rising order, so that choices with the same beginning share their σ. Ends
    /// early, with false, where `chosen` does.
    fn walk<N: Whole>(
        &self,
        points: &[Parameter<N>],
        tables: &mut [Vec<N>],
        taken: usize,
        chosen: &mut dyn FnMut(&[N]) -> bool,
    ) -> bool {
        if taken == self.degree {
            return chosen(&tables[taken]);
        }
        (0..points.len()).all(|first| {
            self.add_point(tables, taken, &points[first]);
            self.walk(&points[first..], tables, taken + 1, chosen)
        })
    }

    /// One table of σ for each number of points, the first for none at all: a single
    /// 1 in front. What is not wanted stays 0 and is never read.
    fn tables<N: Whole>(&self) -> Vec<Vec<N>> {
        let mut tables = vec![vec![N::zero(); self.exponents.len()]; self.degree + 1];
        tables[0][0] = N::of(1);
        tables
    }

    /// The table for one point more: Z keeps the index, U comes from h − 1 and V from
    /// l − 1, where there is such a place.
    fn add_point<N: Whole>(&self, tables: &mut [Vec<N>], taken: usize, [u, v, z]: &Parameter<N>) {
        let (shorter, longer) = tables.split_at_mut(taken + 1);
        let (old, new) = (&shorter[taken], &mut longer[0]);
        for &index in &self.wanted[taken + 1] {
            let (h, l) = self.exponents[index];
            let mut sum = N::zero();
            sum.add_product(z, &old[index]);
            if h > 0 {
                sum.add_product(u, &old[self.place[h - 1][l]]);
            }
            if l > 0 {
                sum.add_product(v, &old[self.place[h][l - 1]]);
            }
            new[index] = sum;
        }
    }

    /// The multipliers hold coefficient and share of L, so each takes only its σ. Those of
    /// the groups after this one stand side by side, and each has a sum of its own.
    fn sum<N: Whole>(&self, sigma: &[N], multipliers: &[[N; 4]]) -> Vec<[N; 4]> {
        let later = multipliers.len() / self.exponents.len();
        let mut sums = vec![[N::zero(), N::zero(), N::zero(), N::zero()]; later];
        for &index in &self.wanted[self.degree] {
            for (sum, four) in sums.iter_mut().zip(&multipliers[index * later..]) {
                for (component, multiplier) in sum.iter_mut().zip(four) {
                    component.add_product(&sigma[index], multiplier);
                }
            }
        }
        sums
    }
}

fn narrow<N: Whole>(value: &[N; 4]) -> Option<[i64; 4]> {
    let [x, y, z, w] = value;
    Some([x.when_in_range()?, y.when_in_range()?, z.when_in_range()?, w.when_in_range()?])
}

fn powers(number: &Exact, degree: usize) -> Vec<Exact> {
    let mut list = vec![Exact::from_i64(1)];
    for n in 0..degree {
        let next = list[n].mul(number);
        list.push(next);
    }
    list
}

/// With m points: the σ that a nonzero coefficient takes. With fewer: those from
/// which a wanted σ of one point more is made. σ_(h,l) of fewer than h + l points
/// is 0 and needs no making.
fn wanted(degree: usize, exponents: &[Exponents], used: &[Exponents]) -> Vec<Vec<usize>> {
    let mut above: Vec<bool> = exponents.iter().map(|e| used.contains(e)).collect();
    let mut lists = Vec::new();
    for points in (0..=degree).rev() {
        lists.push((0..exponents.len()).filter(|&index| above[index]).collect::<Vec<usize>>());
        above = (0..exponents.len()).map(|index| feeds(exponents, &above, index, points)).collect();
    }
    lists.reverse();
    lists
}

/// Whether the σ at `index`, of one point less than `points`, goes into a wanted one.
fn feeds(exponents: &[Exponents], above: &[bool], index: usize, points: usize) -> bool {
    let (h, l) = exponents[index];
    let into = |e: Exponents| e == (h, l) || e == (h + 1, l) || e == (h, l + 1);
    h + l < points && exponents.iter().zip(above).any(|(&e, &wanted)| wanted && into(e))
}

/// A parameter point of small numbers.
pub fn parameter(numbers: [i64; 3]) -> Parameter<Exact> {
    numbers.map(Exact::from_i64)
}

/// The vertices of a record's frame, group by group.
pub fn parameters(shape: Shape, frame: &[[i64; 3]]) -> Vec<Vec<Parameter<Exact>>> {
    let vertices: Vec<_> = frame.iter().map(|&vertex| parameter(vertex)).collect();
    shape.kind.grouped(&vertices)
}

#[cfg(test)]
mod tests {
    use super::*;
    use crate::random::Random;

    /// The two rows of document 02, E4; among them are the scales that document 01 names.
    #[test]
    fn scales_stand_in_two_rows() {
        let row = |shape: fn(usize) -> Shape, highest: usize| (1..=highest).map(|m| scale(shape(m))).collect::<Vec<i64>>();
        assert_eq!(row(Shape::curve, 10), [1, 2, 3, 12, 10, 60, 105, 280, 252, 2520]);
        assert_eq!(row(Shape::patch, 8), [1, 2, 6, 12, 60, 180, 420, 1680]);
    }

    /// E3: the product of the two curve scales.
    #[test]
    fn a_rectangular_patch_has_the_product_of_two_curve_scales() {
        let row = |p: usize| [1, 2, 3, 4, 5].map(|q| scale(Shape::rect(p, q)));
        assert_eq!(row(1), [1, 2, 3, 12, 10]);
        assert_eq!(row(2), [2, 4, 6, 24, 20]);
        assert_eq!(row(3), [3, 6, 9, 36, 30]);
        assert_eq!(row(4), [12, 24, 36, 144, 120]);
        assert_eq!(row(5), [10, 20, 30, 120, 100]);
    }

    /// Every multinomial of the degree divides the scale of a curve or patch, and no smaller
    /// positive number; of two pairs this holds of each.
    #[test]
    fn no_smaller_number_is_divided_by_all() {
        for group in Shape::all().into_iter().flat_map(Shape::groups) {
            let divided = |number: i64| group.exponents().into_iter().all(|e| number % trinomial(group.degree, e) == 0);
            assert!(divided(group_scale(group)));
            assert!(!(1..group_scale(group)).any(divided));
            assert!(group_scale(group) <= 2520);
        }
    }

    fn random_parameter(random: &mut Random, group: Group, size: i64) -> Parameter<Exact> {
        let middle = if group.vertices == 2 { 0 } else { random.between(-size, size) };
        parameter([random.between(-size, size), middle, random.between(-size, size)])
    }

    /// So many points of a group as `many` says of it.
    fn random_lists(random: &mut Random, shape: Shape, size: i64, many: fn(Group) -> usize) -> Vec<Vec<Parameter<Exact>>> {
        let groups = shape.groups();
        let mut list = |group: Group| (0..many(group)).map(|_| random_parameter(random, group, size)).collect();
        groups.into_iter().map(&mut list).collect()
    }

    fn random_polynomials(random: &mut Random, shape: Shape) -> Polynomials {
        let some = random.once_in(2);
        let mut coefficient = || if some && !random.once_in(4) { 0 } else { random.between(-9, 9) };
        let coefficients: Vec<[i64; 4]> = (0..shape.places()).map(|_| [0; 4].map(|_| coefficient())).collect();
        Polynomials::new(shape, &coefficients)
    }

    /// σ straight from the definition, with no table and no leaving out.
    fn sigma(list: &[Parameter<Exact>], h: i64, l: i64) -> Exact {
        if h < 0 || l < 0 {
            return Exact::zero();
        }
        let Some(([u, v, z], shorter)) = list.split_last() else {
            return Exact::from_i64(i64::from(h == 0 && l == 0));
        };
        let sum = z.mul(&sigma(shorter, h, l)).add(&u.mul(&sigma(shorter, h - 1, l)));
        sum.add(&v.mul(&sigma(shorter, h, l - 1)))
    }

    /// The sum over all monomials at once, whatever the groups.
    fn polar_by_definition(f: &Polynomials, lists: &[Vec<Parameter<Exact>>]) -> [Exact; 4] {
        let mut value = [0, 0, 0, 0].map(Exact::from_i64);
        for (exponents, coefficients) in f.shape.exponents().iter().zip(&f.coefficients) {
            let sigmas = lists.iter().zip(exponents).map(|(list, &(h, l))| sigma(list, h as i64, l as i64));
            let product = sigmas.fold(Exact::from_i64(1), |product, sigma| product.mul(&sigma));
            for (component, &a) in value.iter_mut().zip(coefficients) {
                let share = f.scale / multinomial(f.shape, exponents);
                *component = component.add(&product.mul_i64(a * share));
            }
        }
        value
    }

    #[test]
    fn tables_give_the_recurrence() {
        let mut random = Random::new(1);
        for shape in Shape::all().into_iter().filter(|shape| shape.degrees[0] <= 5) {
            for size in [3, 1 << 40] {
                let f = random_polynomials(&mut random, shape);
                let lists = random_lists(&mut random, shape, size, |group| group.degree);
                assert_eq!(f.polar_value(&lists), polar_by_definition(&f, &lists));
                let mut turned = lists.clone();
                turned.iter_mut().for_each(|list| list.reverse());
                assert_eq!(f.polar_value(&lists), f.polar_value(&turned));
            }
        }
    }

    #[test]
    fn copies_of_one_point_give_the_scaled_polynomial() {
        let mut random = Random::new(2);
        for shape in Shape::all() {
            for size in [4, 1 << 30] {
                let f = random_polynomials(&mut random, shape);
                let q = random_lists(&mut random, shape, size, |_| 1).concat();
                let lists: Vec<_> = q.iter().zip(shape.degrees).map(|(q, m)| vec![q.clone(); m]).collect();
                assert_eq!(f.polar_value(&lists), f.scaled_value(&q));
            }
        }
    }

    #[test]
    fn walked_values_are_the_listed_ones_in_the_order_of_a_net() {
        let mut random = Random::new(3);
        for shape in Shape::all() {
            let f = random_polynomials(&mut random, shape);
            let points = random_lists(&mut random, shape, 2, |group| group.vertices);
            let values = f.values(&points).unwrap();
            assert_eq!(Some(values.clone()), f.values_exactly(&points));
            for (copies, value) in shape.copies().iter().zip(values) {
                let copies = shape.kind.grouped(copies);
                let lists: Vec<Vec<_>> = points.iter().zip(copies).map(|(points, copies)| repeated(points, &copies)).collect();
                assert_eq!(f.polar_value(&lists), value.map(Exact::from_i64));
            }
        }
    }

    fn repeated(points: &[Parameter<Exact>], copies: &[usize]) -> Vec<Parameter<Exact>> {
        points.iter().zip(copies).flat_map(|(point, &many)| vec![point.clone(); many]).collect()
    }
}
