//! What is left of four forms in two variables where all of them vanish, by exact division.
//!
//! A form of degree n is the list of its coefficients at x^k y^(n−k), k rising. The polynomials of a curve
//! are forms in T and Z; what the entries of its net fix are forms in the weights of s and r. No polar value
//! is taken here.

use crate::exact::Exact;
use crate::polar::trinomial;

pub type Form = Vec<Exact>;

/// Values of x and y.
pub type Place = [Exact; 2];

/// How often the linear form that vanishes at q was taken out of all four, and the numbers projected.
#[derive(Clone, Copy, Debug, PartialEq, Eq)]
pub struct Left {
    pub order: usize,
    pub numbers: [i64; 4],
}

/// Of forms of one degree m that all vanish at q; nothing if they are all 0. With the linear form l, taken
/// out d times, and what is left G, the numbers projected are l(other)^d G(q), divided by the binomial of m
/// over d.
pub fn left(forms: [Form; 4], q: &Place, other: &Place) -> Option<Left> {
    if forms.iter().flatten().all(Exact::is_zero) {
        return None;
    }
    let degree = forms[0].len() - 1;
    let mut rest = Quotient { forms, divisor: Exact::from_i64(1) };
    let mut order = 0;
    while let Some(next) = rest.divided(q) {
        rest = next;
        order += 1;
    }
    let factor = power(&linear(q, other), order);
    let divisor = rest.divisor.mul_i64(trinomial(degree, (order, 0)));
    let number = |form: &Form| value(form, q).mul(&factor).over(&divisor).and_then(|number| number.to_i64());
    let numbers = [0, 1, 2, 3].map(|c| number(&rest.forms[c]).expect("a whole number, in range"));
    Some(Left { order, numbers })
}

/// Forms that have all to be divided by one number.
struct Quotient {
    forms: [Form; 4],
    divisor: Exact,
}

impl Quotient {
    /// By the linear form that vanishes at q, if it divides all four.
    fn divided(&self, q: &Place) -> Option<Quotient> {
        let degree = self.forms[0].len() - 1;
        if degree == 0 {
            return None;
        }
        let [a, b, c, d] = &self.forms;
        let forms = [multiple(a, q)?, multiple(b, q)?, multiple(c, q)?, multiple(d, q)?];
        let by = if q[0].is_zero() { q[1].neg() } else { power(&q[0], degree) };
        Some(Quotient { forms, divisor: self.divisor.mul(&by) })
    }
}

/// l at a place: the form x0 y − y0 x, q being (x0, y0).
fn linear([x0, y0]: &Place, [x, y]: &Place) -> Exact {
    x0.mul(y).sub(&y0.mul(x))
}

/// A multiple of the quotient of f, of degree n, and l; nothing if l does not divide f. With the quotient g,
/// f has x0 g_k − y0 g_(k−1) at x^k. Where x0 is 0, −y0 g is f without its first coefficient. Else h_k, which
/// is x0^(k+1) g_k, is x0^k f_k + y0 h_(k−1), l divides f if h_n is 0, and x0^n g is what is given.
fn multiple(f: &Form, [x0, y0]: &Place) -> Option<Form> {
    if x0.is_zero() {
        return f[0].is_zero().then(|| f[1..].to_vec());
    }
    let degree = f.len() - 1;
    let mut h: Vec<Exact> = Vec::new();
    for (k, coefficient) in f.iter().enumerate() {
        let before = h.last().map_or(Exact::zero(), |last| y0.mul(last));
        h.push(power(x0, k).mul(coefficient).add(&before));
    }
    if !h.pop()?.is_zero() {
        return None;
    }
    Some(h.iter().enumerate().map(|(k, number)| number.mul(&power(x0, degree - 1 - k))).collect())
}

fn value(form: &Form, [x, y]: &Place) -> Exact {
    let degree = form.len() - 1;
    let term = |(k, a): (usize, &Exact)| a.mul(&power(x, k)).mul(&power(y, degree - k));
    form.iter().enumerate().map(term).fold(Exact::zero(), |sum, term| sum.add(&term))
}

fn power(number: &Exact, exponent: usize) -> Exact {
    (0..exponent).fold(Exact::from_i64(1), |product, _| product.mul(number))
}

#[cfg(test)]
mod tests {
    use super::*;
    use crate::polar::{parameter, Polynomials};
    use crate::random::Random;
    use crate::shape::Shape;

    fn times(form: &Form, q: &Place) -> Form {
        let mut product = vec![Exact::zero(); form.len() + 1];
        for (k, a) in form.iter().enumerate() {
            product[k].increase(&a.mul(&q[0]));
            product[k + 1].increase(&a.mul(&q[1]).neg());
        }
        product
    }

    fn place(random: &mut Random, size: i64) -> Place {
        loop {
            let place = [0; 2].map(|_| random.between(-size, size));
            if place != [0; 2] {
                return place.map(Exact::from_i64);
            }
        }
    }

    #[test]
    fn division_undoes_a_product() {
        let mut random = Random::new(31);
        for size in [2, 2, 9, 1 << 50] {
            for degree in 0..10 {
                let q = place(&mut random, size);
                let form: Form = (0..=degree).map(|_| Exact::from_i64(random.between(-size, size))).collect();
                let by = if q[0].is_zero() { q[1].neg() } else { power(&q[0], degree + 1) };
                let wanted: Form = form.iter().map(|a| a.mul(&by)).collect();
                assert_eq!(multiple(&times(&form, &q), &q), Some(wanted));
                let mut other = times(&form, &q);
                let last = if q[0].is_zero() { 0 } else { degree + 1 };
                other[last].increase(&Exact::from_i64(1));
                assert_eq!(multiple(&other, &q), None);
            }
        }
    }

    /// The other way to the numbers projected: the first that is not four zeros of the polar values of m − d
    /// copies of q and d of the other vertex.
    #[test]
    fn the_numbers_are_the_first_polar_values() {
        let mut random = Random::new(32);
        for round in 0..600 {
            let (degree, size) = (1 + round % 10, [2, 4, 1 << 20][round % 3]);
            let order = 1 + random.below(degree);
            let (q, other) = (place(&mut random, 4), place(&mut random, size));
            if linear(&q, &other).is_zero() {
                continue;
            }
            let mut forms = [0; 4].map(|_| (0..=degree - order).map(|_| Exact::from_i64(random.between(-2, 2))).collect::<Form>());
            for form in forms.iter_mut() {
                (0..order).for_each(|_| *form = times(form, &q));
            }
            let row = |k: usize| [0, 1, 2, 3].map(|c: usize| forms[c][k].to_i64().unwrap());
            let curve = Polynomials::new(Shape::curve(degree), &(0..=degree).map(row).collect::<Vec<_>>());
            let point = |place: &Place| [place[0].clone(), parameter([0; 3])[1].clone(), place[1].clone()];
            let polar = |d: usize| {
                let list = [vec![point(&q); degree - d], vec![point(&other); d]].concat();
                curve.polar_value(&[list])
            };
            let some = |value: &[Exact; 4]| value.iter().any(|number| !number.is_zero());
            let wanted = (0..=degree).map(|d| (d, polar(d))).find(|(_, value)| some(value));
            let wanted = wanted.filter(|(_, value)| value.iter().all(|number| number.to_i64().is_some()));
            let wanted = wanted.map(|(order, value)| Left { order, numbers: value.map(|number| number.to_i64().unwrap()) });
            if wanted.is_some() || forms.iter().flatten().all(Exact::is_zero) {
                assert_eq!(left(curve.scaled_forms(), &q, &other), wanted);
            }
        }
    }
}
