//! A signed whole number of any size.
//!
//! The comparison machine's frame has no limit: its numbers and the σ made of
//! them outgrow every machine word while the net's entries stay small.
//! The number is a sign and a list of 64-bit digits, lowest first. Its form is
//! unique: no zero digit on top, and zero is the empty list without a sign.

use std::cmp::Ordering;
use std::fmt;

#[derive(Clone, Debug, PartialEq, Eq, Hash)]
pub struct Exact {
    negative: bool,
    digits: Vec<u64>,
}

impl Exact {
    pub fn zero() -> Exact {
        Exact { negative: false, digits: Vec::new() }
    }

    pub fn from_i64(n: i64) -> Exact {
        Exact::tidy(n < 0, vec![n.unsigned_abs()])
    }

    pub fn from_i128(n: i128) -> Exact {
        let size = n.unsigned_abs();
        Exact::tidy(n < 0, vec![size as u64, (size >> 64) as u64])
    }

    /// The number as an i64, if it is one.
    pub fn to_i64(&self) -> Option<i64> {
        match self.digits.len() {
            0 => Some(0),
            1 => {
                let size = i128::from(self.digits[0]);
                i64::try_from(if self.negative { -size } else { size }).ok()
            }
            _ => None,
        }
    }

    pub fn is_zero(&self) -> bool {
        self.digits.is_empty()
    }

    pub fn is_negative(&self) -> bool {
        self.negative
    }

    /// How many binary digits the absolute value has; 0 for zero.
    pub fn bits(&self) -> usize {
        match self.digits.last() {
            None => 0,
            Some(top) => 64 * self.digits.len() - top.leading_zeros() as usize,
        }
    }

    pub fn neg(&self) -> Exact {
        Exact::tidy(!self.negative, self.digits.clone())
    }

    pub fn abs(&self) -> Exact {
        Exact::tidy(false, self.digits.clone())
    }

    pub fn add(&self, other: &Exact) -> Exact {
        let mut sum = self.clone();
        sum.increase(other);
        sum
    }

    pub fn sub(&self, other: &Exact) -> Exact {
        self.add(&other.neg())
    }

    /// Adds `other` to this number, in place.
    pub fn increase(&mut self, other: &Exact) {
        if self.negative == other.negative {
            add_sizes(&mut self.digits, &other.digits);
        } else if compare_sizes(&self.digits, &other.digits) == Ordering::Less {
            let mut larger = other.digits.clone();
            take_sizes(&mut larger, &self.digits);
            self.digits = larger;
            self.negative = other.negative;
        } else {
            take_sizes(&mut self.digits, &other.digits);
        }
        self.trim();
    }

    pub fn mul(&self, other: &Exact) -> Exact {
        if self.is_zero() || other.is_zero() {
            return Exact::zero();
        }
        Exact::tidy(self.negative != other.negative, product_sizes(&self.digits, &other.digits))
    }

    pub fn mul_i64(&self, n: i64) -> Exact {
        if n == 0 || self.is_zero() {
            return Exact::zero();
        }
        Exact::tidy(self.negative != (n < 0), product_sizes(&self.digits, &[n.unsigned_abs()]))
    }

    /// The quotient; nothing if the divisor, which is not 0, does not divide this number. Multiples of the
    /// divisor by powers of two are taken off, the largest first.
    pub fn over(&self, divisor: &Exact) -> Option<Exact> {
        let (mut quotient, mut rest, size) = (Exact::zero(), self.abs(), divisor.abs());
        let powers = (rest.bits() + 1).saturating_sub(size.bits());
        for power in (0..powers).rev() {
            let part = size.mul(&Exact::power_of_two(power));
            if part <= rest {
                rest = rest.sub(&part);
                quotient.increase(&Exact::power_of_two(power));
            }
        }
        quotient.negative = self.negative != divisor.negative && !quotient.is_zero();
        rest.is_zero().then_some(quotient)
    }

    fn power_of_two(power: usize) -> Exact {
        let mut digits = vec![0; power / 64];
        digits.push(1 << (power % 64));
        Exact { negative: false, digits }
    }

    fn tidy(negative: bool, digits: Vec<u64>) -> Exact {
        let mut number = Exact { negative, digits };
        number.trim();
        number
    }

    /// Restores the unique form.
    fn trim(&mut self) {
        while self.digits.last() == Some(&0) {
            self.digits.pop();
        }
        if self.digits.is_empty() {
            self.negative = false;
        }
    }
}

impl Ord for Exact {
    fn cmp(&self, other: &Exact) -> Ordering {
        match (self.negative, other.negative) {
            (false, true) => Ordering::Greater,
            (true, false) => Ordering::Less,
            (false, false) => compare_sizes(&self.digits, &other.digits),
            (true, true) => compare_sizes(&other.digits, &self.digits),
        }
    }
}

impl PartialOrd for Exact {
    fn partial_cmp(&self, other: &Exact) -> Option<Ordering> {
        Some(self.cmp(other))
    }
}

/// In base ten: digits in groups of eighteen, taken off from below.
impl fmt::Display for Exact {
    fn fmt(&self, out: &mut fmt::Formatter<'_>) -> fmt::Result {
        let mut rest = self.digits.clone();
        let mut groups = Vec::new();
        while !rest.is_empty() {
            groups.push(divide_by(&mut rest, 1_000_000_000_000_000_000));
        }
        let Some(top) = groups.pop() else {
            return out.write_str("0");
        };
        if self.negative {
            out.write_str("-")?;
        }
        write!(out, "{top}")?;
        groups.iter().rev().try_for_each(|group| write!(out, "{group:018}"))
    }
}

/// Both lists are without a zero on top, so the longer is the larger.
fn compare_sizes(a: &[u64], b: &[u64]) -> Ordering {
    a.len().cmp(&b.len()).then_with(|| a.iter().rev().cmp(b.iter().rev()))
}

fn add_sizes(a: &mut Vec<u64>, b: &[u64]) {
    if a.len() < b.len() {
        a.resize(b.len(), 0);
    }
    let mut carry = false;
    for (place, digit) in a.iter_mut().enumerate() {
        if place >= b.len() && !carry {
            return;
        }
        let other = b.get(place).copied().unwrap_or(0);
        let (first, over) = digit.overflowing_add(other);
        let (second, again) = first.overflowing_add(u64::from(carry));
        *digit = second;
        carry = over || again;
    }
    if carry {
        a.push(1);
    }
}

/// a − b, where b is not the larger.
fn take_sizes(a: &mut [u64], b: &[u64]) {
    let mut borrow = false;
    for (place, digit) in a.iter_mut().enumerate() {
        if place >= b.len() && !borrow {
            return;
        }
        let other = b.get(place).copied().unwrap_or(0);
        let (first, under) = digit.overflowing_sub(other);
        let (second, again) = first.overflowing_sub(u64::from(borrow));
        *digit = second;
        borrow = under || again;
    }
    assert!(!borrow, "a larger number taken from a smaller");
}

/// The school product, digit by digit.
fn product_sizes(a: &[u64], b: &[u64]) -> Vec<u64> {
    let mut product = vec![0u64; a.len() + b.len()];
    for (shift, &first) in a.iter().enumerate() {
        let mut carry = 0u128;
        for (place, &second) in b.iter().enumerate() {
            let here = &mut product[shift + place];
            let sum = u128::from(first) * u128::from(second) + u128::from(*here) + carry;
            *here = sum as u64;
            carry = sum >> 64;
        }
        product[shift + b.len()] = carry as u64;
    }
    product
}

/// Divides in place and hands back the remainder.
fn divide_by(digits: &mut Vec<u64>, divisor: u64) -> u64 {
    let mut rest = 0u128;
    for digit in digits.iter_mut().rev() {
        let now = (rest << 64) | u128::from(*digit);
        *digit = (now / u128::from(divisor)) as u64;
        rest = now % u128::from(divisor);
    }
    while digits.last() == Some(&0) {
        digits.pop();
    }
    rest as u64
}

#[cfg(test)]
mod tests {
    use super::*;
    use crate::random::Random;

    fn small_numbers(seed: u64) -> Vec<i128> {
        let mut random = Random::new(seed);
        let mut list = vec![0, 1, -1, 2, -2, i128::from(i64::MAX), i128::from(i64::MIN), 1 << 64, -(1 << 64)];
        list.push(i128::from(u64::MAX));
        for _ in 0..60 {
            let shift = random.below(64) as u32;
            list.push(i128::from((random.next() >> shift) as i64));
        }
        list
    }

    #[test]
    fn agrees_with_machine_numbers() {
        let list = small_numbers(5);
        for &a in &list {
            let ea = Exact::from_i128(a);
            assert_eq!(ea.to_string(), a.to_string());
            assert_eq!(ea.neg(), Exact::from_i128(-a));
            assert_eq!(ea.to_i64(), i64::try_from(a).ok());
            assert_eq!(ea.is_zero(), a == 0);
            assert_eq!(ea.bits(), 128 - a.unsigned_abs().leading_zeros() as usize);
            for &b in &list {
                let eb = Exact::from_i128(b);
                assert_eq!(ea.add(&eb), Exact::from_i128(a + b));
                assert_eq!(ea.sub(&eb), Exact::from_i128(a - b));
                assert_eq!(ea.cmp(&eb), a.cmp(&b));
                if let Some(product) = a.checked_mul(b) {
                    assert_eq!(ea.mul(&eb), Exact::from_i128(product));
                }
            }
        }
    }

    fn large(random: &mut Random) -> Exact {
        let mut number = Exact::from_i64(random.next() as i64);
        for _ in 0..random.below(9) {
            number = number.mul(&Exact::from_i64(random.next() as i64));
            number = number.sub(&Exact::from_i64(random.next() as i64 >> 1));
        }
        number
    }

    #[test]
    fn large_numbers_keep_the_laws_of_a_ring() {
        let mut random = Random::new(11);
        for _ in 0..2000 {
            let (a, b, c) = (large(&mut random), large(&mut random), large(&mut random));
            assert_eq!(a.add(&b), b.add(&a));
            assert_eq!(a.mul(&b), b.mul(&a));
            assert_eq!(a.add(&b).add(&c), a.add(&b.add(&c)));
            assert_eq!(a.mul(&b).mul(&c), a.mul(&b.mul(&c)));
            assert_eq!(a.add(&b).mul(&c), a.mul(&c).add(&b.mul(&c)));
            assert_eq!(a.sub(&b).add(&b), a);
            assert!(a.sub(&a).is_zero());
            assert_eq!(a.cmp(&b), a.sub(&b).cmp(&Exact::zero()));
            assert_eq!(a.mul_i64(-7), a.mul(&Exact::from_i64(-7)));
        }
    }

    #[test]
    fn a_product_over_a_factor_is_the_other() {
        let mut random = Random::new(12);
        let (one, seven) = (Exact::from_i64(1), Exact::from_i64(-7));
        for _ in 0..500 {
            let (a, b) = (large(&mut random), large(&mut random));
            let product = a.mul(&b);
            assert_eq!(product.over(&b), Some(a.clone()));
            assert_eq!(product.neg().over(&b), Some(a.neg()));
            assert_eq!(product.add(&one).over(&b.mul(&seven)), None);
            assert_eq!(a.over(&one), Some(a));
            assert_eq!(Exact::zero().over(&b), Some(Exact::zero()));
        }
        assert_eq!(seven.over(&Exact::from_i64(14)), None);
    }

    #[test]
    fn powers_of_ten_print_as_a_one_and_zeros() {
        let mut power = Exact::from_i64(1);
        for zeros in 0..200 {
            assert_eq!(power.to_string(), format!("1{}", "0".repeat(zeros)));
            let less = power.sub(&Exact::from_i64(1));
            let nines = if zeros == 0 { "0".to_string() } else { "9".repeat(zeros) };
            assert_eq!(less.to_string(), nines);
            power = power.mul_i64(10);
        }
        assert_eq!(power.neg().to_string()[..2], *"-1");
    }
}
