//! How far a coordinate of a finite point may be off (request E13), judged in whole numbers.
//!
//! A coordinate is n × 2^e with whole n and e. It stands for the quotient x ÷ w of two of the numbers
//! projected. The bound is |n 2^e w − x| × 2^53 ≤ |x|, and 0 must be +0. No float takes part in judging it.

use crate::projection::COORDINATES;

/// The distance is at most one of so many parts of the quotient's absolute value.
pub const PARTS: u128 = 1 << 53;

/// What is known of a coordinate that keeps to the bound. The distance of one that was rounded is at most one
/// of so many parts of the quotient, and more than one of one part more.
#[derive(Clone, Copy, Debug, PartialEq, Eq)]
pub enum Share {
    Zero,
    Exact,
    Parts(u128),
}

/// The whole numbers n and e of a normal f64; nothing for 0, a subnormal, an infinite one and no number.
pub fn whole(bits: u64) -> Option<(i64, i32)> {
    let (field, fraction) = (bits >> 52 & 0x7ff, bits & ((1 << 52) - 1));
    if field == 0 || field == 0x7ff {
        return None;
    }
    let n = (fraction | 1 << 52) as i64;
    Some((if bits >> 63 == 1 { -n } else { n }, field as i32 - 1075))
}

/// One coordinate, or what is wrong with it.
pub fn judge(x: i64, w: i64, bits: u64) -> Result<Share, &'static str> {
    match (x, w, bits) {
        (_, 0, _) => return Err("over the weight 0"),
        (0, _, 0) => return Ok(Share::Zero),
        (0, _, _) => return Err("not +0"),
        _ => {}
    }
    let (n, e) = whole(bits).ok_or("no normal number")?;
    let (distance, quotient) = sides(x, w, n, e).ok_or("beyond the bound")?;
    match distance.checked_mul(PARTS) {
        Some(0) => Ok(Share::Exact),
        Some(product) if product <= quotient => Ok(Share::Parts(quotient / distance)),
        _ => Err("beyond the bound"),
    }
}

/// |n w − x 2^-e| and |x| 2^-e. Nothing where e is above 0, as |n 2^e| is then at least 2^53 and the quotient
/// at most 2^48, and nothing where |x| 2^-e does not fit, as |n w| is then less than half of it; both are
/// beyond the bound. A distance whose product with 2^53 does not fit is beyond it too, as |x| 2^-e fits.
fn sides(x: i64, w: i64, n: i64, e: i32) -> Option<(u128, u128)> {
    let power = 2i128.checked_pow(u32::try_from(-e).ok()?)?;
    let exact = i128::from(x).checked_mul(power)?;
    let own = i128::from(n) * i128::from(w);
    Some((own.checked_sub(exact)?.unsigned_abs(), exact.unsigned_abs()))
}

/// The three coordinates of a finite point, by the numbers projected.
pub fn judge_all([x, y, z, w]: [i64; 4], bits: [u64; COORDINATES]) -> Result<[Share; COORDINATES], String> {
    let mut shares = [Share::Zero; COORDINATES];
    for (place, numerator) in [x, y, z].into_iter().enumerate() {
        let own = bits[place];
        shares[place] = judge(numerator, w, own)
            .map_err(|why| format!("coordinate {place}, {numerator} / {w}, is answered {own:016x}: {why}"))?;
    }
    Ok(shares)
}

/// Coordinates that were judged, by what is known of them.
#[derive(Clone, Copy, Debug, Default, PartialEq, Eq)]
pub struct Judged {
    pub zeros: u64,
    pub exact: u64,
    pub rounded: u64,
    /// Those of them that break a bound half as large.
    pub beyond_half: u64,
    /// The fewest parts of all.
    pub parts: Option<u128>,
}

impl Judged {
    pub fn count(&mut self, share: Share) {
        match share {
            Share::Zero => self.zeros += 1,
            Share::Exact => self.exact += 1,
            Share::Parts(parts) => {
                self.rounded += 1;
                self.beyond_half += u64::from(parts < 2 * PARTS);
                self.parts = Some(self.parts.map_or(parts, |fewest| fewest.min(parts)));
            }
        }
    }

    pub fn all(&self) -> u64 {
        self.zeros + self.exact + self.rounded
    }
}

#[cfg(test)]
mod tests {
    use super::*;
    use crate::shape::RANGE;

    const BEYOND: Result<Share, &str> = Err("beyond the bound");
    const NO_NUMBER: Result<Share, &str> = Err("no normal number");

    fn parts(more: u128) -> Result<Share, &'static str> {
        Ok(Share::Parts(PARTS + more))
    }

    #[test]
    fn n_and_e() {
        assert_eq!(whole(1f64.to_bits()), Some((1 << 52, -52)));
        assert_eq!(whole((-3f64).to_bits()), Some((-3 << 51, -51)));
        assert_eq!(whole(0x3fd5_5555_5555_5555), Some((6004799503160661, -54)));
        assert_eq!(whole(f64::MIN_POSITIVE.to_bits()), Some((1 << 52, -1074)));
        for none in [0, 1 << 63, 1, (1 << 52) - 1, f64::INFINITY.to_bits(), f64::NAN.to_bits()] {
            assert_eq!(whole(none), None);
        }
    }

    /// 1 / 3 is off by half the bound, and the next f64 above by the bound exactly.
    #[test]
    fn thirds() {
        assert_eq!(judge(1, 3, 0x3fd5_5555_5555_5554), BEYOND);
        assert_eq!(judge(1, 3, 0x3fd5_5555_5555_5555), parts(PARTS));
        assert_eq!(judge(1, 3, 0x3fd5_5555_5555_5556), parts(0));
        assert_eq!(judge(1, 3, 0x3fd5_5555_5555_5557), BEYOND);
        for (x, w) in [(-1, 3), (1, -3)] {
            assert_eq!(judge(x, w, 0xbfd5_5555_5555_5555), parts(PARTS));
            assert_eq!(judge(x, w, 0x3fd5_5555_5555_5555), BEYOND);
        }
        assert_eq!(judge(-1, -3, 0x3fd5_5555_5555_5555), parts(PARTS));
    }

    /// The circle's point: 6 / 10 is off by a third of the bound, 8 / 10 by half.
    #[test]
    fn fifths() {
        assert_eq!(judge(6, 10, 0x3fe3_3333_3333_3333), parts(2 * PARTS));
        assert_eq!(judge(6, 10, 0x3fe3_3333_3333_3334), BEYOND);
        assert_eq!(judge(6, 10, 0x3fe3_3333_3333_3332), BEYOND);
        assert_eq!(judge(8, 10, 0x3fe9_9999_9999_999a), parts(PARTS));
        assert_eq!(judge(8, 10, 0x3fe9_9999_9999_999b), BEYOND);
        assert_eq!(judge(8, 10, 0x3fe9_9999_9999_9998), BEYOND);
        let bits = [0x3fe3_3333_3333_3333, 0x3fe9_9999_9999_999a, 0];
        let shares = [Share::Parts(3 * PARTS), Share::Parts(2 * PARTS), Share::Zero];
        assert_eq!(judge_all([6, 8, 0, 10], bits), Ok(shares));
        assert!(judge_all([8, 6, 0, 10], bits).is_err());
        assert!(judge_all([6, 8, 1, 10], bits).is_err());
    }

    /// Quotients nearest to a tie, just above 1.
    #[test]
    fn near_ties() {
        let (x, w) = (28059810762434, 28059810762433);
        assert_eq!(judge(x, w, 0x3ff0_0000_0000_009f), BEYOND);
        assert_eq!(judge(x, w, 0x3ff0_0000_0000_00a0), parts(642));
        assert_eq!(judge(x, w, 0x3ff0_0000_0000_00a1), parts(0));
        assert_eq!(judge(x, w, 0x3ff0_0000_0000_00a2), BEYOND);
        assert_eq!(judge(277144592453571, 277144592453569, 0x3ff0_0000_0000_0020), parts(97));
    }

    #[test]
    fn ends() {
        for (x, w) in [(1, RANGE), (RANGE, 1), (RANGE, RANGE), (RANGE - 1, 1), (-RANGE, 1), (1, -RANGE)] {
            let right = (x as f64 / w as f64).to_bits();
            assert_eq!(judge(x, w, right), Ok(Share::Exact));
            assert_eq!(judge(x, w, right + 1), BEYOND);
            // below a power of two f64 are twice as dense, and the next one is off by the bound exactly
            assert_eq!(judge(x, w, right - 1), if right << 12 == 0 { parts(0) } else { BEYOND });
            assert_eq!(judge(x, w, right - 2), BEYOND);
            assert_eq!(judge(x, w, right ^ 1 << 63), BEYOND);
            for none in [0, 1 << 63, 1, f64::INFINITY.to_bits(), f64::NAN.to_bits()] {
                assert_eq!(judge(x, w, none), NO_NUMBER);
            }
            for far in [f64::MIN_POSITIVE, f64::MAX, -f64::MAX, 1e-30, 1e30, 4503599627370496.0] {
                assert_eq!(judge(x, w, far.to_bits()), BEYOND);
            }
        }
    }

    #[test]
    fn zeros() {
        for w in [1, -1, 7, -7, RANGE, -RANGE] {
            assert_eq!(judge(0, w, 0), Ok(Share::Zero));
            for other in [1 << 63, 1, 1 << 52, 1f64.to_bits(), f64::NAN.to_bits()] {
                assert_eq!(judge(0, w, other), Err("not +0"));
            }
        }
        assert_eq!(judge(1, 0, f64::INFINITY.to_bits()), Err("over the weight 0"));
        assert_eq!(judge(0, 0, 0), Err("over the weight 0"));
    }

    #[test]
    fn counted() {
        let mut judged = Judged::default();
        let rounded = [PARTS, 9, 99].map(|more| Share::Parts(PARTS + more));
        [Share::Zero, Share::Exact].into_iter().chain(rounded).for_each(|share| judged.count(share));
        let wanted = Judged { zeros: 1, exact: 1, rounded: 3, beyond_half: 2, parts: Some(PARTS + 9) };
        assert_eq!((judged, judged.all()), (wanted, 5));
    }
}
