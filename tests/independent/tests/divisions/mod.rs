//! Wrong ways to come from the numbers projected to the coordinates of a finite point.

use independent::bound::whole;
use independent::projection::Projection;

#[derive(Clone, Copy, Debug, PartialEq)]
pub enum Division {
    NextAwayFromZero,
    NextTowardZero,
    AwayFromZero,
    TowardZero,
    Upward,
    Downward,
    ThroughF32,
    ByTheReciprocal,
    RoundedTwice,
    FiftyTwoDigits,
    Inverted,
    NextNumerator,
    WithoutSign,
    NegativeZero,
    SubnormalForZero,
}

/// What a wrong division is used for.
#[derive(Clone, Copy, Debug, PartialEq)]
pub enum Used {
    Always,
    AfterAPoint,
    AtZeros,
    InTexts,
}

impl Division {
    pub const ALL: [Division; 15] = [
        Division::NextAwayFromZero,
        Division::NextTowardZero,
        Division::AwayFromZero,
        Division::TowardZero,
        Division::Upward,
        Division::Downward,
        Division::ThroughF32,
        Division::ByTheReciprocal,
        Division::RoundedTwice,
        Division::FiftyTwoDigits,
        Division::Inverted,
        Division::NextNumerator,
        Division::WithoutSign,
        Division::NegativeZero,
        Division::SubnormalForZero,
    ];

    /// The finite point of four numbers, of which the last is not 0.
    pub fn project(self, [x, y, z, w]: [i64; 4]) -> Projection {
        let [x, y, z] = if self == Division::NextNumerator { [y, z, x] } else { [x, y, z] };
        Projection::Finite { x: self.divide(x, w), y: self.divide(y, w), z: self.divide(z, w) }
    }

    fn divide(self, x: i64, w: i64) -> u64 {
        if x == 0 {
            return match self {
                Division::NegativeZero if w < 0 => (-0f64).to_bits(),
                Division::SubnormalForZero => 1,
                _ => 0,
            };
        }
        let (right, positive) = (nearest(x, w), (x < 0) == (w < 0));
        let (less, more) = (right - u64::from(side(x, w) > 0), right + u64::from(side(x, w) < 0));
        match self {
            Division::NextAwayFromZero => right + 1,
            Division::NextTowardZero => right - 1,
            Division::Upward if positive => more,
            Division::Downward if !positive => more,
            Division::AwayFromZero => more,
            Division::TowardZero | Division::Upward | Division::Downward => less,
            Division::ThroughF32 => f64::from(x as f32 / w as f32).to_bits(),
            Division::ByTheReciprocal => (x as f64 * (1.0 / w as f64)).to_bits(),
            Division::RoundedTwice => rounded_twice(x, w),
            Division::FiftyTwoDigits => (right + 1) & !1,
            Division::Inverted => nearest(w, x),
            Division::WithoutSign => right & !(1 << 63),
            Division::NextNumerator | Division::NegativeZero | Division::SubnormalForZero => right,
        }
    }
}

fn nearest(x: i64, w: i64) -> u64 {
    (x as f64 / w as f64).to_bits()
}

/// Above 0 if the nearest f64 is above the quotient in absolute value, below 0 if it is below, else 0.
fn side(x: i64, w: i64) -> i128 {
    let (n, e) = whole(nearest(x, w)).expect("a quotient of numbers in range");
    (i128::from(n) * i128::from(w)).abs() - (i128::from(x).abs() << -e)
}

/// Rounded to 64 digits, as the wider numbers of some processors have, and then to 53: a quotient near a tie
/// becomes one, and may then go the other way.
fn rounded_twice(x: i64, w: i64) -> u64 {
    let (_, e) = whole(nearest(x, w)).expect("a quotient of numbers in range");
    let wide = to_even(u128::from(x.unsigned_abs()) << (11 - e), u128::from(w.unsigned_abs()));
    let size = to_even(wide, 1 << 11) as f64 * 2f64.powi(e);
    (if (x < 0) == (w < 0) { size } else { -size }).to_bits()
}

/// The whole number nearest to a quotient, of two the even one.
fn to_even(a: u128, b: u128) -> u128 {
    let (below, rest) = (a / b, a % b);
    below + u128::from(2 * rest > b || (2 * rest == b && below % 2 == 1))
}

/// By quotients whose answers are known: 6 / 10 lies between these two, nearer to the first.
#[test]
fn each_division_is_wrong_as_it_says() {
    use Division::*;
    let around = [0x3fe3333333333333, 0x3fe3333333333334];
    let divided = |division: Division| division.divide(6, 10);
    assert_eq!([TowardZero, AwayFromZero].map(divided), around);
    assert_eq!([Downward, Upward].map(divided), around);
    assert_eq!([RoundedTwice, FiftyTwoDigits].map(divided), around);
    assert_eq!(Upward.divide(6, -10), around[0] | 1 << 63);
    assert_eq!(TowardZero.divide(-8, 10), 0xbfe9999999999999);
    // 2 / w is just above 11661 / 2^53, a tie, and 64 digits do not tell them apart; the even one is below
    assert_eq!(nearest(1544841652472, 1544841652470), 0x3ff00000000016c7);
    assert_eq!(RoundedTwice.divide(1544841652472, 1544841652470), 0x3ff00000000016c6);
    let exact = |division: &Division| division.divide(-12, 4) == nearest(-12, 4);
    let wrong: Vec<Division> = Division::ALL.into_iter().filter(|division| !exact(division)).collect();
    assert_eq!(wrong, [NextAwayFromZero, NextTowardZero, Inverted, WithoutSign]);
}
