//! Stand-in for the crate `num_bigfloat`: exact decimals with two places.
//!
//! The published files are built unchanged against this crate. It has what they use and nothing
//! else. Exact division by 1000 would never reach zero, so `/=`, which only `split_thousands`
//! uses, drops the remainder: the groups are then the decimal groups of three, lowest first.
//! An operation that would not be exact here panics; no admitted text leads to one.

use std::cmp::Ordering;
use std::ops::{DivAssign, Mul, MulAssign, Neg, Rem};

/// 102 digits are the longest admitted text; one group more leaves room to multiply.
const GROUPS: usize = 35;

/// A sign, a whole part in groups of three digits (lowest first) and hundredths. Zero is positive.
#[derive(Clone, Copy, PartialEq, Debug)]
pub struct BigFloat {
    negative: bool,
    groups: [u16; GROUPS],
    hundredths: u8,
}

impl BigFloat {
    const ZERO: BigFloat = BigFloat { negative: false, groups: [0; GROUPS], hundredths: 0 };

    fn from_u64(mut magnitude: u64, negative: bool) -> Self {
        let mut number = Self::ZERO;
        let mut order = 0;
        while magnitude > 0 {
            number.groups[order] = (magnitude % 1000) as u16;
            magnitude /= 1000;
            order += 1;
        }
        number.signed(negative)
    }

    /// The same magnitude with this sign; zero keeps none.
    fn signed(mut self, negative: bool) -> Self {
        self.negative = negative && !self.is_zero();
        self
    }

    /// A number text: `-`, digits, and a point with two digits, each part but the digits optional.
    pub fn parse(text: &str) -> Option<Self> {
        let (negative, text) = match text.strip_prefix('-') {
            Some(rest) => (true, rest),
            None => (false, text),
        };
        let (whole, hundredths) = text.split_once('.').unwrap_or((text, "00"));
        let digits = |s: &str| s.bytes().all(|b| b.is_ascii_digit());
        let fits = (1..=3 * GROUPS).contains(&whole.len()) && hundredths.len() == 2;
        if !(fits && digits(whole) && digits(hundredths)) {
            return None;
        }
        let mut number = Self::ZERO;
        for (order, group) in whole.as_bytes().rchunks(3).enumerate() {
            number.groups[order] = group.iter().fold(0, |n, b| 10 * n + u16::from(b - b'0'));
        }
        number.hundredths = hundredths.parse().ok()?;
        Some(number.signed(negative))
    }

    pub fn is_zero(&self) -> bool {
        self.hundredths == 0 && self.groups == [0; GROUPS]
    }

    pub fn is_negative(&self) -> bool {
        self.negative
    }

    pub fn is_inf(&self) -> bool {
        false
    }

    pub fn is_inf_pos(&self) -> bool {
        false
    }

    pub fn is_inf_neg(&self) -> bool {
        false
    }

    pub fn is_nan(&self) -> bool {
        false
    }

    pub fn abs(&self) -> Self {
        BigFloat { negative: false, ..*self }
    }

    /// The whole part.
    pub fn int(&self) -> Self {
        BigFloat { hundredths: 0, ..*self }.signed(self.negative)
    }

    /// The part below one.
    pub fn frac(&self) -> Self {
        BigFloat { groups: [0; GROUPS], ..*self }.signed(self.negative)
    }

    /// The whole part, if it is not negative and fits.
    pub fn to_u64(&self) -> Option<u64> {
        self.to_u128()?.try_into().ok()
    }

    /// The whole part, if it is not negative and fits.
    pub fn to_u128(&self) -> Option<u128> {
        let highest = self.groups.iter().rposition(|&g| g != 0).map_or(0, |order| order + 1);
        let push = |n: u128, &g: &u16| n.checked_mul(1000)?.checked_add(u128::from(g));
        let magnitude = self.groups[..highest].iter().rev().try_fold(0, push)?;
        (!self.negative).then_some(magnitude)
    }

    fn magnitude_cmp(&self, other: &Self) -> Ordering {
        let wholes = self.groups.iter().rev().cmp(other.groups.iter().rev());
        wholes.then(self.hundredths.cmp(&other.hundredths))
    }

    /// The value as a factor: whole, not negative, below 1000.
    fn small_factor(&self) -> Option<u32> {
        let small = !self.negative && self.hundredths == 0 && self.groups[1..] == [0; GROUPS - 1];
        small.then_some(u32::from(self.groups[0]))
    }
}

impl From<u8> for BigFloat {
    fn from(n: u8) -> Self {
        Self::from_u64(u64::from(n), false)
    }
}

impl From<i32> for BigFloat {
    fn from(n: i32) -> Self {
        Self::from_u64(u64::from(n.unsigned_abs()), n < 0)
    }
}

impl Neg for BigFloat {
    type Output = Self;

    fn neg(self) -> Self {
        self.signed(!self.negative)
    }
}

/// The remainder, with the sign of the dividend, by a number that divides 1000: it lies in the
/// lowest group.
impl Rem for BigFloat {
    type Output = Self;

    fn rem(self, divisor: Self) -> Self {
        let lowest = if divisor == BigFloat::from(1000) {
            self.groups[0]
        } else {
            let small = divisor.small_factor().filter(|d| *d > 0 && 1000 % d == 0);
            self.groups[0] % small.expect("a remainder by a divisor of 1000") as u16
        };
        let mut rest = BigFloat { hundredths: self.hundredths, ..Self::ZERO };
        rest.groups[0] = lowest;
        rest.signed(self.negative)
    }
}

/// Division by 1000 that drops the remainder: the groups move down by one.
impl DivAssign for BigFloat {
    fn div_assign(&mut self, divisor: Self) {
        assert!(divisor == BigFloat::from(1000), "only 1000 divides");
        self.groups.copy_within(1.., 0);
        self.groups[GROUPS - 1] = 0;
        self.hundredths = 0;
        *self = self.signed(self.negative);
    }
}

/// The product by a whole factor below 1000.
impl Mul for BigFloat {
    type Output = Self;

    fn mul(self, factor: Self) -> Self {
        let factor = factor.small_factor().expect("a whole factor below 1000");
        let mut product = self;
        let hundredths = u32::from(self.hundredths) * factor;
        product.hundredths = (hundredths % 100) as u8;
        let mut carry = hundredths / 100;
        for group in &mut product.groups {
            let sum = u32::from(*group) * factor + carry;
            *group = (sum % 1000) as u16;
            carry = sum / 1000;
        }
        assert!(carry == 0, "the product fits");
        product.signed(self.negative)
    }
}

impl MulAssign for BigFloat {
    fn mul_assign(&mut self, factor: Self) {
        *self = *self * factor;
    }
}

impl PartialOrd for BigFloat {
    fn partial_cmp(&self, other: &Self) -> Option<Ordering> {
        Some(match (self.negative, other.negative) {
            (false, true) => Ordering::Greater,
            (true, false) => Ordering::Less,
            (false, false) => self.magnitude_cmp(other),
            (true, true) => other.magnitude_cmp(self),
        })
    }
}
