//! Ranges of float fields and exact sums of times.

use crate::hits::{B, hit};

/// A time field is in range: finite, not negative zero, within the bounds.
pub fn within(x: f64, low: f64, high: f64) -> bool {
    let row = if x.is_nan() {
        B::float_nan
    } else if x.is_infinite() {
        B::float_infinite
    } else if x == 0.0 && x.is_sign_negative() {
        B::float_negative_zero
    } else if x < low {
        B::float_below
    } else if x > high {
        B::float_above
    } else {
        return true;
    };
    hit(row);

    false
}

/// The same for a 32-bit field; widening is exact, so the bounds stay.
pub fn within32(x: f32, low: f32, high: f32) -> bool {
    within(f64::from(x), f64::from(low), f64::from(high))
}

/// A time not below 0 in multiples of 2^-1074, least word first.
/// 18 words hold every f64 below 2^64, and sums of two of them.
#[derive(Clone, Copy, PartialEq, Eq, Debug)]
pub struct Ticks([u64; 18]);

impl Ticks {
    /// `None` where x is negative, not a number, or 2^64 or more.
    pub fn of(x: f64) -> Option<Self> {
        if !(0.0..2f64.powi(64)).contains(&x) {
            return None;
        }

        let bits = x.to_bits() & !(1 << 63);
        let exponent = (bits >> 52) as usize;
        let fraction = bits & ((1 << 52) - 1);
        let (whole, shift) = if exponent == 0 {
            (fraction, 0)
        } else {
            (fraction | 1 << 52, exponent - 1)
        };

        let spread = u128::from(whole) << (shift % 64);
        let mut words = [0; 18];
        words[shift / 64] = spread as u64;
        words[shift / 64 + 1] = (spread >> 64) as u64;

        Some(Self(words))
    }

    pub fn plus(self, other: Self) -> Self {
        let mut words = [0; 18];
        let mut carry = 0_u128;

        for (i, word) in words.iter_mut().enumerate() {
            let sum = u128::from(self.0[i]) + u128::from(other.0[i]) + carry;
            *word = sum as u64;
            carry = sum >> 64;
        }

        Self(words)
    }

    pub fn at_most(self, other: Self) -> bool {
        self.0.iter().rev().le(other.0.iter().rev())
    }
}
