//! Values of the generator under an allowance.

use entry::State;

use crate::{
    hits::{B, hit},
    refusal::Refusal,
};

#[derive(Clone, Copy, Debug)]
pub struct Draws {
    pub state: State,
    pub taken: u32,
    /// The most draws that one search made.
    pub longest_search: u32,
    allowance: u32,
}

impl Draws {
    pub const fn new(state: State, allowance: u32) -> Self {
        Self {
            state,
            taken: 0,
            longest_search: 0,
            allowance,
        }
    }

    /// The state from which a seed's values follow.
    pub const fn seeded(seed: i32) -> State {
        State {
            x: seed as u32,
            y: 842_502_087,
            z: 3_579_807_591,
            w: 273_326_509,
        }
    }

    /// The next value, 31 bits.
    pub fn value(&mut self) -> Result<u32, Refusal> {
        if self.taken == self.allowance {
            hit(B::draw_none_left);
            return Err(Refusal::NoDrawLeft);
        }

        self.taken += 1;
        let State { x, y, z, w } = self.state;
        let t = x ^ (x << 11);
        let new = (w ^ (w >> 19)) ^ (t ^ (t >> 8));
        self.state = State {
            x: y,
            y: z,
            z: w,
            w: new,
        };

        Ok(new & 0x7fff_ffff)
    }

    /// `next_double`: the value over 2^31, exact.
    pub fn unit(&mut self) -> Result<f64, Refusal> {
        Ok(f64::from(self.value()?) / 2_147_483_648.0)
    }

    /// `next_int_range`, in whole numbers.
    pub fn range(&mut self, min: i32, max: i32) -> Result<i32, Refusal> {
        let value = u64::from(self.value()?);

        Ok(min + ((value * (max - min) as u64) >> 31) as i32)
    }

    /// How many notes, by chances of 2 to 5.
    pub fn count(&mut self, p: [f64; 4]) -> Result<i32, Refusal> {
        let value = self.unit()?;

        // The largest count is tried first.
        for (chance, count, row) in [
            (p[3], 5, B::count_5),
            (p[2], 4, B::count_4),
            (p[1], 3, B::count_3),
            (p[0], 2, B::count_2),
        ] {
            if value >= 1.0 - chance {
                hit(row);
                return Ok(count);
            }
        }

        hit(B::count_1);
        Ok(1)
    }
}
