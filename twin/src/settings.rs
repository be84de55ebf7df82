//! The nine settings of a scale, and the values worked out by them.
//!
//! Loads are exact, in 1/16,000 digit. A load is at most 8 × 2,457,598,500 ×
//! 16 in size, so a net load is below 1.26 × 10^12, and times the largest
//! full scale 5,120,000 below 6.5 × 10^18: 64 bits hold every product.

use crate::format::{Format, Shape, Value};
use crate::text::Text;

/// Parts of a digit in which a scale keeps loads.
pub const PARTS: i64 = 16_000;

#[derive(Clone, Copy, Debug, PartialEq, Eq)]
pub struct Settings {
    pub format: Format,
    /// 2 to this power readings make one measurement.
    pub averaging: u8,
    pub nominal: i32,
    pub step: u8,
    pub dead_load: i64,
    pub full_load: i64,
    pub gross: bool,
    pub tare: i64,
    pub password: Text,
}

impl Settings {
    pub const FACTORY: Settings = Settings {
        format: Format::FACTORY,
        averaging: 0,
        nominal: 0,
        step: 1,
        dead_load: 0,
        full_load: 1_000_000 * PARTS,
        gross: true,
        tare: 0,
        password: Text::FACTORY,
    };

    /// What a load above the dead load shows in this shape.
    pub fn shown(&self, load: i64, shape: Shape) -> i64 {
        let nominal = if self.nominal > 0 { self.nominal } else { shape.full_scale() };
        let span = self.full_load - self.dead_load;
        let step = i64::from(self.step);
        step * nearest(load * i64::from(nominal), span * step)
    }

    /// The value of a measured load, with its status.
    pub fn value(&self, load: i64, overdriven: bool) -> Value {
        let shape = self.format.shape;
        let above = load - self.dead_load;
        let gross = self.shown(above, shape);
        let net = if self.tare == 0 { gross } else { self.shown(above - self.tare, shape) };
        let beyond = |value| u8::from(!shape.fits(value, self.nominal));
        Value {
            shown: if self.gross { gross } else { net },
            status: beyond(net) + 2 * beyond(gross) + 4 * u8::from(overdriven) + 8,
        }
    }
}

/// The nearest whole number to a quotient, a half away from zero.
pub fn nearest(dividend: i64, divisor: i64) -> i64 {
    let quotient = dividend / divisor;
    let rest = dividend % divisor;
    if 2 * rest.abs() >= divisor {
        quotient + dividend.signum()
    } else {
        quotient
    }
}

#[cfg(test)]
mod tests {
    use super::nearest;

    #[test]
    fn halves_go_away_from_zero() {
        for (dividend, divisor, rounded) in [
            (3, 2, 2),
            (-3, 2, -2),
            (1, 3, 0),
            (-1, 3, 0),
            (2, 3, 1),
            (-2, 3, -1),
            (-1, 2, -1),
            (0, 1, 0),
        ] {
            assert_eq!(nearest(dividend, divisor), rounded);
        }
    }
}
