//! Output formats: how a measured value is written.

use crate::answer::Answer;

/// How the bytes of one value stand.
#[derive(Clone, Copy, Debug, PartialEq, Eq)]
#[repr(u8)]
pub enum Shape {
    /// Three bytes, high first, then 0.
    Long = 0,
    /// Two bytes, high first.
    Short = 2,
    /// Sign and seven digits.
    Decimal = 3,
    /// `Long` in reverse.
    LongReversed = 4,
    /// `Short` in reverse.
    ShortReversed = 6,
    /// Three bytes, high first, then the status.
    LongStatus = 8,
    /// Sign and seven digits, address, status.
    DecimalStatus = 9,
    /// `LongStatus` in reverse.
    LongStatusReversed = 12,
}

/// The values that a shape can show, and what it shows beyond them.
struct Limits {
    lowest: i64,
    highest: i64,
    too_low: i64,
    too_high: i64,
}

const LONG: Limits =
    Limits { lowest: -8_388_607, highest: 8_388_606, too_low: -8_388_608, too_high: 8_388_607 };
const SHORT: Limits =
    Limits { lowest: -32_767, highest: 32_766, too_low: -32_768, too_high: 32_767 };
const DECIMAL: Limits =
    Limits { lowest: -1_638_399, highest: 1_638_399, too_low: -1_638_400, too_high: 1_638_400 };

/// Above this nominal value nothing fits in two bytes.
const SHORT_NOMINAL: i32 = 30_000;

impl Shape {
    fn limits(self) -> &'static Limits {
        use Shape::*;
        match self {
            Long | LongReversed | LongStatus | LongStatusReversed => &LONG,
            Short | ShortReversed => &SHORT,
            Decimal | DecimalStatus => &DECIMAL,
        }
    }

    /// What the full span shows at nominal value 0.
    pub fn full_scale(self) -> i32 {
        use Shape::*;
        match self {
            Long | LongReversed | LongStatus | LongStatusReversed => 5_120_000,
            Short | ShortReversed => 20_000,
            Decimal | DecimalStatus => 1_000_000,
        }
    }

    pub fn is_decimal(self) -> bool {
        matches!(self, Shape::Decimal | Shape::DecimalStatus)
    }

    pub fn fits(self, value: i64, nominal: i32) -> bool {
        let limits = self.limits();
        let narrow = matches!(self, Shape::Short | Shape::ShortReversed);
        (limits.lowest..=limits.highest).contains(&value) && !(narrow && nominal > SHORT_NOMINAL)
    }

    /// The value itself, or the overflow value where it does not fit.
    fn clipped(self, value: i64, nominal: i32) -> i64 {
        if self.fits(value, nominal) {
            value
        } else if value >= 0 {
            self.limits().too_high
        } else {
            self.limits().too_low
        }
    }

    /// Writes a value without status, as `TAV?` shows the tare.
    pub fn write_bare(self, out: &mut Answer, shown: i64, nominal: i32) {
        self.write(out, &Value { shown, status: 0 }, nominal, 0);
    }

    /// Writes one value, without its line end.
    pub fn write(self, out: &mut Answer, value: &Value, nominal: i32, address: u8) {
        let shown = self.clipped(value.shown, nominal);
        let [.., high, middle, low] = shown.to_be_bytes();
        match self {
            Shape::Long => out.bytes(&[high, middle, low, 0]),
            Shape::LongReversed => out.bytes(&[0, low, middle, high]),
            Shape::LongStatus => out.bytes(&[high, middle, low, value.status]),
            Shape::LongStatusReversed => out.bytes(&[value.status, low, middle, high]),
            Shape::Short => out.bytes(&[middle, low]),
            Shape::ShortReversed => out.bytes(&[low, middle]),
            Shape::Decimal => out.signed(shown, 7),
            Shape::DecimalStatus => {
                out.signed(shown, 7);
                out.byte(b',');
                out.digits(u64::from(address), 2);
                out.byte(b',');
                out.digits(u64::from(value.status), 3);
            }
        }
    }
}

/// A measured value, rounded to the step, and its status.
#[derive(Clone, Copy, Debug)]
pub struct Value {
    pub shown: i64,
    pub status: u8,
}

/// A shape, and whether values of `MSV?` keep their line ends.
#[derive(Clone, Copy, Debug, PartialEq, Eq)]
pub struct Format {
    pub shape: Shape,
    pub line_ends: bool,
}

impl Format {
    pub const FACTORY: Format = Format { shape: Shape::DecimalStatus, line_ends: true };

    /// The format of a COF number.
    pub fn from_number(number: i64) -> Option<Format> {
        let (base, line_ends) = if number < 32 { (number, true) } else { (number - 32, false) };
        let shape = match base {
            0 => Shape::Long,
            2 => Shape::Short,
            3 => Shape::Decimal,
            4 => Shape::LongReversed,
            6 => Shape::ShortReversed,
            8 => Shape::LongStatus,
            9 => Shape::DecimalStatus,
            12 => Shape::LongStatusReversed,
            _ => return None,
        };
        Some(Format { shape, line_ends })
    }

    pub fn number(self) -> u8 {
        self.shape as u8 + if self.line_ends { 0 } else { 32 }
    }

    /// Ends a value of a block.
    pub fn end_value(self, out: &mut Answer) {
        if self.line_ends && self.shape.is_decimal() {
            out.line_end();
        }
    }

    /// Ends a block.
    pub fn end_block(self, out: &mut Answer) {
        if self.line_ends && !self.shape.is_decimal() {
            out.line_end();
        }
    }
}
