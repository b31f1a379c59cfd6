//! Section "Analyser readings".

use crate::Refusal;

const SIGN: u32 = 1 << 31;
/// The bits of plus infinity; every larger pattern without the sign is not a number.
const INFINITY: u32 = 0x7F80_0000;
/// The bits of 100. Floats that are not negative are ordered as their bits are.
const HUNDRED: u32 = 0x42C8_0000;

/// A reading is the whole hundredth nearest to 100 times the float's exact value, an exact half
/// going up. Minus zero is zero. Number 9: The line's float is not a number, below zero or above
/// 100.
pub fn reading(bits: u32) -> Result<i64, Refusal> {
    let size = bits & !SIGN;
    let not_a_number = size > INFINITY;
    let below_zero = bits & SIGN != 0 && size != 0;
    if not_a_number || below_zero || size > HUNDRED {
        return Err(9);
    }
    // The exact value is `mantissa` / 2^`places`; from 2^-149 up to 100 there are 17 to 149 places.
    let exponent = size >> 23;
    let fraction = i128::from(size & 0x7F_FFFF);
    let (mantissa, places) = match exponent {
        0 => (fraction, 149),
        _ => (fraction + (1 << 23), 150 - exponent),
    };
    if places > 100 {
        return Ok(0); // 100 * mantissa < 2^31, so the value is far below half a hundredth
    }
    // The nearest whole number, halves up, is the floor of 100 m / 2^k + 1/2.
    let nearest = (200 * mantissa + (1 << places)) >> (places + 1);
    Ok(nearest as i64)
}
