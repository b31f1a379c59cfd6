//! Readings over a dense sample of floats.

use crate::lent::Difference;
use crate::markets::EDGE_FLOATS;
use crate::stations::Trial;

/// Every exponent and sign with edge and random fractions; floats beside each hundredth and half
/// hundredth from 0 to 100.
pub fn sample(trial: &mut Trial, random_each: usize, step: usize) -> Result<(), Difference> {
    for bits in EDGE_FLOATS {
        one(trial, bits)?;
    }
    for head in 0..512_u32 {
        let head = head << 23;
        for fraction in [
            0, 1, 2, 0x3F_FFFF, 0x40_0000, 0x40_0001, 0x7F_FFFE, 0x7F_FFFF,
        ] {
            one(trial, head | fraction)?;
        }
        for _ in 0..random_each {
            let fraction = trial.rng.bits() as u32 & 0x7F_FFFF;
            one(trial, head | fraction)?;
        }
    }
    for halves in (0..=20_000).step_by(step) {
        let bits = (f64::from(halves) / 200.0) as f32;
        for beside in -2..=2 {
            one(trial, bits.to_bits().wrapping_add(beside as u32))?;
        }
    }
    // Odd multiples of 1/8 up to 100 are exact halves.
    for eighths in (1..800).step_by(2) {
        one(trial, (eighths as f32 / 8.0).to_bits())?;
    }
    Ok(())
}

fn one(trial: &mut Trial, bits: u32) -> Result<(), Difference> {
    trial.reading(bits)?;
    let float = f32::from_bits(bits);
    let met = &mut trial.met;
    met.branch_if(float.is_nan(), "reading: not a number");
    met.branch_if(float < 0.0, "reading: below zero");
    met.branch_if(float > 100.0, "reading: above 100");
    met.branch_if(float.is_infinite(), "reading: infinite");
    met.branch_if(float.is_subnormal(), "reading: subnormal");
    met.branch_if(float == 100.0, "reading: 100");
    met.branch_if(bits == 1 << 31, "reading: minus zero");
    // A hundred times a float is exact in double precision.
    let half = (100.0 * f64::from(float)).fract() == 0.5;
    met.branch_if(half, "reading: an exact half goes up");
    Ok(())
}
