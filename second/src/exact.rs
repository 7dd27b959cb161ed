//! What the bits of a float stand for, as an exact value, and the greatest whole
//! number not above it. Everything is done on whole numbers.

/// An exact value: a whole number times 2 to a power.
#[derive(Clone, Copy, Debug, PartialEq, Eq)]
pub struct Exact {
    pub whole: i128,
    pub power: i32,
}

/// Whether the sign bit, the topmost one, is set.
pub fn is_negative(bits: u32) -> bool {
    bits / 2_147_483_648 == 1
}

/// The eight exponent bits, which stand below the sign bit.
pub fn exponent_bits(bits: u32) -> u32 {
    bits / 8_388_608 % 256
}

/// The 23 fraction bits, the lowest ones.
pub fn fraction_bits(bits: u32) -> u32 {
    bits % 8_388_608
}

/// Whether the bits stand for a finite value. With all exponent bits set they
/// are an infinity or no number at all.
pub fn is_finite(bits: u32) -> bool {
    exponent_bits(bits) != 255
}

/// The whole number without its sign: the fraction bits, with a 1 set before
/// them unless all exponent bits are 0.
pub fn magnitude(bits: u32) -> i128 {
    match exponent_bits(bits) {
        0 => i128::from(fraction_bits(bits)),
        _ => 8_388_608 + i128::from(fraction_bits(bits)),
    }
}

/// The power of 2 that goes with the whole number: the exponent bits minus 150.
/// Exponent bits 0 have the power of exponent bits 1.
pub fn power(bits: u32) -> i32 {
    match exponent_bits(bits) {
        0 => 1 - 150,
        exponent => exponent as i32 - 150,
    }
}

/// The exact value of the bits; there is none where it is not finite. Negative
/// zero is 0, since the whole number 0 has no sign.
pub fn exact(bits: u32) -> Option<Exact> {
    if !is_finite(bits) {
        return None;
    }
    let whole = match is_negative(bits) {
        true => -magnitude(bits),
        false => magnitude(bits),
    };
    let power = power(bits);
    Some(Exact { whole, power })
}

/// 256 times the value.
pub fn times_256(value: Exact) -> Exact {
    let whole = 256 * value.whole;
    Exact { whole, ..value }
}

/// The greatest whole number not above the value, doubled or halved into it one
/// step at a time. There is none where a doubling leaves 128 bits.
pub fn whole_not_above(value: Exact) -> Option<i128> {
    let mut number = value.whole;
    for _ in 0..value.power {
        number = number.checked_mul(2)?;
    }
    for _ in value.power..0 {
        number = half_not_above(number);
    }
    Some(number)
}

/// The greatest whole number not above half the number, so that half of -1 gives
/// -1. Taken again and again it gives the same as one division by the whole power.
fn half_not_above(number: i128) -> i128 {
    number.div_euclid(2)
}
