//! Readings of the renderer, and the points made from them.

use crate::exact::{exact, times_256, whole_not_above, Exact};

/// A colour: the record of its three floats.
#[derive(Clone, Copy, Debug)]
pub struct Colour {
    pub first: f32,
    pub second: f32,
    pub third: f32,
}

/// A reading: "a colour of three f32 values, a grey of one value, or nothing
/// measured".
#[derive(Clone, Copy, Debug)]
pub enum Reading {
    Colour(Colour),
    Grey(f32),
    Nothing,
}

/// The values of the reading, in their order.
pub fn values(reading: Reading) -> Vec<f32> {
    match reading {
        Reading::Colour(colour) => vec![colour.first, colour.second, colour.third],
        Reading::Grey(value) => vec![value],
        Reading::Nothing => vec![],
    }
}

/// Whether the value is "from -128 up to but not including 128". It is so
/// exactly if the greatest whole number not above it is -128 to 127.
pub fn in_range(value: Exact) -> bool {
    let number = whole_not_above(value);
    number.is_some_and(|number| (-128..=127).contains(&number))
}

/// The number of a value: "the greatest whole number not above 256 times v".
/// There is none where the value is not finite or out of range.
pub fn number_of_value(v: f32) -> Option<i32> {
    let value = exact(v.to_bits())?;
    if !in_range(value) {
        return None;
    }
    let number = whole_not_above(times_256(value))?;
    Some(number as i32)
}

/// The point made from the reading: the number of each value, then 0 up to three
/// coordinates. There is none where nothing was measured or a value has no number.
pub fn point_of_reading(reading: Reading) -> Option<Vec<i32>> {
    if let Reading::Nothing = reading {
        return None;
    }
    let numbers = values(reading).into_iter().map(number_of_value);
    let mut point = numbers.collect::<Option<Vec<i32>>>()?;
    point.resize(3, 0);
    Some(point)
}
