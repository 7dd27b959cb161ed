//! Points made of readings by the library and by the second program, which must agree, and readings of every kind.

use crate::chance::Chance;
use hornherder::raw;
use second::reading::{values, Colour, Reading};

/// How many places there are: as many as are lent, and more behind them.
pub const PLACES: usize = 8;

/// The bits of 128 and of -128. The greatest float below 128 has one less than the first, the greatest below -128 one more than the
/// second.
const PLUS_128: u32 = 0x4300_0000;
const MINUS_128: u32 = 0xC300_0000;

/// A reading, what stands in the places before the call, and how many of them are lent.
#[derive(Clone, Debug)]
pub struct Asked {
    pub reading: Reading,
    pub before: [i32; PLACES],
    pub length: usize,
}

/// What came of it: the answer, and the places afterwards.
pub struct Made {
    pub asked: Asked,
    pub answer: raw::Making,
    pub after: [i32; PLACES],
}

/// A colour of these values.
pub fn colour([first, second, third]: [f32; 3]) -> Reading {
    Reading::Colour(Colour {
        first,
        second,
        third,
    })
}

impl Asked {
    /// A reading with three places lent.
    pub fn new(reading: Reading) -> Asked {
        Asked {
            reading,
            before: [70, -71, 72, -73, 74, -75, 76, -77],
            length: 3,
        }
    }

    /// Compares the call: the answer and every place, those behind what is lent too; and holds both to the words.
    pub fn made(self) -> Made {
        let (mut after, mut theirs) = (self.before, self.before);
        let answer = by_library(self.reading, &mut after[..self.length]);
        let expected = by_second(self.reading, &mut theirs[..self.length]);
        let numbers = (answer.code, answer.made);
        let theirs_numbers = (expected.code, expected.made);
        assert_eq!(numbers, theirs_numbers, "{self:?}, {:x?}", self.bits());
        assert_eq!(after, theirs, "{self:?}, {:x?}", self.bits());
        let made = Made {
            asked: self,
            answer,
            after,
        };
        made.hold();
        made
    }

    /// The bits of each value.
    fn bits(&self) -> Vec<u32> {
        let all = values(self.reading).into_iter();
        all.map(f32::to_bits).collect()
    }
}

impl Made {
    /// Asks that a point is made exactly where three places are lent, something was measured, and each value is from -128 up to but
    /// not including 128, and that else every place is kept.
    fn hold(&self) {
        let Asked {
            reading,
            before,
            length,
        } = &self.asked;
        let all = values(*reading);
        let right = all.iter().all(|v| (-128.0..128.0).contains(v));
        let code = match (length, right) {
            (3, true) => 0,
            (3, false) => 12,
            _ => 3,
        };
        let made = code == 0 && !all.is_empty();
        let numbers = (self.answer.code, self.answer.made);
        assert_eq!(numbers, (code, u32::from(made)), "{:?}", self.asked);
        if made {
            self.hold_point(&all);
        } else {
            assert_eq!(self.after, *before, "{:?}", self.asked);
        }
    }

    /// Asks that each number is not above 256 times its value, and the next one is; that zeros follow, up to three; and that what
    /// stands behind the three places is kept. Wide floats hold 256 times any float exactly.
    fn hold_point(&self, all: &[f32]) {
        for (v, number) in all.iter().zip(&self.after) {
            let (wide, number) = (256.0 * f64::from(*v), f64::from(*number));
            let floor = number <= wide && wide < number + 1.0;
            assert!(floor, "{number} of {:?}", self.asked);
        }
        let zeros = self.after[all.len()..3].iter().all(|number| *number == 0);
        assert!(zeros, "{:?}", self.asked);
        assert_eq!(self.after[3..], self.asked.before[3..], "{:?}", self.asked);
    }
}

/// The library's call for a reading.
fn by_library(reading: Reading, place: &mut [i32]) -> raw::Making {
    match reading {
        Reading::Colour(of) => raw::point_from_colour(of.first, of.second, of.third, place),
        Reading::Grey(value) => raw::point_from_grey(value, place),
        Reading::Nothing => raw::point_from_nothing(place),
    }
}

/// The second program's call for a reading.
fn by_second(reading: Reading, place: &mut [i32]) -> second::Making {
    match reading {
        Reading::Colour(of) => second::point_from_colour(of.first, of.second, of.third, place),
        Reading::Grey(value) => second::point_from_grey(value, place),
        Reading::Nothing => second::point_from_nothing(place),
    }
}

/// Floats that make a difference, with both signs: zero, the smallest and the greatest subnormal and others, the smallest normal ones,
/// 1 and its neighbours, both ends of the range and theirs, the greatest ones, the infinities, and no numbers, quiet and signalling,
/// of several fractions.
pub fn special() -> Vec<f32> {
    let small = [0, 1, 2, 0x0000_ABCD, 0x0040_0000, 0x007F_FFFF];
    let normal = [0x0080_0000, 0x0080_0001, 0x3B80_0000, 0x3B7F_FFFF];
    let ones = [0x3F7F_FFFF, 0x3F80_0000, 0x3F80_0001];
    let ends = [PLUS_128 - 1, PLUS_128, PLUS_128 + 1, 0x4380_0000];
    let beyond = [0x4F00_0000, 0x7F7F_FFFF, 0x7F80_0000];
    let no_number = [
        0x7F80_0001,
        0x7FA5_A5A5,
        0x7FBF_FFFF,
        0x7FC0_0000,
        0x7FC0_0001,
        0x7FFF_FFFF,
    ];
    let plus = [
        &small[..],
        &normal[..],
        &ones[..],
        &ends[..],
        &beyond[..],
        &no_number[..],
    ];
    let plus = plus.concat();
    let minus = plus.iter().map(|bits| bits + 0x8000_0000);
    let both = plus.iter().copied().chain(minus);
    both.map(f32::from_bits).collect()
}

/// A float: any bits, a special one, a multiple of 1/256 or a neighbour, one spread evenly over the range or over its bits, or one near
/// an end.
pub fn value(chance: &mut Chance) -> f32 {
    let bits = chance.number() as u32;
    let sign = bits & 0x8000_0000;
    match chance.below(6) {
        0 => f32::from_bits(bits),
        1 => chance.one_of(&special()),
        2 => {
            let at = chance.between(-32_768, 32_767) as f32 / 256.0;
            chance.one_of(&[at, at.next_down(), at.next_up()])
        }
        3 => chance.between(-1 << 31, (1 << 31) - 1) as f32 / (1_u32 << 24) as f32,
        4 => f32::from_bits(sign + (bits - sign) % PLUS_128),
        _ => {
            let end = chance.one_of(&[PLUS_128, MINUS_128]);
            f32::from_bits(end - 4 + chance.below(8) as u32)
        }
    }
}

/// A float of the range, at which a point is made.
pub fn right_value(chance: &mut Chance) -> f32 {
    loop {
        let value = value(chance);
        if (-128.0..128.0).contains(&value) {
            return value;
        }
    }
}

/// A reading of any of the three kinds, with values that this makes.
pub fn reading(chance: &mut Chance, mut value: impl FnMut(&mut Chance) -> f32) -> Reading {
    match chance.below(4) {
        0 | 1 => colour([value(chance), value(chance), value(chance)]),
        2 => Reading::Grey(value(chance)),
        _ => Reading::Nothing,
    }
}
