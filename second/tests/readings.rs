//! Points made from readings of the renderer: worked examples, refusals, every
//! step of 1/256 with its neighbours, and random bits against exact wide floats.

use second::exact::{exact, whole_not_above, Exact};
use second::{arrange, place, point_from_colour, point_from_grey, point_from_nothing, Making};

const LENT: [i32; 3] = [71, -72, 73];
const MADE: Making = Making { code: 0, made: 1 };
const LAST_BELOW_128: u32 = 0x42FF_FFFF;
const PLUS_128: u32 = 0x4300_0000;
const MINUS_128: u32 = 0xC300_0000;
const NEXT_BELOW_MINUS_128: u32 = 0xC300_0001;

/// The answer with this refusal.
fn refused(code: u32) -> Making {
    Making { code, made: 0 }
}

/// The answer for a colour and the three places afterwards.
fn colour(values: [f32; 3]) -> (Making, [i32; 3]) {
    let mut lent = LENT;
    let [first, second, third] = values;
    (point_from_colour(first, second, third, &mut lent), lent)
}

/// The number that a grey with these bits gives, or none where it is refused.
/// Every other part of the answer is tested on the way.
fn number(bits: u32) -> Option<i32> {
    let mut lent = LENT;
    let answer = point_from_grey(f32::from_bits(bits), &mut lent);
    if answer == MADE {
        assert_eq!(lent[1..], [0, 0]);
        return Some(lent[0]);
    }
    assert_eq!((answer, lent), (refused(12), LENT));
    None
}

/// The number of a float written in decimals, which must not be refused.
fn number_of(v: f32) -> i32 {
    number(v.to_bits()).unwrap()
}

/// The bits of the float so many steps up from zero, or down for a negative
/// count. Neighbouring floats are one step apart.
fn stepped(steps: i64) -> u32 {
    match steps >= 0 {
        true => steps as u32,
        false => 0x8000_0000 + (-steps) as u32,
    }
}

/// How many steps up from zero the float with these bits lies.
fn steps(bits: u32) -> i64 {
    match bits < 0x8000_0000 {
        true => i64::from(bits),
        false => -i64::from(bits - 0x8000_0000),
    }
}

/// Bits that are no finite value: both infinities, and those of no number at all,
/// quiet and signalling, with the least and the greatest fraction.
fn not_finite() -> Vec<u32> {
    let plus = [
        0x7F80_0000,
        0x7F80_0001,
        0x7FA0_0000,
        0x7FBF_FFFF,
        0x7FC0_0000,
        0x7FC0_0001,
        0x7FFF_FFFF,
    ];
    let minus = plus.map(|bits| bits + 0x8000_0000);
    [plus, minus].concat()
}

/// Bits of finite values that are out of range.
fn out_of_range() -> Vec<u32> {
    let first = [PLUS_128, PLUS_128 + 1, NEXT_BELOW_MINUS_128];
    let further = [129.0, -129.0, 256.0, -256.0, 1e9, -1e9, f32::MAX, f32::MIN];
    first
        .into_iter()
        .chain(further.map(|v: f32| v.to_bits()))
        .collect()
}

/// Both zeros give 0, and the floats nearest to zero 0 and -1.
#[test]
fn zeros_and_nearest_to_zero() {
    assert_eq!(number(0x0000_0000), Some(0));
    assert_eq!(number(0x8000_0000), Some(0));
    assert_eq!(number(0x0000_0001), Some(0));
    assert_eq!(number(0x8000_0001), Some(-1));
}

/// The ends of the range, and the first floats beyond them.
#[test]
fn ends_of_the_range() {
    assert_eq!(number(LAST_BELOW_128), Some(32_767));
    assert_eq!(number(PLUS_128), None);
    assert_eq!(number(MINUS_128), Some(-32_768));
    assert_eq!(number(MINUS_128 - 1), Some(-32_768));
    assert_eq!(number(NEXT_BELOW_MINUS_128), None);
    assert_eq!(number_of(32_767.0 / 256.0), 32_767);
    assert_eq!(number_of(-32_767.0 / 256.0), -32_767);
}

/// Whole values, and parts of 256 by hand: 256 times 0.1 is about 25.6, times
/// 3.3 about 844.8, times 100.7 about 25,779.2.
#[test]
fn plain_values() {
    let rows = [
        (1.0, 256, -256),
        (2.0, 512, -512),
        (0.5, 128, -128),
        (127.0, 32_512, -32_512),
        (0.003_906_25, 1, -1),
        (0.001_953_125, 0, -1),
        (0.005_859_375, 1, -2),
        (0.1, 25, -26),
        (3.3, 844, -845),
        (100.7, 25_779, -25_780),
    ];
    for (v, plus, minus) in rows {
        assert_eq!((number_of(v), number_of(-v)), (plus, minus), "{v}");
    }
}

/// Subnormals are small values like any other: 0 above zero and -1 below. So are
/// the least normal float and its neighbours.
#[test]
fn subnormals() {
    let single = (0..23).map(|place| 1 << place);
    let edges = [0x0000_0003, 0x0055_5555, 0x007F_FFFE, 0x007F_FFFF];
    let normal = [0x0080_0000, 0x0080_0001, 0x00FF_FFFF, 0x0100_0000];
    for bits in single.chain(edges).chain(normal) {
        assert_eq!(number(bits), Some(0), "{bits:#x}");
        assert_eq!(number(0x8000_0000 + bits), Some(-1), "{bits:#x}");
    }
}

/// No number at all and infinity are refused, with both signs.
#[test]
fn not_finite_is_refused() {
    for bits in not_finite() {
        assert!(!f32::from_bits(bits).is_finite());
        assert_eq!(number(bits), None, "{bits:#x}");
    }
}

/// Finite values out of range are refused.
#[test]
fn out_of_range_is_refused() {
    for bits in out_of_range() {
        assert!(f32::from_bits(bits).is_finite());
        assert_eq!(number(bits), None, "{bits:#x}");
    }
}

/// Each power of 2 that a float can hold, from 2 to the power -149 to 127, and
/// its negative. Those from 1/256 on are whole numbers of 256ths.
#[test]
fn powers_of_2() {
    for power in -149..=127 {
        let bits = match power < -126 {
            true => 1 << (power + 149),
            false => ((power + 127) as u32) << 23,
        };
        let (plus, minus) = match power {
            ..=-9 => (Some(0), Some(-1)),
            -8..=6 => (Some(1 << (power + 8)), Some(-(1 << (power + 8)))),
            7 => (None, Some(-32_768)),
            _ => (None, None),
        };
        assert_eq!(number(bits), plus, "{power}");
        assert_eq!(number(0x8000_0000 + bits), minus, "{power}");
    }
}

/// A colour gives the number of each value, in their order.
#[test]
fn colours() {
    assert_eq!(colour([1.0, 2.0, 3.0]), (MADE, [256, 512, 768]));
    assert_eq!(colour([-0.0, -1e-45, 1e-45]), (MADE, [0, -1, 0]));
    assert_eq!(colour([-128.0, 0.1, -0.1]), (MADE, [-32_768, 25, -26]));
    let last = f32::from_bits(LAST_BELOW_128);
    assert_eq!(colour([last, -128.0, last]).1, [32_767, -32_768, 32_767]);
}

/// A grey gives its number, then 0, 0, whatever the places held.
#[test]
fn greys() {
    for lent in [[0, 0, 0], LENT, [i32::MIN, i32::MAX, i32::MIN]] {
        for (v, number) in [(1.5, 384), (-1.5, -384), (-0.0, 0), (-1e-45, -1)] {
            let mut places = lent;
            assert_eq!(point_from_grey(v, &mut places), MADE);
            assert_eq!(places, [number, 0, 0]);
        }
    }
}

/// Nothing measured is done, makes no point and leaves the three places.
#[test]
fn nothing_measured() {
    for lent in [[0, 0, 0], LENT, [i32::MIN, i32::MAX, i32::MIN]] {
        let mut places = lent;
        let done = Making { code: 0, made: 0 };
        assert_eq!(point_from_nothing(&mut places), done);
        assert_eq!(places, lent);
    }
}

/// A bad value at any of the three refuses the colour and leaves all places, the
/// last one too.
#[test]
fn one_bad_value_leaves_all_places() {
    for bits in [not_finite(), out_of_range()].concat() {
        let bad = f32::from_bits(bits);
        for values in [[bad, 2.0, 3.0], [1.0, bad, 3.0], [1.0, 2.0, bad]] {
            assert_eq!(colour(values), (refused(12), LENT), "{bits:#x}");
        }
    }
}

/// Two or three bad values are refused in the same way.
#[test]
fn several_bad_values() {
    let (a, b) = (f32::NAN, 128.0);
    for values in [[a, b, 1.0], [b, 1.0, a], [1.0, a, b], [a, b, a], [b; 3]] {
        assert_eq!(colour(values), (refused(12), LENT));
    }
}

/// A place that is not three long is refused with 3 for every reading, good or
/// bad, and nothing is written.
#[test]
fn place_not_three_long() {
    let bad = [f32::NAN, f32::INFINITY, f32::NEG_INFINITY, 128.0, -129.0];
    for length in [0, 1, 2, 4, 5, 6, 300] {
        let lent = vec![74; length];
        for v in [0.0, 1.0, -128.0].into_iter().chain(bad) {
            let mut places = lent.clone();
            assert_eq!(point_from_colour(v, v, v, &mut places), refused(3));
            assert_eq!(point_from_colour(0.0, 0.0, v, &mut places), refused(3));
            assert_eq!(point_from_grey(v, &mut places), refused(3));
            assert_eq!(point_from_nothing(&mut places), refused(3));
            assert_eq!(places, lent);
        }
    }
}

/// The exact values behind the bits: 1, the ends, a subnormal, the greatest
/// float, both zeros, and none.
#[test]
fn exact_values() {
    let value = |whole: i128, power: i32| Some(Exact { whole, power });
    assert_eq!(exact(0x3F80_0000), value(8_388_608, -23));
    assert_eq!(exact(LAST_BELOW_128), value(16_777_215, -17));
    assert_eq!(exact(MINUS_128), value(-8_388_608, -16));
    assert_eq!(exact(0x8000_0001), value(-1, -149));
    assert_eq!(exact(0x007F_FFFF), value(8_388_607, -149));
    assert_eq!(exact(0x0080_0000), value(8_388_608, -149));
    assert_eq!(exact(0x7F7F_FFFF), value(16_777_215, 104));
    assert_eq!(
        (exact(0), exact(0x8000_0000)),
        (value(0, -149), value(0, -149))
    );
    assert!(not_finite().into_iter().all(|bits| exact(bits).is_none()));
}

/// Halving step by step gives the one whole number that, times the power, is not
/// above, while the next one is.
#[test]
fn halving_is_division() {
    for whole in -70..=70 {
        for power in -10..=0 {
            let number = whole_not_above(Exact { whole, power }).unwrap();
            let part = 1 << -power;
            assert!(number * part <= whole && whole < (number + 1) * part);
        }
        for power in 0..=10 {
            let number = whole_not_above(Exact { whole, power });
            assert_eq!(number, Some(whole * (1 << power)));
        }
    }
}

/// Every multiple of 1/256 in range gives its own count. The next float above it
/// gives the same, the next one below it one less, or is out of range.
#[test]
fn every_256th_and_its_neighbours() {
    for count in -32_768..=32_767 {
        let at = steps((count as f32 / 256.0).to_bits());
        let below = match count {
            -32_768 => None,
            _ => Some(count - 1),
        };
        assert_eq!(number(stepped(at)), Some(count));
        assert_eq!(number(stepped(at + 1)), Some(count));
        assert_eq!(number(stepped(at - 1)), below);
    }
}

/// From -128 up to 128 in even strides of floats the number never falls, and it
/// goes from the least to the greatest.
#[test]
fn never_falls_over_the_range() {
    let mut last = -32_768;
    for at in (steps(MINUS_128)..=steps(LAST_BELOW_128)).step_by(9_973) {
        let here = number(stepped(at)).unwrap();
        assert!(here >= last, "{at}");
        last = here;
    }
    assert!(last > 32_700);
}

/// The same float by float, in the 3,000 steps around zero, around 1 and -1, and
/// at both ends, where it rises by at most 1 at each step.
#[test]
fn never_falls_float_by_float() {
    let middles = [0, 0x3F80_0000, -0x3F80_0000];
    let middles = middles.map(|middle| middle - 1_500).into_iter();
    let ends = [steps(MINUS_128), steps(LAST_BELOW_128) - 3_000];
    for first in middles.chain(ends) {
        for at in first..first + 3_000 {
            let here = number(stepped(at)).unwrap();
            let next = number(stepped(at + 1)).unwrap();
            assert!(next == here || next == here + 1, "{at}");
        }
    }
}

/// Beyond both ends every float is refused, up to infinity and on through all
/// that is no number.
#[test]
fn refused_beyond_the_ends() {
    for beyond in (i64::from(PLUS_128)..=0x7FFF_FFFF).step_by(9_973) {
        assert_eq!(number(stepped(beyond)), None, "{beyond}");
        assert_eq!(number(stepped(-beyond - 1)), None, "{beyond}");
    }
}

/// So many bits that look random.
fn thrown(state: &mut u64, count: usize) -> Vec<u32> {
    let next = |_| {
        *state ^= *state << 13;
        *state ^= *state >> 7;
        *state ^= *state << 17;
        (*state >> 16) as u32
    };
    (0..count).map(next).collect()
}

/// Random bits: half of them any, and half with a size between 2 to the power
/// -10 and 256, where the numbers are neither all small nor all refused.
fn cases() -> Vec<u32> {
    let mut state = 91;
    let any = thrown(&mut state, 150_000);
    let near = |bits: u32| {
        let exponent = 117 + bits / 0x0080_0000 % 256 % 18;
        bits / 0x8000_0000 * 0x8000_0000 + exponent * 0x0080_0000 + bits % 0x0080_0000
    };
    let sized = thrown(&mut state, 150_000).into_iter().map(near).collect();
    [any, sized].concat()
}

/// The number by wide floats: these hold 256 times any float exactly, and their
/// floor is exact. None where it is not a coordinate.
fn by_wide_floats(bits: u32) -> Option<i32> {
    let floor = (256.0 * f64::from(f32::from_bits(bits))).floor();
    (-32_768.0..=32_767.0)
        .contains(&floor)
        .then_some(floor as i32)
}

/// On random bits the number is the one by wide floats, and the refusals are the
/// same.
#[test]
fn random_bits_by_wide_floats() {
    for bits in cases() {
        assert_eq!(number(bits), by_wide_floats(bits), "{bits:#x}");
    }
}

/// On random bits the number is not above 256 times the value and the next one
/// is; a refused value is not one from -128 up to but not including 128.
#[test]
fn random_bits_by_the_words() {
    for bits in cases() {
        let v = f64::from(f32::from_bits(bits));
        match number(bits) {
            Some(g) => assert!(f64::from(g) <= 256.0 * v && 256.0 * v < f64::from(g + 1)),
            None => assert!(!(-128.0..128.0).contains(&v), "{bits:#x}"),
        }
    }
}

/// Of two random values the greater never has the lesser number.
#[test]
fn random_pairs_never_fall() {
    for pair in cases().chunks(2) {
        if let (Some(a), Some(b)) = (number(pair[0]), number(pair[1])) {
            let order = steps(pair[0]).cmp(&steps(pair[1]));
            assert!(a.cmp(&b) == order || a == b, "{pair:?}");
        }
    }
}

/// A random colour gives the three numbers that its values give as greys, or is
/// refused where one of them is.
#[test]
fn random_colours_by_their_greys() {
    for bits in cases().chunks_exact(3) {
        let greys: Option<Vec<i32>> = bits.iter().map(|&bits| number(bits)).collect();
        let values = [bits[0], bits[1], bits[2]].map(f32::from_bits);
        let (answer, places) = colour(values);
        match greys {
            Some(greys) => assert_eq!((answer, places.to_vec()), (MADE, greys)),
            None => assert_eq!((answer, places), (refused(12), LENT)),
        }
    }
}

/// The random cases hold what they are made for: refused and done, numbers below
/// 0, at 0 and above 0, and numbers far from 0 on both sides.
#[test]
fn cases_of_every_kind() {
    let mut seen = [0; 6];
    for number in cases().into_iter().map(number) {
        let kinds = [
            number.is_none(),
            number.is_some_and(|g| g < -20_000),
            number.is_some_and(|g| g < -1),
            number == Some(0),
            number.is_some_and(|g| g > 0),
            number.is_some_and(|g| g > 20_000),
        ];
        for (count, kind) in seen.iter_mut().zip(kinds) {
            *count += u32::from(kind);
        }
    }
    assert!(seen.iter().all(|&count| count >= 1_000), "{seen:?}");
}

/// Points made are points: those of the ends are accepted by the one-point test
/// and, several together, by arrange.
#[test]
fn points_made_are_accepted() {
    let last = f32::from_bits(LAST_BELOW_128);
    let readings = [[-128.0; 3], [last; 3], [-128.0, 0.1, last]];
    let points = readings.map(|values| colour(values).1).concat();
    for point in points.chunks(3) {
        assert_eq!(place(3, 0, point, &[], &[], &[]).code, 0);
    }
    let mut order = [77; 3];
    assert_eq!(arrange(3, 3, &points, &[1; 3], &mut order).code, 0);
    assert_eq!(order, [0, 2, 1]);
}
