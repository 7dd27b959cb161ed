//! Points of the renderer's floats.

use hornherder::{raw, Reading, Refusal, Shelf, MAX_COORDINATE, MIN_COORDINATE};

/// The float nearest zero, and the greatest below 128.
const LEAST: f32 = f32::from_bits(1);
const BELOW_128: f32 = f32::from_bits(0x42FF_FFFF);

/// What stands in the places before a call.
const BEFORE: [i32; 5] = [70, 71, 72, 73, 74];

/// The point of a colour.
fn colour(values: [f32; 3]) -> Result<Option<[i32; 3]>, Refusal> {
    Reading::Colour(values[0], values[1], values[2]).point()
}

/// Values that make no point: each first one beyond the range, no numbers, infinities, and far ones.
fn bad_values() -> Vec<f32> {
    let beyond = [128.0, f32::from_bits(0xC300_0001)];
    let no_numbers = [0x7F80_0001, 0x7FC0_0000, 0xFF80_0001, 0xFFFF_FFFF].map(f32::from_bits);
    let infinities = [f32::INFINITY, f32::NEG_INFINITY];
    let far = [129.0, -1e9, f32::MAX, f32::MIN];
    [&beyond[..], &no_numbers, &infinities, &far].concat()
}

/// The code of each call in the first places of some, none of which it may change.
fn codes(values: [f32; 3], length: usize) -> [u32; 3] {
    let mut places = BEFORE;
    let [first, second, third] = values;
    let place = &mut places[..length];
    let answers = [
        raw::point_from_colour(first, second, third, place),
        raw::point_from_grey(third, place),
        raw::point_from_nothing(place),
    ];
    assert_eq!(answers.map(|answer| answer.made), [0; 3]);
    assert_eq!(places, BEFORE);
    answers.map(|answer| answer.code)
}

/// Around zero and at both ends of the range.
#[test]
fn by_hand() {
    assert_eq!(colour([0.0, -0.0, LEAST]), Ok(Some([0, 0, 0])));
    assert_eq!(colour([-LEAST, 1.0, -1.0]), Ok(Some([-1, 256, -256])));
    assert_eq!(colour([0.1, -0.1, 3.3]), Ok(Some([25, -26, 844])));
    let ends = Ok(Some([MIN_COORDINATE, MAX_COORDINATE, MAX_COORDINATE]));
    assert_eq!(colour([-128.0, BELOW_128, 32_767.0 / 256.0]), ends);
}

/// A grey gives its number, then 0, 0.
#[test]
fn greys() {
    let rows = [
        (1.5, 384),
        (-0.0, 0),
        (-LEAST, -1),
        (-128.0, -32_768),
        (BELOW_128, 32_767),
    ];
    for (value, number) in rows {
        assert_eq!(Reading::Grey(value).point(), Ok(Some([number, 0, 0])));
    }
}

/// Nothing measured is no point and no refusal, and the places are left alone.
#[test]
fn nothing_measured() {
    assert_eq!(Reading::Nothing.point(), Ok(None));
    let mut places = BEFORE;
    let answer = raw::point_from_nothing(&mut places[..3]);
    assert_eq!((answer, places), (raw::Making::default(), BEFORE));
}

/// A point is written into its three places alone.
#[test]
fn written_alone() {
    let mut places = BEFORE;
    let made = raw::Making { code: 0, made: 1 };
    let answer = raw::point_from_colour(1.0, 2.0, -3.0, &mut places[1..4]);
    assert_eq!((answer, places), (made, [70, 256, 512, -768, 74]));
    let answer = raw::point_from_grey(0.5, &mut places[1..4]);
    assert_eq!((answer, places), (made, [70, 128, 0, 0, 74]));
}

/// A bad value is refused wherever it stands, and leaves all places, the last one too.
#[test]
fn bad_value() {
    for bad in bad_values() {
        assert_eq!(Reading::Grey(bad).point(), Err(Refusal::ValueRange));
        for values in [[bad, 1.0, 1.0], [1.0, bad, 1.0], [1.0, 1.0, bad]] {
            assert_eq!(colour(values), Err(Refusal::ValueRange), "{values:?}");
        }
        assert_eq!(codes([1.0, 2.0, bad], 3), [12, 12, 0]);
    }
}

/// Places that are not three are refused for every reading, also for one with a bad value.
#[test]
fn not_three_places() {
    for length in [0, 1, 2, 4, 5] {
        for value in bad_values().into_iter().chain([0.0, -128.0]) {
            assert_eq!(codes([1.0, 2.0, value], length), [3; 3]);
        }
    }
}

/// The numbers on both sides of each multiple of 1/256, which never fall.
#[test]
fn every_256th() {
    for number in MIN_COORDINATE + 1..=MAX_COORDINATE {
        let value = number as f32 / 256.0;
        let (below, above) = (f32::next_down(value), f32::next_up(value));
        let point = Ok(Some([number - 1, number, number]));
        assert_eq!(colour([below, value, above]), point);
    }
}

/// Points made are taken by a shelf, at the ends of the range too.
#[test]
fn on_a_shelf() {
    let values = [-128.0, -LEAST, -0.0, 0.3, BELOW_128];
    let readings = values.map(|value| Reading::Colour(value, -1.0, value));
    let made = readings.map(|reading| reading.point().unwrap().unwrap_or_default());
    let shelf = Shelf::new(3, made.concat()).unwrap();
    assert_eq!(shelf.len(), 5);
    assert_eq!(shelf.point(4), Some(&[32_767, -256, 32_767][..]));
}
