//! Points made of readings: every multiple of 1/256, floats that make a difference, random ones, and shelves of the points made.

use compare::agree;
use compare::calls;
use compare::cases;
use compare::chance::Chance;
use compare::lent::Lent;
use compare::readings::{colour, reading, right_value, special, value, Asked, Made, PLACES};
use compare::seen::{Case, Seen};
use compare::shelves;
use second::reading::{values, Reading};

/// Every case.
const CASES: [Case<Made>; 19] = [
    ("a colour, made", |made| is_colour(made) && code_is(made, 0)),
    ("a colour, 3", |made| is_colour(made) && code_is(made, 3)),
    ("a colour, 12", |made| is_colour(made) && code_is(made, 12)),
    ("a colour, 12 for its last value alone", |made| {
        is_colour(made) && code_is(made, 12) && bad(made) == [false, false, true]
    }),
    ("a colour, 12 for its first value alone", |made| {
        is_colour(made) && code_is(made, 12) && bad(made) == [true, false, false]
    }),
    ("a colour, both faults", |made| {
        is_colour(made) && both_faults(made)
    }),
    ("a grey, made", |made| is_grey(made) && code_is(made, 0)),
    ("a grey, 3", |made| is_grey(made) && code_is(made, 3)),
    ("a grey, 12", |made| is_grey(made) && code_is(made, 12)),
    ("a grey, both faults", |made| {
        is_grey(made) && both_faults(made)
    }),
    ("nothing, no point", |made| {
        is_nothing(made) && code_is(made, 0)
    }),
    ("nothing, 3", |made| is_nothing(made) && code_is(made, 3)),
    ("a number below -1", |made| any_number(made, |x| x < -1)),
    ("-1", |made| any_number(made, |x| x == -1)),
    ("0", |made| any_number(made, |x| x == 0)),
    ("a number above 0", |made| any_number(made, |x| x > 0)),
    ("the least number", |made| {
        any_number(made, |x| x == -32_768)
    }),
    ("the greatest number", |made| {
        any_number(made, |x| x == 32_767)
    }),
    ("a number rounded down from below zero", |made| {
        let all = values(made.asked.reading);
        let pairs = all.iter().zip(&made.after);
        let rounded = |(v, x): (&f32, &i32)| *v < 0.0 && 256.0 * *v != *x as f32;
        made.answer.made == 1 && pairs.into_iter().any(rounded)
    }),
];

/// Whether the reading is a colour.
fn is_colour(made: &Made) -> bool {
    matches!(made.asked.reading, Reading::Colour(_))
}

/// Whether the reading is a grey.
fn is_grey(made: &Made) -> bool {
    matches!(made.asked.reading, Reading::Grey(_))
}

/// Whether nothing was measured.
fn is_nothing(made: &Made) -> bool {
    matches!(made.asked.reading, Reading::Nothing)
}

/// Whether the answer has this code.
fn code_is(made: &Made, code: u32) -> bool {
    made.answer.code == code
}

/// For each value whether it is out of range.
fn bad(made: &Made) -> Vec<bool> {
    let all = values(made.asked.reading).into_iter();
    all.map(|v| !(-128.0..128.0).contains(&v)).collect()
}

/// Whether the places are not three, and a value is out of range.
fn both_faults(made: &Made) -> bool {
    made.asked.length != 3 && bad(made).contains(&true)
}

/// Whether a number made of a value is so.
fn any_number(made: &Made, so: fn(i32) -> bool) -> bool {
    let count = values(made.asked.reading).len();
    made.answer.made == 1 && made.after[..count].iter().any(|number| so(*number))
}

/// Compares the call for a reading with three places lent.
fn made(reading: Reading) -> Made {
    Asked::new(reading).made()
}

/// Compares random readings, places and lengths, and asks that every case comes up.
#[test]
fn random_readings() {
    let mut seen = Seen::of(&CASES);
    cases::make("readings", 60_000, |chance, case| {
        let asked = Asked {
            reading: match case % 2 {
                0 => reading(chance, value),
                _ => reading(chance, mostly_right),
            },
            before: [0; PLACES].map(|_| chance.number() as i32),
            length: chance.one_of(&[3, 3, 3, 3, 0, 1, 2, 4, 5]),
        };
        seen.look(&CASES, &asked.made());
    });
    seen.enough("readings");
}

/// A float of the range, and once in six times any.
fn mostly_right(chance: &mut Chance) -> f32 {
    match chance.below(6) {
        0 => value(chance),
        _ => right_value(chance),
    }
}

/// Random bits, each as a grey.
#[test]
fn random_bits() {
    cases::make("random bits", 60_000, |chance, _| {
        made(Reading::Grey(f32::from_bits(chance.number() as u32)));
    });
}

/// Every multiple of 1/256 of the range with its two neighbours gives its count, that count again above it, and one less below it.
#[test]
fn every_256th() {
    for count in -32_768..=32_767 {
        let at = count as f32 / 256.0;
        let three = [at.next_down(), at, at.next_up()];
        let greys = three.map(|value| made(Reading::Grey(value)));
        let numbers = greys.map(|grey| (grey.answer.code, grey.after[0]));
        let below = match count {
            -32_768 => (12, 70),
            _ => (0, count - 1),
        };
        assert_eq!(numbers, [below, (0, count), (0, count)]);
        made(colour(three));
    }
}

/// Every float that makes a difference as a grey, and every three of them as a colour.
#[test]
fn special_floats() {
    let all = special();
    for &first in &all {
        made(Reading::Grey(first));
        for &second in &all {
            for &third in &all {
                made(colour([first, second, third]));
            }
        }
    }
}

/// Places of 0 to 5 for every reading: 3 comes before 12, and is the answer for nothing measured too.
#[test]
fn lengths() {
    let all = special();
    for length in 0..=5 {
        let asked = |reading| Asked {
            length,
            ..Asked::new(reading)
        };
        for &v in &all {
            let readings = [
                Reading::Grey(v),
                colour([v, 1.0, 1.0]),
                colour([1.0, 1.0, v]),
            ];
            for reading in readings {
                let code = asked(reading).made().answer.code;
                assert_eq!(code == 3, length != 3);
            }
        }
        let code = asked(Reading::Nothing).made().answer.code;
        assert_eq!(code, if length == 3 { 0 } else { 3 });
    }
}

/// The points of so many readings of the range, those of nothing left out.
fn points(chance: &mut Chance, count: usize) -> Vec<i32> {
    let mut points = Vec::new();
    for _ in 0..count {
        let made = made(reading(chance, right_value));
        assert_eq!(made.answer.code, 0);
        if made.answer.made == 1 {
            points.extend(&made.after[..3]);
        }
    }
    points
}

/// Points made are never refused: arrange takes them, and list, screen and the one-point test agree on the shelf.
#[test]
fn shelves_of_points_made() {
    cases::make("shelves of points made", 300, |chance, _| {
        let most = chance.one_of(&[3, 30, 300]);
        let count = chance.below(most + 1);
        let points = points(chance, count);
        let shelf = calls::shelf(&Lent::new(chance, 3, points));
        let call = shelves::marked_region(chance, &shelf);
        let (listing, list) = calls::list(&call);
        assert_eq!((listing.code, calls::screen(&call).code), (0, 0));
        agree::hold(chance, &call, listing.inside, &list);
    });
}
