//! Faults in what is lent, one at a time and two and three at once.

/// Puts a number in the first place, if there is one.
pub fn first<T>(places: &mut [T], number: T) {
    if let Some(place) = places.first_mut() {
        *place = number;
    }
}

/// Puts a number in the last place, if there is one.
pub fn last<T>(places: &mut [T], number: T) {
    if let Some(place) = places.last_mut() {
        *place = number;
    }
}

/// The number that a call refuses faults with these numbers with, the first in the order of its tests: 0 where it tests none of them,
/// nothing where two faults have that number and may undo each other.
pub fn first_in_order(numbers: &[u32], tests: &[u32]) -> Option<u32> {
    let times = |number: &u32| numbers.iter().filter(|held| *held == number).count();
    match tests.iter().find(|number| times(number) > 0) {
        None => Some(0),
        Some(number) => (times(number) == 1).then_some(*number),
    }
}

/// Hands over every two and every three of these faults.
pub fn two_or_three<F: Copy>(faults: &[F], mut look: impl FnMut(&[F])) {
    for (a, one) in faults.iter().enumerate() {
        for (b, two) in faults.iter().enumerate().skip(a + 1) {
            look(&[*one, *two]);
            for three in &faults[b + 1..] {
                look(&[*one, *two, *three]);
            }
        }
    }
}
