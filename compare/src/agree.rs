//! What the list of an accepted call must agree with: itself, the live bytes, and the one-point test.

use crate::calls;
use crate::chance::Chance;
use crate::lent::Lent;

/// Asks that the list has each live number once, and that the one-point test answers for some of them as it does.
pub fn hold(chance: &mut Chance, call: &Lent, inside: u32, list: &[u32]) {
    let v = call.v();
    let list = &list[..v];
    let mut numbers = list.to_vec();
    numbers.sort_unstable();
    assert_eq!(numbers, call.live_numbers(), "{call:?}");
    for _ in 0..3.min(v) {
        let place = chance.below(v);
        let one = call.with_point(list[place]);
        let expected = u8::from(place < inside as usize);
        assert_eq!(calls::place(&one).inside, expected, "{one:?}");
    }
}
