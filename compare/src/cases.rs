//! How many cases there are, from which seed, and which one failed.

use crate::chance::Chance;
use std::env;
use std::thread;

/// The seed of all numbers that look random.
pub const SEED: u64 = 20_061_117;

/// Makes so many cases, or as many times more as `COMPARE_CASES` says. Each gets numbers of its own and says
/// which it is, from 0 on.
pub fn make(name: &'static str, count: usize, mut case: impl FnMut(&mut Chance, usize)) {
    let times = match env::var("COMPARE_CASES") {
        Ok(word) => word.parse().expect("COMPARE_CASES is a number"),
        Err(_) => 1,
    };
    println!("{name}: {} cases from seed {SEED}", count * times);
    for number in 0..count * times {
        let named = Named { name, number };
        let mut own = Chance::new(SEED ^ ((number as u64) << 32) ^ letters(name));
        case(&mut own, number);
        drop(named);
    }
}

/// A number for a name, so that tests with the same seed do not make the same cases.
fn letters(name: &str) -> u64 {
    let add = |sum: u64, letter: u8| sum.wrapping_mul(131).wrapping_add(letter.into());
    name.bytes().fold(0, add)
}

/// A case that says its name where it fails.
struct Named {
    name: &'static str,
    number: usize,
}

impl Drop for Named {
    fn drop(&mut self) {
        if thread::panicking() {
            eprintln!(
                "{}: case {} from seed {SEED} failed",
                self.name, self.number
            );
        }
    }
}
