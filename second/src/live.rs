//! Live bytes: which numbers are live, how many, and which is free to be taken.

/// The live byte of a dead number.
pub const DEAD: u8 = 0;

/// The live byte of a live number.
pub const LIVE: u8 = 1;

/// Whether the number belongs: it is below n, so that it has a live byte, and
/// that byte says live.
pub fn belongs(live: &[u8], number: u32) -> bool {
    live.get(number as usize) == Some(&LIVE)
}

/// The live numbers, the lowest first.
pub fn live_numbers(live: &[u8]) -> Vec<u32> {
    let all = 0..live.len() as u32;
    all.filter(|&number| belongs(live, number)).collect()
}

/// v: how many numbers are live.
pub fn total_live(live: &[u8]) -> usize {
    live_numbers(live).len()
}

/// The lowest dead number. There is none where all n are live.
pub fn lowest_dead(live: &[u8]) -> Option<u32> {
    let mut all = 0..live.len() as u32;
    all.find(|&number| !belongs(live, number))
}
