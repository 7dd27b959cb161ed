//! The numbers of the visit bound, for a shelf of `v` live points.

/// H: the number of binary digits of `v`, 0 for 0.
pub fn binary_digits(v: usize) -> usize {
    let mut rest = v;
    let mut digits = 0;
    while rest > 0 {
        rest /= 2;
        digits += 1;
    }
    digits
}

/// S(v, k): the sum over j = 0 to H-1 of 2 to the power (j minus j/k rounded
/// down). It has no meaning for k = 0; 0 is given then.
pub fn s(v: usize, k: usize) -> u64 {
    if k == 0 {
        return 0;
    }
    (0..binary_digits(v)).map(|j| 1u64 << (j - j / k)).sum()
}

/// Whether a face with this normal is square: at most one component is not 0.
pub fn is_square(normal: &[i32]) -> bool {
    normal.iter().filter(|&&component| component != 0).count() <= 1
}
