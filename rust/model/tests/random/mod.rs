//! Random numbers for lists of calls, the same in every run.

/// The next of a row of random numbers (a linear congruence), below `end`.
pub fn draw(random: &mut u64, end: usize) -> usize {
    *random = random
        .wrapping_mul(6_364_136_223_846_793_005)
        .wrapping_add(1_442_695_040_888_963_407);
    (*random >> 33) as usize % end
}
