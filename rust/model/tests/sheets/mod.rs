//! Wheat sheets with wanted deviations.

/// A sample measured twice whose deviation is `deviation` at intercept 0.
pub fn twice(deviation: i32) -> [i32; 6] {
    let first = 1300 + deviation.div_euclid(2);
    [1300, first, 2600 + deviation - first, -1, -1, -1]
}

/// The same with an again pair of this deviation.
pub fn again(deviation: i32, anew: i32) -> [i32; 6] {
    let [baseline, first, second, ..] = twice(deviation);
    let [_, again_first, again_second, ..] = twice(anew);
    [baseline, first, second, -1, again_first, again_second]
}

/// A wheat sheet whose S is `s` (N 12) at intercept `intercept`, spread evenly.
pub fn wheat_sheet(s: i32, intercept: i32) -> Vec<i32> {
    let each = s.div_euclid(6);
    let more = s.rem_euclid(6) as usize;
    (0..6)
        .flat_map(|place| twice(each + i32::from(place < more) - 2 * intercept))
        .collect()
}
