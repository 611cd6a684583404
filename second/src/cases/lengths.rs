//! Texts of a wished length: exactly the limit, just above it, and far above it.

use super::broken::Lines;
use super::steps::noise;
use crate::random::Random;
use crate::text::{join, LONGEST};

/// Steps until the text has exactly so many bytes; every line of a step has 12 to 16.
fn fill_to(random: &mut Random, mut lines: Lines, length: usize) -> Vec<u8> {
    let step = |digits: usize| format!("step,{},0,0", 10_u32.pow(digits as u32 - 1));
    let mut left = length - join(&lines).len();
    while left > 64 {
        let line = format!("step,{},0,0", noise(random)).into_bytes();
        left -= line.len() + 2;
        lines.push(line);
    }
    // From 49 to 64 bytes are left: four lines of 12 to 16 bytes.
    for lines_left in (1..=4).rev() {
        let size = left / lines_left;
        left -= size;
        lines.push(step(size - 11).into_bytes());
    }
    join(&lines)
}

pub fn limit_exact(random: &mut Random, lines: Lines) -> Vec<u8> {
    let mut bytes = fill_to(random, lines, LONGEST);
    if random.chance(1, 4) {
        // As long as allowed, and broken at its end.
        bytes.truncate(LONGEST - 2);
        bytes.extend_from_slice(random.pick(&[b"\n\r", b"  ", b"00"]));
    }
    bytes
}

pub fn limit_passed(random: &mut Random, lines: Lines) -> Vec<u8> {
    let above = random.pick(&[1, 1, 1, 2, 5]);
    fill_to(random, lines, LONGEST + above)
}

pub fn far_too_long(random: &mut Random, lines: Lines) -> Vec<u8> {
    let length = random.pick(&[LONGEST + 4_096, 100_000, 2 * LONGEST, 400_000]);
    fill_to(random, lines, length)
}
