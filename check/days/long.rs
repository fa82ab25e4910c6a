//! Lines about as long as a line may be, and far longer.

use super::opening::Plan;
use super::random::Random;
use super::{life, revision};

pub fn day(random: &mut Random) -> Vec<Vec<u8>> {
    let plan = Plan::random(random);
    let mut lines = vec![plan.line()];
    for call in life::shortest(&plan, 0) {
        lines.push(call);
        if random.percent(50) {
            lines.push(line(random));
        }
    }
    lines
}

pub fn line(random: &mut Random) -> Vec<u8> {
    let length = match random.below(10) {
        0 | 1 => 1023,
        2 | 3 => 1024,
        4 | 5 => 1025,
        6 => 1026,
        7 => random.within(1000, 3000) as usize,
        8 => random.pick(&[4096, 8192, 65_535, 65_536, 65_537]),
        _ => random.within(3000, 200_000) as usize,
    };
    match random.below(6) {
        0 => begun(b"(file 0", b" 0", length),
        1 => closed(b"(file 0 0 95", b" 12", length),
        2 => begun(b"", b" ", length),
        3 => begun(b"", b"a", length),
        4 => begun(b"(pay 0 1)", b" ", length),
        _ => full_revision(random, length.min(1300)),
    }
}

/// `start` and then `piece` again and again, cut at `length` bytes.
fn begun(start: &[u8], piece: &[u8], length: usize) -> Vec<u8> {
    start.iter().chain(piece.iter().cycle()).copied().take(length).collect()
}

/// The same, with the parenthesis that ends a form as its last byte.
fn closed(start: &[u8], piece: &[u8], length: usize) -> Vec<u8> {
    let mut line = begun(start, piece, length - 1);
    if line.last() == Some(&b' ') {
        line.pop();
        line.push(b'2');
    }
    line.push(b')');
    line
}

/// A revision of all blocks that a notice in block 0 allows, with zeros put to its numbers' front
/// digit until the line has the wanted length, as far as 13 digits reach.
fn full_revision(random: &mut Random, length: usize) -> Vec<u8> {
    let mut digits = vec![random.within(4, 7) as u32; 93];
    let mut missing = length.saturating_sub(revision(0, 1, 0, &powers(&digits)).len());
    for count in &mut digits {
        let more = missing.min(13 - *count as usize);
        *count += more as u32;
        missing -= more;
    }
    revision(0, 1, 0, &powers(&digits))
}

/// The smallest number of so many digits, for each.
fn powers(digits: &[u32]) -> Vec<u64> {
    digits.iter().map(|&count| 10_u64.pow(count - 1)).collect()
}
