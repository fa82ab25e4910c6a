//! Calls in no order, with numbers on both sides of each limit.

use super::damage;
use super::opening::Plan;
use super::random::Random;
use super::{call, life, revision};

const AMOUNTS: [u64; 10] = [
    0,
    1,
    2,
    99,
    10_000,
    5_000_000,
    999_999_999_999,
    1_000_000_000_000,
    1_000_000_000_001,
    9_999_999_999_999,
];
const POWERS: [u64; 9] = [0, 1, 999, 1000, 200_000, 200_001, 6_400_000, 6_400_001, 9_999_999_999_999];
const BLOCKS: [u64; 9] = [0, 1, 22, 47, 94, 95, 96, 97, 4_294_967_296];
const NOTICES: [u64; 12] = [0, 5, 6, 21, 22, 27, 28, 75, 76, 92, 93, 9_999_999_999_999];

pub fn day(random: &mut Random) -> Vec<Vec<u8>> {
    let plan = Plan::random(random);
    let mut lines = vec![plan.line()];
    // Some stations are filed and issued, so that stray calls meet every phase.
    for station in 0..plan.kinds.len() {
        for line in life::shortest(&plan, station).into_iter().take(random.below(7)) {
            lines.push(line);
        }
    }
    for _ in 0..random.within(5, 60) {
        let mut line = line(random, &plan);
        if random.percent(15) {
            damage::damage(random, &mut line);
        }
        lines.push(line);
    }
    lines
}

pub fn line(random: &mut Random, plan: &Plan) -> Vec<u8> {
    let station = number(random, plan.kinds.len());
    let generator = number(random, plan.installed.len());
    let (from, to) = blocks(random);
    let amount = if random.percent(50) { random.pick(&AMOUNTS) } else { random.within(1, 100_000) };
    match random.below(13) {
        0 => call("file", &[station, from, to, power(random)]),
        1 => call("declare", &[generator, from, to, power(random)]),
        2 => call("issue", &[station]),
        3 | 11 => revise(random, station),
        4 => call("close", &[station]),
        5 | 6 => call("read", &[generator, from, to, power(random)]),
        7 => call("settle", &[station]),
        8 => call("correct", &[generator, from, power(random)]),
        9 => call("pay", &[station, amount]),
        12 if random.percent(20) => plan.line(),
        _ => call("draw", &[station, amount]),
    }
}

/// A number of a station or generator, which there may not be.
fn number(random: &mut Random, count: usize) -> u64 {
    match random.below(12) {
        0 => count as u64,
        1 => random.pick(&[16, 32, 255, 256, 512, 4_294_967_296, 9_999_999_999_999]),
        _ => random.below(count) as u64,
    }
}

fn power(random: &mut Random) -> u64 {
    if random.percent(40) { random.pick(&POWERS) } else { random.within(0, 6000) }
}

fn blocks(random: &mut Random) -> (u64, u64) {
    match random.below(8) {
        0 => (random.pick(&BLOCKS), random.pick(&BLOCKS)),
        1 | 2 => (0, 95),
        3 => {
            let block = random.within(0, 95);
            (block, block)
        }
        4 => (random.within(0, 99), random.within(0, 99)),
        _ => {
            let from = random.within(0, 95);
            (from, random.within(from, 95))
        }
    }
}

fn revise(random: &mut Random, station: u64) -> Vec<u8> {
    let notice = if random.percent(60) { random.pick(&NOTICES) } else { random.within(0, 95) };
    let fitting = 93_u64.saturating_sub(notice).max(1);
    let count = if random.percent(15) { random.within(1, 96) } else { fitting };
    let mut values: Vec<u64> = (0..count).map(|_| random.within(0, 5000)).collect();
    if random.percent(15) {
        let position = random.below(values.len());
        values[position] = power(random);
    }
    revision(station, random.pick(&[0, 1, 1, 1, 2, 3]), notice, &values)
}
