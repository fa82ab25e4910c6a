//! The way of a station from its first schedule to its last draw.

use super::opening::Plan;
use super::random::Random;
use super::{call, revision, stray};

/// A whole day: the ways of all stations, mixed, with stray calls among them.
pub fn day(random: &mut Random, strays: u64) -> Vec<Vec<u8>> {
    let plan = Plan::random(random);
    let mut ways: Vec<Vec<Vec<u8>>> =
        (0..plan.kinds.len()).map(|station| way(random, &plan, station)).collect();
    let mut lines = vec![plan.line()];
    for way in &mut ways {
        way.reverse();
    }
    while !ways.is_empty() {
        let station = random.below(ways.len());
        match ways[station].pop() {
            Some(line) => lines.push(line),
            None => drop(ways.remove(station)),
        }
        if random.percent(strays) {
            lines.push(stray::line(random, &plan));
        }
    }
    if random.percent(12) {
        lines.truncate(random.within(1, lines.len() as u64) as usize);
    }
    lines
}

/// The fewest calls that settle a station.
pub fn shortest(plan: &Plan, station: usize) -> Vec<Vec<u8>> {
    let number = station as u64;
    let first = plan.first_generator(station);
    let mut lines =
        vec![call("file", &[number, 0, 95, 1000]), call("issue", &[number]), call("close", &[number])];
    lines.extend((0..plan.counts[station]).map(|member| call("read", &[first + member, 0, 95, 700])));
    lines.push(call("settle", &[number]));
    lines
}

/// Blocks that have the same figures.
struct Stretch {
    from: u64,
    to: u64,
    schedule: u64,
    capacities: Vec<u64>,
    readings: Vec<u64>,
}

struct Way<'a> {
    plan: &'a Plan,
    station: usize,
    stretches: Vec<Stretch>,
    lines: Vec<Vec<u8>>,
}

fn way(random: &mut Random, plan: &Plan, station: usize) -> Vec<Vec<u8>> {
    let installed = plan.station_installed(station);
    let stretches = cuts(random).into_iter().map(|blocks| stretch(random, installed, blocks)).collect();
    let mut way = Way { plan, station, stretches, lines: Vec::new() };
    way.early_money(random);
    way.file(random);
    way.declare(random);
    way.issue(random);
    way.revise(random);
    way.call("close", &[]);
    way.read(random);
    way.settle(random);
    way.correct(random);
    way.late_money(random);
    way.lines
}

/// The day cut into stretches, most often few.
fn cuts(random: &mut Random) -> Vec<(u64, u64)> {
    let count = match random.below(100) {
        0 => 95,
        1..=5 => random.within(5, 20),
        6..=40 => random.within(1, 3),
        _ => 0,
    };
    let mut starts: Vec<u64> = (0..count).map(|_| random.within(1, 95)).collect();
    starts.push(0);
    starts.sort_unstable();
    starts.dedup();
    let ends = starts.iter().skip(1).map(|start| start - 1).chain([95]);
    starts.iter().copied().zip(ends).collect()
}

fn stretch(random: &mut Random, installed: &[u64], (from, to): (u64, u64)) -> Stretch {
    let capacity_kind = random.below(6);
    let capacities: Vec<u64> = installed
        .iter()
        .map(|&most| match capacity_kind {
            0 => 0,
            1 | 2 => random.within(0, most),
            3 => most / 2,
            _ => most,
        })
        .collect();
    let reading_kind = random.below(8);
    let readings: Vec<u64> = capacities
        .iter()
        .zip(installed)
        .map(|(&capacity, &most)| match reading_kind {
            0 | 1 => 0,
            2 => random.pick(&[0, 0, 1, most]),
            3 => random.within(0, 200_000),
            4 => most,
            _ => random.within(0, capacity),
        })
        .collect();
    let actual = readings.iter().sum::<u64>();
    let deviation = deviation(random, capacities.iter().sum());
    let schedule = if random.percent(50) { actual.saturating_sub(deviation) } else { actual + deviation };
    Stretch { from, to, schedule, capacities, readings }
}

/// A magnitude at an edge of the bands, beside it, or anywhere.
fn deviation(random: &mut Random, capacity: u64) -> u64 {
    let edge = random.pick(&[10, 20, 30]) * capacity / 100;
    match random.below(9) {
        0 | 1 => 0,
        2 => 1,
        3 => edge,
        4 => edge + 1,
        5 => edge.saturating_sub(1),
        6 => random.within(0, 300_000),
        _ => random.within(0, capacity / 2 + 10),
    }
}

impl Way<'_> {
    fn call(&mut self, head: &str, numbers: &[u64]) {
        let numbers = [&[self.station as u64], numbers].concat();
        self.lines.push(call(head, &numbers));
    }

    fn file(&mut self, random: &mut Random) {
        let mut order: Vec<usize> = (0..self.stretches.len()).collect();
        random.shuffle(&mut order);
        if random.percent(30) {
            self.call("file", &[0, 95, random.within(0, 6_400_000)]);
        }
        if random.percent(20) {
            let missing = order.split_off(random.below(order.len()));
            self.file_stretches(&order);
            if random.percent(80) {
                self.call("issue", &[]);
                self.file_stretches(&missing);
            }
        } else {
            self.file_stretches(&order);
        }
    }

    fn file_stretches(&mut self, order: &[usize]) {
        for &stretch in order {
            let Stretch { from, to, schedule, .. } = self.stretches[stretch];
            self.call("file", &[from, to, schedule]);
        }
    }

    fn declare(&mut self, random: &mut Random) {
        let first = self.plan.first_generator(self.station);
        for stretch in &self.stretches {
            for (generator, (&kw, &installed)) in
                (first..).zip(stretch.capacities.iter().zip(self.plan.station_installed(self.station)))
            {
                if random.percent(4) {
                    let above = installed + random.within(1, 1000);
                    self.lines.push(call("declare", &[generator, stretch.from, stretch.to, above]));
                }
                if kw != installed {
                    self.lines.push(call("declare", &[generator, stretch.from, stretch.to, kw]));
                }
            }
        }
    }

    fn issue(&mut self, random: &mut Random) {
        if random.percent(97) {
            self.call("issue", &[]);
        }
        // Declaring goes on after the issue.
        if random.percent(20) {
            self.declare(random);
        }
    }

    fn revise(&mut self, random: &mut Random) {
        let count = random.pick(&[0, 0, 0, 1, 1, 2, 3]);
        let solar = self.plan.kinds[self.station] == 1;
        let (low, high) = if solar { (22, 75) } else { (0, 92) };
        let mut number = 1;
        let mut notice = low + random.within(0, high - low);
        if random.percent(4) {
            return self.revise_in_each_slot(random, low, high);
        }
        for _ in 0..count {
            if notice > high {
                break;
            }
            let mut values: Vec<u64> = (notice + 3..96).map(|block| self.scheduled(block)).collect();
            let changed = random.below(values.len());
            values[changed] = random.pick(&[0, 1, 1000, 6_400_000, 6_400_001]).max(random.within(0, 3000));
            match random.below(12) {
                0 => values.push(0),
                1 if values.len() > 1 => drop(values.pop()),
                _ => {}
            }
            let told = if random.percent(90) { notice } else { random.pick(&[21, 22, 75, 76, 92, 93]) };
            self.lines.push(revision(self.station as u64, number, told, &values));
            number += random.pick(&[1, 1, 1, 1, 0, 2]);
            notice += random.pick(&[0, 1, 5, 6, 7, 12]);
        }
    }

    /// As many revisions as a day allows, and one more.
    fn revise_in_each_slot(&mut self, random: &mut Random, low: u64, high: u64) {
        let slots = (high - low) / 6 + 1;
        let from = random.within(0, slots - 1) * random.within(0, 1);
        for (number, slot) in (1..).zip(from..slots) {
            let notice = (low + 6 * slot + random.within(0, 5)).min(high);
            let values: Vec<u64> = (notice + 3..96).map(|block| self.scheduled(block) + number).collect();
            self.lines.push(revision(self.station as u64, number, notice, &values));
        }
        self.lines.push(revision(self.station as u64, slots - from + 1, high, &vec![1; 93 - high as usize]));
    }

    fn scheduled(&self, block: u64) -> u64 {
        self.stretches.iter().find(|stretch| block <= stretch.to).map_or(0, |stretch| stretch.schedule)
    }

    fn read(&mut self, random: &mut Random) {
        let first = self.plan.first_generator(self.station);
        let mut lines = Vec::new();
        for stretch in &self.stretches {
            for (generator, &kw) in (first..).zip(&stretch.readings) {
                lines.push(call("read", &[generator, stretch.from, stretch.to, kw]));
            }
        }
        random.shuffle(&mut lines);
        if random.percent(30) {
            let missing = lines.split_off(random.below(lines.len()));
            self.lines.append(&mut lines);
            self.call("settle", &[]);
            if random.percent(90) {
                self.lines.extend(missing);
            }
        } else {
            self.lines.append(&mut lines);
        }
    }

    fn settle(&mut self, random: &mut Random) {
        if random.percent(10) {
            self.correction(random);
        }
        if random.percent(96) {
            self.call("settle", &[]);
        }
        if random.percent(5) {
            self.call("settle", &[]);
        }
    }

    fn correct(&mut self, random: &mut Random) {
        for _ in 0..random.pick(&[0, 0, 1, 2, 4]) {
            self.correction(random);
        }
    }

    /// One reading replaced, now and then twice.
    fn correction(&mut self, random: &mut Random) {
        let generator =
            self.plan.first_generator(self.station) + random.next() % self.plan.counts[self.station];
        let block = random.within(0, 95);
        for _ in 0..random.pick(&[1, 1, 2]) {
            let kw = random.pick(&[0, 1, 1000, 200_000, 200_001]).max(random.within(0, 1500));
            self.lines.push(call("correct", &[generator, block, kw]));
        }
    }

    fn early_money(&mut self, random: &mut Random) {
        if random.percent(20) {
            let amount = random.within(1, 100_000);
            self.call("pay", &[amount]);
            self.call("draw", &[random.pick(&[amount, amount + 1, amount / 2 + 1])]);
        }
    }

    fn late_money(&mut self, random: &mut Random) {
        for _ in 0..random.pick(&[0, 1, 1, 2]) {
            self.call("pay", &[random.pick(&[1, 4000, 1_000_000, 50_000_000])]);
            if random.percent(50) {
                self.call("draw", &[random.within(1, 1_000_000)]);
            }
        }
        // Draws that are halved again and again come to all that may be drawn, whatever that is.
        if random.percent(12) {
            self.call("pay", &[10_u64.pow(random.within(3, 10) as u32)]);
            self.correct(random);
            for power in (0..34).rev() {
                self.call("draw", &[1 << power]);
            }
            self.call("draw", &[1]);
        }
    }
}
