//! Openings, good and refused.

use super::list;
use super::random::Random;

/// The stations and generators of a day.
#[derive(Clone)]
pub struct Plan {
    pub kinds: Vec<u64>,
    pub counts: Vec<u64>,
    pub installed: Vec<u64>,
}

impl Plan {
    /// 1 to 4 stations with at most 32 generators in all; most days are small.
    pub fn random(random: &mut Random) -> Self {
        let stations = random.pick(&[1, 1, 1, 1, 2, 2, 2, 3, 3, 4]);
        let most = match random.below(30) {
            0 => 32,
            1..=3 => 8,
            _ => 3,
        };
        let mut counts: Vec<u64> = (0..stations).map(|_| random.within(1, most)).collect();
        while counts.iter().sum::<u64>() > 32 {
            for count in &mut counts {
                *count = (*count).div_ceil(2);
            }
        }
        if random.percent(3) {
            counts[0] += 32 - counts.iter().sum::<u64>();
        }
        Plan::of(random, counts)
    }

    fn of(random: &mut Random, counts: Vec<u64>) -> Self {
        let kinds = counts.iter().map(|_| random.within(0, 1)).collect();
        let generators = counts.iter().sum::<u64>();
        let installed = (0..generators).map(|_| installed(random)).collect();
        Plan { kinds, counts, installed }
    }

    pub fn line(&self) -> Vec<u8> {
        let lists = [&self.kinds, &self.counts, &self.installed].map(|numbers| list(numbers));
        format!("(open {})", lists.join(" ")).into_bytes()
    }

    pub fn first_generator(&self, station: usize) -> u64 {
        self.counts[..station].iter().sum()
    }

    pub fn station_installed(&self, station: usize) -> &[u64] {
        let first = self.first_generator(station) as usize;
        &self.installed[first..first + self.counts[station] as usize]
    }
}

fn installed(random: &mut Random) -> u64 {
    match random.below(6) {
        0 => random.pick(&[1000, 200_000]),
        1 | 2 => random.within(1000, 200_000),
        _ => 100 * random.within(10, 60),
    }
}

/// An opening that is refused, for each cause in turn; now and then two causes hold at once.
pub fn refused(random: &mut Random) -> Vec<u8> {
    let mut plan = Plan::random(random);
    for _ in 0..random.pick(&[1, 1, 1, 2]) {
        spoil(random, &mut plan);
    }
    match random.below(12) {
        0 => bad_arguments(random, &plan),
        1 => replaced(random, &plan, b"open"),
        _ => plan.line(),
    }
}

fn spoil(random: &mut Random, plan: &mut Plan) {
    let kind = random.below(plan.kinds.len());
    let count = random.below(plan.counts.len());
    let generator = random.below(plan.installed.len());
    match random.below(11) {
        0 => plan.kinds.push(random.within(0, 1)),
        1 => plan.counts.push(random.within(1, 3)),
        2 => *plan = many(random, 17, 20),
        3 => plan.kinds[kind] = random.pick(&[2, 3, 255, 256, 9_999_999_999_999]),
        4 => plan.counts[count] = random.pick(&[0, 33, 256, 65_536, 9_999_999_999_999]),
        5 => plan.installed.push(1000),
        6 if plan.installed.len() > 1 => drop(plan.installed.pop()),
        7 => plan.installed[generator] = random.pick(&[0, 999, 999, 200_001, 200_001, 4_294_968_296]),
        8 => *plan = many(random, 5, 5),
        9 => *plan = many(random, 6, 16),
        _ => *plan = crowded(random),
    }
}

fn many(random: &mut Random, low: u64, high: u64) -> Plan {
    let stations = random.within(low, high);
    let counts = (0..stations).map(|_| random.within(1, 4)).collect();
    Plan::of(random, counts)
}

/// Few stations, but more generators than the pages have room for.
fn crowded(random: &mut Random) -> Plan {
    let counts = match random.below(4) {
        0 => vec![32, 1],
        1 => vec![32, 32, 32],
        2 => vec![1, 1, 1, 30],
        _ => vec![random.within(17, 32), random.within(16, 32)],
    };
    Plan::of(random, counts)
}

fn bad_arguments(random: &mut Random, plan: &Plan) -> Vec<u8> {
    let [kinds, counts, installed] =
        [&plan.kinds, &plan.counts, &plan.installed].map(|numbers| list(numbers));
    let line = match random.below(6) {
        0 => "(open)".to_string(),
        1 => format!("(open {kinds})"),
        2 => format!("(open {kinds} {counts})"),
        3 => format!("(open 1 {counts} {installed})"),
        4 => format!("(open {kinds} {counts} {installed} {installed})"),
        _ => format!("(open {kinds} {counts} {installed} 0)"),
    };
    line.into_bytes()
}

/// The line with a head that is not the one given.
fn replaced(random: &mut Random, plan: &Plan, head: &[u8]) -> Vec<u8> {
    let other = random.pick(&["opens", "ope", "file", "issue", "reopen", "openings", "o"]);
    [b"(", other.as_bytes(), &plan.line()[1 + head.len()..]].concat()
}
