//! Random days, as the lines that the program `daybook` reads.

mod damage;
mod life;
mod long;
mod opening;
mod random;
mod stray;

use opening::Plan;
use random::Random;

/// What a day is about.
#[derive(Clone, Copy)]
enum Theme {
    /// Each station goes its way to a settled day; some calls are refused.
    Whole,
    /// The same, with lines that are damaged.
    Damaged,
    /// Calls of all kinds in no order.
    Stray,
    /// Lines about as long as a line may be, and far longer.
    Long,
    /// The opening is refused.
    Closed,
    /// Hardly any input.
    Scant,
    /// Payments up to the most that the pool may hold.
    Rich,
}

/// Themes out of 1,000 days.
const THEMES: [(Theme, u64); 7] = [
    (Theme::Rich, 2),
    (Theme::Scant, 28),
    (Theme::Long, 40),
    (Theme::Closed, 150),
    (Theme::Stray, 80),
    (Theme::Damaged, 250),
    (Theme::Whole, 450),
];

/// Day `number` of a seed.
pub fn day(seed: u64, number: u64) -> Vec<u8> {
    let mut random = Random::new(seed, number);
    let lines = match theme(&mut random) {
        Theme::Whole => life::day(&mut random, 8),
        Theme::Damaged => damaged(&mut random),
        Theme::Stray => stray::day(&mut random),
        Theme::Long => long::day(&mut random),
        Theme::Closed => closed(&mut random),
        Theme::Scant => return scant(&mut random),
        Theme::Rich => rich(&mut random),
    };
    joined(&mut random, &lines)
}

fn theme(random: &mut Random) -> Theme {
    let mut left = random.next() % 1000;
    for (theme, share) in THEMES {
        if left < share {
            return theme;
        }
        left -= share;
    }
    Theme::Whole
}

/// Lines with a line feed behind each, though not always behind the last.
fn joined(random: &mut Random, lines: &[Vec<u8>]) -> Vec<u8> {
    let mut text = lines.join(&b'\n');
    match random.below(8) {
        0 | 1 => {}
        2 => text.extend_from_slice(b"\n\n"),
        3 => text.extend_from_slice(b"\n\r"),
        _ => text.push(b'\n'),
    }
    text
}

fn damaged(random: &mut Random) -> Vec<Vec<u8>> {
    let mut lines = life::day(random, 4);
    let chance = random.within(3, 40);
    for line in lines.iter_mut().skip(1) {
        if random.percent(chance) {
            damage::damage(random, line);
        }
    }
    if random.percent(10) {
        damage::damage(random, &mut lines[0]);
    }
    lines
}

/// A refused opening and a few lines behind it, which nobody answers.
fn closed(random: &mut Random) -> Vec<Vec<u8>> {
    let plan = Plan::random(random);
    let mut opening = match random.below(10) {
        0 => long::line(random),
        1 => stray::line(random, &plan),
        _ => opening::refused(random),
    };
    if random.percent(30) {
        damage::damage(random, &mut opening);
    }
    let mut lines = vec![opening];
    for _ in 0..random.below(4) {
        lines.push(if random.percent(50) { plan.line() } else { stray::line(random, &plan) });
    }
    lines
}

fn scant(random: &mut Random) -> Vec<u8> {
    let opening = Plan::random(random).line();
    match random.below(8) {
        0 | 1 => Vec::new(),
        2 => b"\n".to_vec(),
        3 => b"\r\n".to_vec(),
        4 => vec![random.next() as u8],
        5 => opening,
        6 => [opening, b"\n".to_vec()].concat(),
        _ => [b"\n".to_vec(), opening, b"\n".to_vec()].concat(),
    }
}

/// More payments of the highest amount than the pool may hold, then smaller ones and draws.
fn rich(random: &mut Random) -> Vec<Vec<u8>> {
    let plan = Plan::random(random);
    let stations = plan.kinds.len();
    let mut lines = vec![plan.line()];
    let short = random.within(0, 999_999_999_999);
    for payment in 0..1001 {
        let amount = if payment == 0 { 1_000_000_000_000 - short } else { 1_000_000_000_000 };
        lines.push(call("pay", &[random.below(stations) as u64, amount]));
    }
    for amount in [short + 1, short, 1, 1_000_000_000_000] {
        lines.push(call("pay", &[random.below(stations) as u64, amount]));
    }
    for _ in 0..random.within(1, 40) {
        let head = random.pick(&["pay", "draw"]);
        let amount = random.pick(&[1, 2, 1_000_000, 999_999_999_999, 1_000_000_000_000]);
        lines.push(call(head, &[random.below(stations) as u64, amount]));
    }
    lines
}

/// The line of a call whose arguments are all numbers.
fn call(head: &str, numbers: &[u64]) -> Vec<u8> {
    let numbers: Vec<String> = numbers.iter().map(u64::to_string).collect();
    format!("({head} {})", numbers.join(" ")).into_bytes()
}

fn list(numbers: &[u64]) -> String {
    let numbers: Vec<String> = numbers.iter().map(u64::to_string).collect();
    format!("({})", numbers.join(" "))
}

fn revision(station: u64, number: u64, notice: u64, values: &[u64]) -> Vec<u8> {
    format!("(revise {station} {number} {notice} {})", list(values)).into_bytes()
}
