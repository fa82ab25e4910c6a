//! Lines damaged in one place or another.

use super::random::Random;

/// Bytes that have no place in a line, or not everywhere.
const ODD_BYTES: [u8; 16] = *b"\x00\xff\r\t\n\x80-+.,Az() 0";

const HEADS: [&str; 14] = [
    "open",
    "opens",
    "files",
    "fil",
    "settling",
    "settlings",
    "declared",
    "declarers",
    "Read",
    "pray",
    "draws",
    "x",
    "revised",
    "abcdefgh",
];

pub fn damage(random: &mut Random, line: &mut Vec<u8>) {
    match random.below(24) {
        0 => drop_byte(random, line),
        1 => double_byte(random, line),
        2 => swap_bytes(random, line),
        3 | 4 => odd_byte(random, line),
        5 => replace_byte(random, line),
        6 => insert_behind_space(random, line, &[b" "]),
        7 => append(random, line, &[b" ", b"  ", b"\r", b")", b"(pay 0 1)", b"\t", b"0", b"\0"]),
        8 => line.insert(0, random.pick(b" \t(0a\xef")),
        9 => insert_behind_space(random, line, &[b"0", b"00"]),
        10 => insert_behind_space(random, line, &[b"-"]),
        11 => replace_argument(random, line, &[b"()"]),
        12 => long_list(random, line),
        13 => line.truncate(random.below(line.len() + 1)),
        14 => line.clear(),
        15 => replace_head(random, line),
        16 => replace_argument(random, line, &[b"9999999999999"]),
        17 => replace_argument(random, line, &[b"10000000000000", b"99999999999999999999"]),
        18 => add_argument(random, line),
        19 => replace_argument(random, line, &[b"(1)", b"(0 1 2)", b"7"]),
        20 => replace_argument(random, line, &[b"((1))", b"(1 (2))", b"(1  2)", b"( 1)", b"(1 )"]),
        21 => drop_argument(random, line),
        22 => line.make_ascii_uppercase(),
        _ => noise(random, line),
    }
}

fn place(random: &mut Random, line: &[u8]) -> usize {
    random.below(line.len().max(1))
}

fn drop_byte(random: &mut Random, line: &mut Vec<u8>) {
    let place = place(random, line);
    if place < line.len() {
        line.remove(place);
    }
}

fn double_byte(random: &mut Random, line: &mut Vec<u8>) {
    let place = place(random, line);
    if let Some(&byte) = line.get(place) {
        line.insert(place, byte);
    }
}

fn swap_bytes(random: &mut Random, line: &mut [u8]) {
    let place = place(random, line);
    if place + 1 < line.len() {
        line.swap(place, place + 1);
    }
}

fn odd_byte(random: &mut Random, line: &mut Vec<u8>) {
    let place = random.below(line.len() + 1);
    line.insert(place, random.pick(&ODD_BYTES));
}

fn replace_byte(random: &mut Random, line: &mut [u8]) {
    let place = place(random, line);
    let byte = if random.percent(50) { random.pick(&ODD_BYTES) } else { random.next() as u8 };
    if let Some(replaced) = line.get_mut(place) {
        *replaced = byte;
    }
}

fn append(random: &mut Random, line: &mut Vec<u8>, choices: &[&[u8]]) {
    line.extend_from_slice(random.pick(choices));
}

fn insert_behind_space(random: &mut Random, line: &mut Vec<u8>, choices: &[&[u8]]) {
    let spaces: Vec<usize> = (0..line.len()).filter(|&place| line[place] == b' ').collect();
    if !spaces.is_empty() {
        let place = random.pick(&spaces) + 1;
        line.splice(place..place, random.pick(choices).iter().copied());
    }
}

/// Where the arguments of a line stand that are numbers, or the numbers of its lists.
fn numbers(line: &[u8]) -> Vec<(usize, usize)> {
    let mut found = Vec::new();
    let mut from = None;
    for (place, byte) in line.iter().enumerate() {
        match (byte.is_ascii_digit(), from) {
            (true, None) => from = Some(place),
            (false, Some(start)) => {
                found.push((start, place));
                from = None;
            }
            _ => {}
        }
    }
    found
}

fn replace_argument(random: &mut Random, line: &mut Vec<u8>, choices: &[&[u8]]) {
    let numbers = numbers(line);
    if !numbers.is_empty() {
        let (from, to) = random.pick(&numbers);
        line.splice(from..to, random.pick(choices).iter().copied());
    }
}

fn drop_argument(random: &mut Random, line: &mut Vec<u8>) {
    let numbers = numbers(line);
    if !numbers.is_empty() {
        let (from, to) = random.pick(&numbers);
        line.drain(from.saturating_sub(1)..to);
    }
}

fn add_argument(random: &mut Random, line: &mut Vec<u8>) {
    let more = random.pick(&[&b" 0"[..], b" 9999999999999", b" (1)", b" (1 2 3) 4", b" 10000000000000"]);
    if line.ends_with(b")") {
        let place = line.len() - 1;
        line.splice(place..place, more.iter().copied());
    }
}

/// A list with as many numbers as a list may have, or one more.
fn long_list(random: &mut Random, line: &mut Vec<u8>) {
    let count = random.pick(&[95, 96, 97, 98]);
    let number = random.pick(&["0", "1", "250", "99999"]);
    let list = format!("({})", vec![number; count].join(" "));
    replace_argument(random, line, &[list.as_bytes()]);
}

fn replace_head(random: &mut Random, line: &mut Vec<u8>) {
    let end = line.iter().position(|&byte| byte == b' ').unwrap_or(line.len());
    if end > 1 {
        let head = random.pick(&HEADS);
        line.splice(1..end, head.bytes());
    }
}

/// A line of bytes that have nothing to do with a form, or little.
fn noise(random: &mut Random, line: &mut Vec<u8>) {
    let any = random.percent(50);
    let length = random.below(60);
    line.clear();
    for _ in 0..length {
        line.push(if any { random.next() as u8 } else { random.pick(b"()() 0123456789 filepaydrw") });
    }
}
