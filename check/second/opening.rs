//! What an opening is refused for.

use super::Fault;
use super::call::Opening;
use super::station::BLOCKS;

const MOST_STATIONS: usize = 16;
const MOST_GENERATORS: u64 = 32;
const INSTALLED: std::ops::RangeInclusive<u64> = 1_000..=200_000;

/// The pages have room for 4 stations and 32 generators: schedules, capacities, readings, accounts.
const PAGE_LENGTHS: [u64; 4] = [96 * 4, 96 * 32, 96 * 32, 32];

pub fn check(opening: &Opening) -> Result<(), Fault> {
    let &Opening { kinds, counts, installed } = opening;
    if kinds.len() != counts.len() || !(1..=MOST_STATIONS).contains(&kinds.len()) {
        return Err(Fault::StationCount { kinds: kinds.len() as u64, counts: counts.len() as u64 });
    }
    let is_bad = |(&kind, &count): (&u64, &u64)| kind > 1 || !(1..=MOST_GENERATORS).contains(&count);
    if let Some(station) = kinds.iter().zip(counts).position(is_bad) {
        return Err(Fault::BadStation { station: station as u64 });
    }
    let (given, needed) = (installed.len() as u64, counts.iter().sum());
    if given != needed {
        return Err(Fault::InstalledCount { given, needed });
    }
    if let Some(generator) = installed.iter().position(|kw| !INSTALLED.contains(kw)) {
        return Err(Fault::InstalledRange { generator: generator as u64, kw: installed[generator] });
    }
    check_pages(kinds.len() as u64, needed)
}

fn check_pages(stations: u64, generators: u64) -> Result<(), Fault> {
    let blocks = BLOCKS as u64;
    let needs = [blocks * stations, blocks * generators, blocks * generators, generators];
    for (page, (needed, length)) in (1..).zip(needs.into_iter().zip(PAGE_LENGTHS)) {
        if needed > length {
            return Err(Fault::ShortPage { page, needed });
        }
    }
    Ok(())
}
