//! A station's charges and its generators' shares.

use super::key::{Basis, Load, Split};
use super::station::{Account, BLOCKS, Generator, Station};
use super::tariff;

/// Posts the charges and shares of all blocks anew.
pub fn post(station: &mut Station, generators: &mut [Generator]) {
    station.charges = 0;
    for generator in generators.iter_mut() {
        generator.account = Account::default();
    }
    for block in 0..BLOCKS {
        station.charges += post_block(station.schedule[block].into(), generators, block);
    }
}

/// Adds the shares of a block to the accounts, and answers the station's charge.
fn post_block(schedule: i64, generators: &mut [Generator], block: usize) -> i64 {
    let mut sums = Load::default();
    for generator in generators.iter() {
        sums.add(generator.load(block));
    }
    let deviation = sums.actual as i64 - schedule;
    if deviation == 0 {
        return 0;
    }
    let charge = tariff::charge(deviation, sums.capacity);
    let basis = Basis::of(sums);
    let mut money = Split::new(charge, basis.weight(sums));
    let mut energy = Split::new(deviation, basis.weight(sums));
    let mut so_far = 0;
    for generator in generators {
        so_far += basis.weight(generator.load(block));
        generator.account.money += money.share(so_far);
        generator.account.energy += energy.share(so_far);
    }
    charge
}
