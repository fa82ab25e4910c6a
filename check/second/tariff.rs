//! The banded tariff from 10, 20 and 30 percent of the capacity.

/// The code that a statement names.
pub const CODE: u64 = 10;

/// Each band begins at a percentage of the capacity and has a rate in paise for a kWh.
const BANDS: [(u64, u64); 3] = [(10, 50), (20, 100), (30, 150)];

/// What a station is charged for a block, in paise. The rate of a band is put on the part of the
/// error in that band; 400 stands for four blocks in an hour and an error in hundredths of a kW.
pub fn charge(deviation: i64, capacity: u64) -> i64 {
    let error = 100 * deviation.unsigned_abs();
    let mut hundredths = 0;
    let mut left = error;
    for (edge, rate) in BANDS.into_iter().rev() {
        let part = left.saturating_sub(edge * capacity);
        hundredths += rate * part;
        left -= part;
    }
    ((hundredths + 200) / 400) as i64
}
