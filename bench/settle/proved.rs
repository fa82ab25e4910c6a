//! The proved library, as it is linked.
use crate::{Day, GENERATORS, Outcome, STATIONS, Shares};

// A slice crosses as a pointer and a length; the library's allocator takes no argument.
unsafe extern "C" {
    fn settle_full_books(
        installed: *const u32,
        installed_len: usize,
        schedules: *const u32,
        schedules_len: usize,
        capacities: *const u32,
        capacities_len: usize,
        readings: *const u32,
        readings_len: usize,
        books: usize,
        settle: bool,
        dues: *mut i64,
        dues_len: usize,
        shares: *mut Shares,
        shares_len: usize,
    ) -> bool;
}

/// Opens `books` books, settles each where `settle` says so, and reports the last.
pub fn run(day: &Day, books: usize, settle: bool) -> Outcome {
    let mut dues = vec![0; STATIONS];
    let mut shares = vec![Shares::default(); GENERATORS];
    // The function asks nothing of its arguments beyond their types, and keeps none of them.
    let done = unsafe {
        settle_full_books(
            day.installed.as_ptr(),
            day.installed.len(),
            day.schedules.as_ptr(),
            day.schedules.len(),
            day.capacities.as_ptr(),
            day.capacities.len(),
            day.readings.as_ptr(),
            day.readings.len(),
            books,
            settle,
            dues.as_mut_ptr(),
            dues.len(),
            shares.as_mut_ptr(),
            shares.len(),
        )
    };
    assert!(done, "the library refused the day");
    Outcome { dues, shares }
}
