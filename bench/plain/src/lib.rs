//! The plain engine: the energy account of one unit by document 01, with the check-meter input and
//! the bank by hours of document 02, as ordinary Rust without proofs. It is the baseline that the
//! verified library is measured against.

mod engine;
mod record;
#[cfg(test)]
mod tests;

use engine::{Refusal, Terms};
use std::slice;

fn display_number(result: Result<(), Refusal>) -> u32 {
    match result {
        Ok(()) => 0,
        Err(refusal) => refusal as u32,
    }
}

/// A list as the C caller lends it. No pointer, or a length that no list can have, gives an
/// empty list, which every call refuses by its length.
unsafe fn lent<'a>(start: *const u8, bytes: usize) -> &'a [u8] {
    if start.is_null() || bytes > isize::MAX as usize {
        &[]
    } else {
        slice::from_raw_parts(start, bytes)
    }
}

/// As [`lent`], for a list that the call writes.
unsafe fn lent_mut<'a>(start: *mut u8, bytes: usize) -> &'a mut [u8] {
    if start.is_null() || bytes > isize::MAX as usize {
        &mut []
    } else {
        slice::from_raw_parts_mut(start, bytes)
    }
}

/// Opens a unit in `record`.
///
/// # Safety
/// Each pointer is null or is that of as many bytes as its length says, and no other list
/// overlaps a list that is written.
#[cfg_attr(not(feature = "wheeling-names"), export_name = "plain_open")]
#[cfg_attr(feature = "wheeling-names", export_name = "wheeling_open")]
pub unsafe extern "C" fn plain_open(
    generators: u32,
    consumers: u32,
    rate: u32,
    cycle: u32,
    months_gone: u32,
    switch_month: u32,
    generator_list: *const u8,
    generator_list_bytes: usize,
    pair_list: *const u8,
    pair_list_bytes: usize,
    record: *mut u8,
    record_bytes: usize,
) -> u32 {
    display_number(engine::open(
        &Terms {
            generators,
            consumers,
            rate,
            cycle,
            months_gone,
            switch_month,
        },
        lent(generator_list, generator_list_bytes),
        lent(pair_list, pair_list_bytes),
        lent_mut(record, record_bytes),
    ))
}

/// Replaces the schedule.
///
/// # Safety
/// As for [`plain_open`].
#[cfg_attr(not(feature = "wheeling-names"), export_name = "plain_schedule")]
#[cfg_attr(feature = "wheeling-names", export_name = "wheeling_schedule")]
pub unsafe extern "C" fn plain_schedule(
    record: *mut u8,
    record_bytes: usize,
    kw: *const u8,
    kw_bytes: usize,
    ranks: *const u8,
    ranks_bytes: usize,
) -> u32 {
    display_number(engine::schedule(
        lent_mut(record, record_bytes),
        lent(kw, kw_bytes),
        lent(ranks, ranks_bytes),
    ))
}

/// Enters one block.
///
/// # Safety
/// As for [`plain_open`].
#[cfg_attr(not(feature = "wheeling-names"), export_name = "plain_block")]
#[cfg_attr(feature = "wheeling-names", export_name = "wheeling_block")]
pub unsafe extern "C" fn plain_block(
    record: *mut u8,
    record_bytes: usize,
    entry: *const u8,
    entry_bytes: usize,
    exit: *const u8,
    exit_bytes: usize,
    output: *mut u8,
    output_bytes: usize,
) -> u32 {
    display_number(engine::block(
        lent_mut(record, record_bytes),
        lent(entry, entry_bytes),
        lent(exit, exit_bytes),
        lent_mut(output, output_bytes),
    ))
}

/// Closes the month.
///
/// # Safety
/// As for [`plain_open`].
#[cfg_attr(not(feature = "wheeling-names"), export_name = "plain_close")]
#[cfg_attr(feature = "wheeling-names", export_name = "wheeling_close")]
pub unsafe extern "C" fn plain_close(
    record: *mut u8,
    record_bytes: usize,
    output: *mut u8,
    output_bytes: usize,
) -> u32 {
    display_number(engine::close(
        lent_mut(record, record_bytes),
        lent_mut(output, output_bytes),
    ))
}

/// Says which of two meters' days is to be used.
///
/// # Safety
/// As for [`plain_open`].
#[cfg_attr(not(feature = "wheeling-names"), export_name = "plain_day")]
#[cfg_attr(feature = "wheeling-names", export_name = "wheeling_day")]
pub unsafe extern "C" fn plain_day(
    main: *const u8,
    main_bytes: usize,
    check: *const u8,
    check_bytes: usize,
    tolerance: u32,
    output: *mut u8,
    output_bytes: usize,
) -> u32 {
    display_number(engine::day(
        lent(main, main_bytes),
        lent(check, check_bytes),
        tolerance,
        lent_mut(output, output_bytes),
    ))
}
