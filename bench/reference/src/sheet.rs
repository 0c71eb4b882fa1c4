//! The reference's levels behind the declaration of `cards_levels` in
//! include/cards.h.

use cards_reference::sheet::fill;

/// Fills the list with the levels of the sheet; how many tasks it has.
///
/// # Safety
///
/// Each pointer is to as many bytes or words as the length after it says, and
/// they do not overlap.
#[no_mangle]
pub unsafe extern "C" fn bench_levels_reference(
    sheet: *const u8,
    sheet_length: usize,
    levels: *mut u32,
    levels_length: usize,
) -> usize {
    let sheet = unsafe { std::slice::from_raw_parts(sheet, sheet_length) };
    let levels = unsafe { std::slice::from_raw_parts_mut(levels, levels_length) };
    fill(sheet, levels)
}
