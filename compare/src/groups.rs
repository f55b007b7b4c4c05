//! The groups of a sheet in a lent slice: the proved library's, and those of the Rust version by other hands. A float stands here as
//! its 64 bits, so that every one of them can be compared.

use crate::proved::REQUESTS;

/// Floats of a group.
pub const SIZE: usize = 3;

extern "C" {
    fn fill_groups(sheet: *const u8, sheet_len: usize, out: *mut f64, out_len: usize) -> u8;
}

pub fn proved(sheet: &[u8], out: &mut [u64]) -> u8 {
    // The two slices are valid and apart, and the library keeps neither; a float and its bits have the same size and place.
    unsafe { fill_groups(sheet.as_ptr(), sheet.len(), out.as_mut_ptr().cast(), out.len()) }
}

pub fn reference(sheet: &[u8], out: &mut [u64]) -> u8 {
    let (number, groups) = reference::groups(REQUESTS, sheet);
    if number != 0 {
        return number;
    }
    if out.len() < SIZE * groups.len() {
        return 31;
    }
    for (place, g) in out.chunks_mut(SIZE).zip(groups) {
        place.copy_from_slice(&[g.low, g.middle, g.high].map(f64::to_bits));
    }
    0
}
