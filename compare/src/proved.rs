//! The proved library, and how many change requests are in force in it.

pub const REQUESTS: u8 = 13;

extern "C" {
    /// A slice of Rattle is a pointer and a length.
    fn fill(sheet: *const u8, sheet_len: usize, out: *mut u8, out_len: usize) -> u8;
}

pub fn fill_into(sheet: &[u8], out: &mut [u8]) -> u8 {
    // The two slices are valid and apart, and the library keeps neither.
    unsafe { fill(sheet.as_ptr(), sheet.len(), out.as_mut_ptr(), out.len()) }
}
