//! The functions of the static library: declared here and nowhere else, and called with slices alone.

#[link(name = "live", kind = "static")]
extern "C" {
    fn nacozteya_call(
        image: *mut u32,
        image_length: usize,
        message: *const u8,
        message_length: usize,
        entries: *mut u8,
        entries_length: usize,
        counts: *mut u64,
        counts_length: usize,
    ) -> u64;

    fn nacozteya_outlook(
        image: *const u32,
        image_length: usize,
        account: u16,
        number: u32,
        state: *mut u32,
        state_length: usize,
    ) -> u64;

    fn nacozteya_line(
        entry: *const u8,
        entry_length: usize,
        line: *mut u8,
        line_length: usize,
        counts: *mut u64,
        counts_length: usize,
    ) -> u64;
}

// Each pointer goes with the length of the slice that it is taken from, and is never null; of the
// slices of one call those that are written to are borrowed for it alone, so that none overlaps
// another; no function keeps a pointer after it returns.

/// `nacozteya_call`.
pub fn call(image: &mut [u32], message: &[u8], entries: &mut [u8], counts: &mut [u64]) -> u64 {
    unsafe {
        nacozteya_call(
            image.as_mut_ptr(),
            image.len(),
            message.as_ptr(),
            message.len(),
            entries.as_mut_ptr(),
            entries.len(),
            counts.as_mut_ptr(),
            counts.len(),
        )
    }
}

/// `nacozteya_outlook`.
pub fn outlook(image: &[u32], account: u16, number: u32, state: &mut [u32]) -> u64 {
    unsafe { nacozteya_outlook(image.as_ptr(), image.len(), account, number, state.as_mut_ptr(), state.len()) }
}

/// `nacozteya_line`.
pub fn line(entry: &[u8], line: &mut [u8], counts: &mut [u64]) -> u64 {
    unsafe {
        nacozteya_line(entry.as_ptr(), entry.len(), line.as_mut_ptr(), line.len(), counts.as_mut_ptr(), counts.len())
    }
}
