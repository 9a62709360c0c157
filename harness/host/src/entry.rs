//! The C entry, behind a safe function.

mod c {
    extern "C" {
        pub fn clear_session_file(input: *const u8, input_len: usize, output: *mut u8, output_len: usize) -> i64;
    }
}

/// The C entry as it is: the length of the listing, which is then at the start of the output with the bytes after it untouched; or
/// a refusal's number negated, with the whole output zeroed.
pub fn clear_session_file(input: &[u8], output: &mut [u8]) -> i64 {
    // Each pointer goes with its slice's length; the slices are lent for the call alone and cannot overlap.
    unsafe { c::clear_session_file(input.as_ptr(), input.len(), output.as_mut_ptr(), output.len()) }
}
