//! The proved side of the two calls that are measured, from the static library.

// In the library these take one `&[u8]`, which crosses as a pointer and then a length. They ask nothing of
// the bytes.
unsafe extern "C" {
    fn unit_bench_decoded(records: *const u8, length: usize) -> u64;
    fn unit_bench_executed(records: *const u8, length: usize) -> u64;
}

/// Sums up what each command is read as.
pub fn decoded(records: &[u8]) -> u64 {
    // SAFETY: the pointer and the length are those of one slice, which is borrowed for the call.
    unsafe { unit_bench_decoded(records.as_ptr(), records.len()) }
}

/// Sums up what a unit answers to each command.
pub fn executed(records: &[u8]) -> u64 {
    // SAFETY: as above.
    unsafe { unit_bench_executed(records.as_ptr(), records.len()) }
}
