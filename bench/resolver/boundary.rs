//! The proved library, by the calls that its crate `boundary` exports.
//! A slice crosses as a pointer and a length, and the library's allocator as nothing.
unsafe extern "C" {
    fn naiadiron_open(file: *const u8, bytes: usize, words: *mut u32, room: usize) -> u64;

    fn naiadiron_settle(
        words: *const u32,
        count: usize,
        requests: *const u32,
        requested: usize,
        budget: u32,
        active: *mut u32,
        room: usize,
    ) -> u64;
}

/// Opens a graph file into the words, and answers how many rule rows it has; none if it is refused.
pub fn open(file: &[u8], words: &mut [u32]) -> Option<usize> {
    // SAFETY: the declaration is that of `crates/boundary/src/opening.rt`, which requires nothing, and both pointers
    // are those of slices that are lent for the call.
    let answer =
        unsafe { naiadiron_open(file.as_ptr(), file.len(), words.as_mut_ptr(), words.len()) };
    usize::try_from(answer).ok()?.checked_sub(1)
}

/// Settles what the requests turn on, and answers how many of the words are the active items; none if it is refused.
pub fn settle(words: &[u32], requests: &[u32], active: &mut [u32]) -> Option<usize> {
    // SAFETY: the declaration is that of `crates/boundary/src/settling.rt`, which requires nothing, and the pointers
    // are those of slices that are lent for the call.
    let answer = unsafe {
        naiadiron_settle(
            words.as_ptr(),
            words.len(),
            requests.as_ptr(),
            requests.len(),
            u32::MAX,
            active.as_mut_ptr(),
            active.len(),
        )
    };
    match answer {
        u64::MAX => None,
        number => usize::try_from(number).ok()?.checked_sub(1),
    }
}
