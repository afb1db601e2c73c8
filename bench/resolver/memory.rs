//! The allocator of the C library.

use std::ffi::c_int;

/// From how many bytes on memory is taken from the system for itself, and from how many on what is free is given back.
const MMAP_THRESHOLD: c_int = -3;
const TRIM_THRESHOLD: c_int = -1;

unsafe extern "C" {
    fn mallopt(parameter: c_int, value: c_int) -> c_int;
}

/// Has the allocator keep what is freed. Otherwise it would give back the memory of the plain resolver after each call,
/// and take it anew page by page in the next, while the words and the stack of the library stay.
pub fn keep() {
    // SAFETY: the declaration is that of the C library, which takes any numbers.
    let kept = unsafe {
        [
            mallopt(MMAP_THRESHOLD, 32 << 20),
            mallopt(TRIM_THRESHOLD, 1 << 30),
        ]
    };
    assert_eq!(kept, [1, 1], "the allocator knows no such parameters");
}
