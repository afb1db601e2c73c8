//! How much stack a call takes: a thread is given a painted stack, and afterwards it is looked how far the paint went.

use std::ffi::{c_int, c_ulong, c_void};
use std::ptr::null_mut;

/// What the stack is painted with.
const PAINT: u64 = 0x5a5a_c3c3_a5a5_3c3c;

/// The attributes of a thread. The C libraries of 64-bit Linux have at most as many bytes.
#[repr(C, align(16))]
struct Attributes([u64; 16]);

unsafe extern "C" {
    fn pthread_attr_init(attributes: *mut Attributes) -> c_int;
    fn pthread_attr_setstack(
        attributes: *mut Attributes,
        stack: *mut c_void,
        bytes: usize,
    ) -> c_int;
    fn pthread_attr_destroy(attributes: *mut Attributes) -> c_int;
    fn pthread_create(
        thread: *mut c_ulong,
        attributes: *const Attributes,
        start: extern "C" fn(*mut c_void) -> *mut c_void,
        argument: *mut c_void,
    ) -> c_int;
    fn pthread_join(thread: c_ulong, answer: *mut *mut c_void) -> c_int;
}

/// A call that a thread makes.
type Call<'a> = &'a mut (dyn FnMut() + Send);

extern "C" fn start(call: *mut c_void) -> *mut c_void {
    // SAFETY: `run_on` hands in a pointer to a call that it keeps until the thread has ended.
    let call = unsafe { &mut *call.cast::<Call>() };
    call();
    null_mut()
}

/// Makes a call in a thread on this stack.
fn run_on(stack: &mut [u64], mut call: Call) {
    let (memory, bytes) = (stack.as_mut_ptr().cast(), size_of_val(stack));
    let (mut attributes, mut thread) = (Attributes([0; 16]), 0);
    let call: *mut Call = &mut call;
    // SAFETY: the declarations are those of the C library. The thread has the stack, which is lent to this function,
    // and the call for itself until it is joined.
    unsafe {
        assert_eq!(pthread_attr_init(&mut attributes), 0);
        assert_eq!(
            pthread_attr_setstack(&mut attributes, memory, bytes),
            0,
            "no such stack"
        );
        assert_eq!(
            pthread_create(&mut thread, &attributes, start, call.cast()),
            0,
            "no thread"
        );
        assert_eq!(pthread_join(thread, null_mut()), 0);
        pthread_attr_destroy(&mut attributes);
    }
}

/// The bytes of a stack of so many bytes that are written to by a thread that makes this call.
fn painted(bytes: usize, call: Call) -> usize {
    let mut stack = vec![PAINT; bytes / size_of::<u64>()];
    run_on(&mut stack, call);
    // it grows downwards, so what is still painted is at the beginning
    let clean = stack.iter().position(|word| *word != PAINT);
    assert_ne!(clean, Some(0), "the stack was too small");
    bytes - size_of::<u64>() * clean.unwrap_or(stack.len())
}

/// How many bytes of a stack of so many a call takes, without those that a thread takes in any case.
pub fn used(bytes: usize, call: Call) -> usize {
    painted(bytes, call) - painted(bytes, &mut || {})
}
