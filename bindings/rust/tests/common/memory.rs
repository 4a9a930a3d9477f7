//! Memory of the library that is refused from some allocation on, while that of Rust is not, and values that count themselves.
use std::alloc::{GlobalAlloc, Layout};
use std::cell::Cell;
use std::panic::{catch_unwind, AssertUnwindSafe};
use std::ptr;

extern "C" {
    fn __libc_malloc(size: usize) -> *mut u8;
    fn __libc_memalign(align: usize, size: usize) -> *mut u8;
    fn __libc_realloc(block: *mut u8, size: usize) -> *mut u8;
    fn __libc_free(block: *mut u8);
}

thread_local! {
    /// How many more allocations the library is granted.
    static LEFT: Cell<u64> = const { Cell::new(u64::MAX) };
    /// How many allocations the library and Rust have asked for.
    static ASKED: Cell<u64> = const { Cell::new(0) };
    /// How many of these Rust has asked for.
    pub static ASKED_BY_RUST: Cell<u64> = const { Cell::new(0) };
    /// How many values there are.
    pub static LIVE: Cell<usize> = const { Cell::new(0) };
}

fn refuses() -> bool {
    ASKED.set(ASKED.get() + 1);
    let left = LEFT.get();
    LEFT.set(left.saturating_sub(u64::from(left < u64::MAX)));
    left == 0
}

/// In place of those of C, which the library calls.
#[no_mangle]
extern "C" fn malloc(size: usize) -> *mut u8 {
    // SAFETY: what C asks of callers of this one.
    if refuses() {
        ptr::null_mut()
    } else {
        unsafe { __libc_malloc(size) }
    }
}

/// # Safety
///
/// What C asks.
#[no_mangle]
unsafe extern "C" fn realloc(block: *mut u8, size: usize) -> *mut u8 {
    if refuses() {
        ptr::null_mut()
    } else {
        __libc_realloc(block, size)
    }
}

/// The memory of Rust, which is never refused.
struct Granted;

// SAFETY: as of C.
unsafe impl GlobalAlloc for Granted {
    unsafe fn alloc(&self, layout: Layout) -> *mut u8 {
        ASKED.set(ASKED.get() + 1);
        ASKED_BY_RUST.set(ASKED_BY_RUST.get() + 1);
        __libc_memalign(layout.align(), layout.size())
    }

    unsafe fn dealloc(&self, block: *mut u8, _: Layout) {
        __libc_free(block)
    }
}

#[global_allocator]
static GRANTED: Granted = Granted;

/// Makes a call which is granted so many allocations. None where it panics.
pub fn granted<T>(allocations: u64, call: impl FnOnce() -> T) -> Option<T> {
    LEFT.set(allocations);
    let result = catch_unwind(AssertUnwindSafe(call));
    LEFT.set(u64::MAX);
    result.ok()
}

/// Makes a call that takes memory, which is granted no allocation, then one and so on, until it is not refused: it says whether
/// it was.
pub fn each_refused(mut refused: impl FnMut(u64) -> bool) {
    let refusals = (0..).take_while(|&allocations| refused(allocations)).count();
    assert!(refusals > 1, "{refusals} refusals");
}

/// Makes a call which is refused each allocation, and asks for none.
pub fn without_memory<T>(call: impl FnOnce() -> T) -> T {
    let asked = ASKED.get();
    let result = granted(0, call).expect("nothing is refused");
    assert_eq!(ASKED.get(), asked);
    result
}

/// A value that counts itself.
#[derive(Debug)]
pub struct Counted(pub u64);

impl Counted {
    pub fn new(label: u64) -> Self {
        LIVE.set(LIVE.get() + 1);
        Counted(label)
    }
}

impl Clone for Counted {
    fn clone(&self) -> Self {
        Self::new(self.0)
    }
}

impl Drop for Counted {
    fn drop(&mut self) {
        LIVE.set(LIVE.get() - 1);
    }
}
