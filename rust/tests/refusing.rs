//! An allocator that refuses requests for memory, for tests of what comes of that. A test that includes this file has
//! no other allocator.
use std::alloc::{GlobalAlloc, Layout, System};
use std::cell::Cell;
use std::ptr;

/// The system's allocator, which refuses some requests of a thread.
struct Refusing;

#[global_allocator]
static ALLOCATOR: Refusing = Refusing;

/// Which requests are refused.
#[derive(Clone, Copy, Debug, PartialEq, Eq)]
pub enum Refused {
    /// One alone.
    One,
    /// One and all later ones.
    All,
}

thread_local! {
    /// How many requests are granted before one is refused. None if none is.
    static GRANTED: Cell<Option<usize>> = const { Cell::new(None) };
    /// Whether all later ones are refused too.
    static REFUSES_ALL: Cell<bool> = const { Cell::new(false) };
    /// How many were refused.
    static COUNT: Cell<usize> = const { Cell::new(0) };
}

/// Makes a call of which so many requests for memory are granted before the next is refused. Returns what it returns,
/// and how many requests were refused.
pub fn refusing<T>(refused: Refused, granted: usize, call: impl FnOnce() -> T) -> (T, usize) {
    REFUSES_ALL.set(refused == Refused::All);
    COUNT.set(0);
    GRANTED.set(Some(granted));
    let result = call();
    GRANTED.set(None);
    (result, COUNT.get())
}

/// Whether a request is refused.
fn is_refused() -> bool {
    match GRANTED.get() {
        None => false,
        Some(0) => {
            GRANTED.set(REFUSES_ALL.get().then_some(0));
            COUNT.set(COUNT.get() + 1);
            true
        }
        Some(granted) => {
            GRANTED.set(Some(granted - 1));
            false
        }
    }
}

// SAFETY: the memory is that of the system's allocator, by the caller's promises, or there is none.
unsafe impl GlobalAlloc for Refusing {
    unsafe fn alloc(&self, layout: Layout) -> *mut u8 {
        // SAFETY: the caller promises what the system asks for.
        if is_refused() { ptr::null_mut() } else { unsafe { System.alloc(layout) } }
    }

    unsafe fn realloc(&self, memory: *mut u8, layout: Layout, size: usize) -> *mut u8 {
        // SAFETY: the caller promises what the system asks for.
        if is_refused() { ptr::null_mut() } else { unsafe { System.realloc(memory, layout, size) } }
    }

    unsafe fn dealloc(&self, memory: *mut u8, layout: Layout) {
        // SAFETY: the caller promises what the system asks for.
        unsafe { System.dealloc(memory, layout) }
    }
}
