//! What a text before a fault asks of memory.
mod common;

use common::map;
use interpolator::{write, Error, Formattable};
use std::alloc::{GlobalAlloc, Layout, System};
use std::fmt;
use std::ptr;
use std::sync::atomic::{AtomicUsize, Ordering::Relaxed};

/// Refuses each block of more than so many bytes to this program. The library has memory of its own.
struct Limited {
    most: AtomicUsize,
    largest: AtomicUsize,
}

#[global_allocator]
static MEMORY: Limited = Limited {
    most: AtomicUsize::new(usize::MAX),
    largest: AtomicUsize::new(0),
};

// SAFETY: all blocks are those of the system's allocator.
unsafe impl GlobalAlloc for Limited {
    unsafe fn alloc(&self, layout: Layout) -> *mut u8 {
        self.largest.fetch_max(layout.size(), Relaxed);
        if layout.size() > self.most.load(Relaxed) {
            return ptr::null_mut();
        }
        // SAFETY: what the caller says is handed on.
        unsafe { System.alloc(layout) }
    }

    unsafe fn dealloc(&self, at: *mut u8, layout: Layout) {
        // SAFETY: the same.
        unsafe { System.dealloc(at, layout) }
    }
}

impl Limited {
    /// Calls while it has no block of more than so many bytes, and returns also the largest that was
    /// asked for.
    fn with_most<R>(&self, most: usize, call: impl FnOnce() -> R) -> (R, usize) {
        self.largest.store(0, Relaxed);
        self.most.store(most, Relaxed);
        let result = call();
        self.most.store(usize::MAX, Relaxed);
        (result, self.largest.load(Relaxed))
    }
}

const MIB: usize = 1 << 20;

/// A writer that keeps how many bytes came, and the first.
#[derive(Default)]
struct Counts {
    bytes: usize,
    first: Option<char>,
}

impl fmt::Write for Counts {
    fn write_str(&mut self, text: &str) -> fmt::Result {
        self.bytes += text.len();
        self.first = self.first.or(text.chars().next());
        Ok(())
    }
}

// One test, since the limit is that of all threads.
#[test]
fn text_before_a_fault() {
    let long = "é".repeat(MIB);
    let words = [long.as_str(), "b"];
    let items = words.each_ref().map(Formattable::display);
    let context = map(&[
        ("long", Formattable::display(&long)),
        ("items", Formattable::iter(&items)),
    ]);
    let missing = |place| Err(Error::MissingValue("nobody".to_string(), place));
    let refused = Err(Error::Fmt(fmt::Error, 0));
    let call = |format: &str, most| {
        let mut out = Counts::default();
        let (result, largest) = MEMORY.with_most(most, || write(&mut out, format, &context));
        (result, out, largest)
    };

    // It is all there, be it a list under a width, for which the room must be larger than the text.
    for (format, bytes) in [
        ("{long}{nobody}", 2 * MIB),
        ("{items:>9i}{nobody}", 2 * MIB + 1),
        ("{items:>9i}{items:>2097155i}{nobody}", 5 * MIB + 4),
    ] {
        let (result, out, _) = call(format, usize::MAX);
        assert_eq!(result, missing(format.len() - 7), "{format}");
        assert_eq!((out.bytes, out.first), (bytes, Some('é')), "{format}");
    }

    // Without memory for it, that is the error, and a beginning is written.
    let (result, out, largest) = call("{long}{nobody}", MIB);
    assert_eq!(result, refused);
    assert!((1..=MIB).contains(&out.bytes), "{}", out.bytes);
    assert!(largest <= 8 * MIB, "{largest}");
    let (result, out, largest) = call("x{items:>9i}{nobody}", MIB);
    assert_eq!((result, out.bytes), (refused, 1));
    assert!(largest <= 8 * MIB, "{largest}");
}
