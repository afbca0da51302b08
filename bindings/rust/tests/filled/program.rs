//! Calls each function of `src/sys.rs` so that each code comes up that it can return, and the calls
//! of the crate over them: with all memory, and with each allocation of the library refused, by
//! itself and with all later ones. Prints what comes back: of an answer the fields that say
//! something by its code, and of a room what `sys.rs` takes to be in it.
//!
//! `run-tests.sh` compares what is printed over the library with what is printed over `filled.c`.
mod by_crate;
mod by_sys;

#[allow(dead_code)]
#[path = "../../src/sys.rs"]
mod sys;

use std::alloc::{GlobalAlloc, Layout, System};
use std::collections::BTreeSet;
use std::ffi::{c_int, c_long};
use std::process::ExitCode;
use std::ptr;

/// The program's own memory, without large blocks: while the library has no memory, the crate asks
/// for larger rooms, up to a bound, and filled.c fills them.
struct NoLargeBlocks;

const LARGE: usize = 1 << 16;

// SAFETY: all blocks are those of the system's allocator.
unsafe impl GlobalAlloc for NoLargeBlocks {
    unsafe fn alloc(&self, layout: Layout) -> *mut u8 {
        if layout.size() >= LARGE {
            return ptr::null_mut();
        }
        // SAFETY: what the caller says is handed on.
        unsafe { System.alloc(layout) }
    }

    unsafe fn dealloc(&self, at: *mut u8, layout: Layout) {
        // SAFETY: the same.
        unsafe { System.dealloc(at, layout) }
    }
}

#[global_allocator]
static MEMORY: NoLargeBlocks = NoLargeBlocks;

// Of refusing.c.
extern "C" {
    fn refusing_from(first: c_long, all_later: c_int);
    fn refusing_asked() -> c_long;
    fn refusing_live() -> c_long;
}

/// Which allocation of the library is refused, by its number from 0 on.
#[derive(Clone, Copy, Debug)]
enum Refused {
    None,
    One(c_long),
    AllFrom(c_long),
}

/// What came back.
#[derive(Default)]
pub struct Log {
    /// Of the calls that are not yet printed.
    text: String,
    /// The functions of `sys.rs`, with the codes that they returned.
    codes: BTreeSet<(&'static str, u32)>,
    /// How many allocations were refused in turn.
    allocations: c_long,
}

impl Log {
    /// Runs some calls with all memory, and with each allocation of the library refused.
    pub fn with_each_refused(&mut self, name: &str, calls: impl Fn(&mut Log)) {
        let asked = self.with_refused(name, Refused::None, &calls);
        for number in 0..asked {
            self.with_refused(name, Refused::One(number), &calls);
            self.with_refused(name, Refused::AllFrom(number), &calls);
        }
        self.allocations += asked;
    }

    /// Runs them and prints what came back. Returns how many allocations the library asked for.
    fn with_refused(&mut self, name: &str, refused: Refused, calls: &impl Fn(&mut Log)) -> c_long {
        let (first, all_later) = match refused {
            Refused::None => (-1, 0),
            Refused::One(number) => (number, 0),
            Refused::AllFrom(number) => (number, 1),
        };
        // SAFETY: the declarations are those of refusing.c, and there is no other thread.
        unsafe { refusing_from(first, all_later) };
        calls(self);
        // SAFETY: the same.
        let (asked, live) = unsafe { (refusing_asked(), refusing_live()) };
        assert_eq!(live, 0, "{name} left blocks");
        println!("{name}, refused {refused:?}{}", self.text);
        self.text.clear();
        asked
    }
}

fn main() -> ExitCode {
    let mut log = Log::default();
    by_sys::call_all(&mut log);
    by_crate::call_all(&mut log);
    println!("each of {} allocations was refused", log.allocations);
    let wanted = by_sys::codes();
    if log.codes == wanted {
        return ExitCode::SUCCESS;
    }
    let differing: Vec<_> = log.codes.symmetric_difference(&wanted).collect();
    eprintln!("codes that did not come up, or should not: {differing:?}");
    ExitCode::FAILURE
}
