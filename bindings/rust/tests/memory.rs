//! Refused requests for memory: each comes out as an error, and the parser can be used again.

use first_pass::{Error, Options, Parser};
use std::alloc::{GlobalAlloc, Layout, System};
use std::cell::Cell;

/// The system's allocator, which refuses one request of a thread.
struct Refusing;

thread_local! {
    /// How many requests of this thread are granted before one is refused.
    static GRANTED: Cell<usize> = const { Cell::new(usize::MAX) };
}

fn is_refused() -> bool {
    let granted = GRANTED.get();
    GRANTED.set(granted.wrapping_sub(1));
    granted == 0
}

// SAFETY: each call is handed on to the system's allocator, or refused.
unsafe impl GlobalAlloc for Refusing {
    unsafe fn alloc(&self, layout: Layout) -> *mut u8 {
        if is_refused() {
            return std::ptr::null_mut();
        }
        // SAFETY: the caller's.
        unsafe { System.alloc(layout) }
    }

    unsafe fn dealloc(&self, block: *mut u8, layout: Layout) {
        // SAFETY: the caller's.
        unsafe { System.dealloc(block, layout) }
    }
}

#[global_allocator]
static ALLOCATOR: Refusing = Refusing;

/// Refuses each request of a call in turn, and returns how many there were.
fn refuse_each<T>(mut call: impl FnMut() -> Result<T, Error>) -> usize {
    for granted in 0.. {
        GRANTED.set(granted);
        let result = call();
        GRANTED.set(usize::MAX);
        match result {
            Ok(_) => return granted,
            Err(error) => assert_eq!(error, Error::OutOfMemory),
        }
        assert!(call().is_ok(), "the call works again");
    }
    unreachable!()
}

#[test]
fn parsing() {
    let text = "[a]: b\n".repeat(10) + &"*a".repeat(1000);
    let requests = refuse_each(|| {
        let mut parser = Parser::new();
        let refused = parser.parse_with(&text, Options::all(), |tree| tree.node_count());
        if refused.is_err() {
            let granted = GRANTED.replace(usize::MAX);
            assert_eq!(
                parser.parse_with(&text, Options::all(), |tree| tree.node_count()),
                Ok(2002)
            );
            GRANTED.set(granted);
        }
        refused
    });
    assert!(requests >= 5, "four vectors, one of which grows: {requests}");
}

#[test]
fn look_up() {
    let text: String = (0..9).map(|at| format!("[{at}]: b\n")).collect();
    let document = first_pass::parse(&text, Options::empty()).unwrap();
    let requests = refuse_each(|| document.tree().definitions().get("3"));
    assert_eq!(requests, 3, "a label, its key, and the key of another label");
    assert_eq!(refuse_each(|| document.tree().definitions().get(" \n")), 0);
}

#[test]
fn lines_and_columns() {
    let text = "a\n".repeat(1000);
    assert_eq!(refuse_each(|| first_pass::LineIndex::new(&text)), 1);
}
