//! How much memory `LineReader` asks for.

use std::alloc::{GlobalAlloc, Layout, System};
use std::io::{Read, repeat};
use std::sync::atomic::{AtomicUsize, Ordering::Relaxed};
use torkettle::column::LineReader;

// Keeps the size of the largest request.
struct Largest(AtomicUsize);

#[global_allocator]
static LARGEST: Largest = Largest(AtomicUsize::new(0));

// SAFETY: each request is passed on to `System`.
unsafe impl GlobalAlloc for Largest {
    unsafe fn alloc(&self, layout: Layout) -> *mut u8 {
        self.0.fetch_max(layout.size(), Relaxed);
        unsafe { System.alloc(layout) }
    }

    unsafe fn dealloc(&self, at: *mut u8, layout: Layout) {
        unsafe { System.dealloc(at, layout) }
    }
}

#[test]
fn a_reader_asks_for_the_longest_line_and_its_end() {
    for limit in [1 << 20, 3_000_000] {
        for length in [limit, limit + 1, 3 * limit] {
            LARGEST.0.store(0, Relaxed);
            let text = repeat(b'1').take(length as u64).chain(&b"\r\n2"[..]);
            let mut reader = LineReader::with_longest_line(limit, text);
            let first = reader.next_line().unwrap().unwrap().map(|line| line.text.len());
            assert_eq!(first.is_ok(), length <= limit, "{length} bytes of at most {limit}");
            let second = reader.next_line().unwrap().unwrap().unwrap();
            assert_eq!(second.text, b"2", "after {length} bytes of at most {limit}");
            assert_eq!(LARGEST.0.load(Relaxed), limit + 2, "{length} bytes of at most {limit}");
        }
    }
}
