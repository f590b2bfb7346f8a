//! No call allocates but `approximate_text`, as a counting allocator shows.

use std::alloc::{GlobalAlloc, Layout, System};
use std::cell::Cell;
use std::fmt::{self, Debug, Write};
use std::hint::black_box;

use byte_unit::{AdjustedByte, Bit, Byte, Decimal, FormatSpec, Unit, UnitType};

thread_local! {
    static COUNT: Cell<usize> = const { Cell::new(0) };
}

/// Counts the allocations of each thread.
struct Counting;

// SAFETY: each call is one of the system's allocator.
unsafe impl GlobalAlloc for Counting {
    unsafe fn alloc(&self, layout: Layout) -> *mut u8 {
        COUNT.with(|count| count.set(count.get() + 1));
        // SAFETY: as of this call.
        unsafe { System.alloc(layout) }
    }

    unsafe fn dealloc(&self, place: *mut u8, layout: Layout) {
        // SAFETY: as of this call.
        unsafe { System.dealloc(place, layout) }
    }
}

#[global_allocator]
static COUNTING: Counting = Counting;

/// Returns how many allocations a call makes.
fn count_of<T>(call: impl FnOnce() -> T) -> usize {
    let before = COUNT.get();
    black_box(call());
    COUNT.get() - before
}

/// A writer that keeps nothing.
struct Nowhere;

impl Write for Nowhere {
    fn write_str(&mut self, _: &str) -> fmt::Result {
        Ok(())
    }
}

/// Texts of each path of the parser, and some that are rejected.
#[rustfmt::skip]
const TEXTS: [&str; 12] = [
    "12", "1.5 KiB", " 0.1 MB ", "5192296858534827628530496329220095.1234567890123456789012345678", "999 RB", "8 bits",
    "1000.5 RB", "1.", "1 Kx", "", "é", "1.12345678901234567890123456789",
];

/// Parses, and writes what is parsed, or the error.
fn write_parsed<T: fmt::Display + Debug, E: fmt::Display + Debug>(parsed: Result<T, E>) {
    let mut to = Nowhere;
    match parsed {
        Ok(size) => write!(to, "{size}{size:#}{size:>#300.9}{size:+}{size:?}").unwrap(),
        Err(error) => write!(to, "{error}{error:>300}{error:?}").unwrap(),
    }
}

#[test]
fn calls_do_not_allocate() {
    let most = Byte::MAX;
    for text in TEXTS {
        let count = count_of(|| {
            write_parsed(Byte::parse_str(text, true));
            write_parsed(Byte::parse_str_binary(text, false));
            write_parsed(Bit::parse_str(text));
            write_parsed(text.parse::<AdjustedByte>());
            write_parsed(Unit::parse_str(text, true, true));
            (Byte::parse_bytes(text.as_bytes(), false), Bit::error_position(text), Byte::parse_bytes(b"\xff", false))
        });
        assert_eq!(count, 0, "{text}");
    }
    assert_eq!(count_of(|| Byte::parse_many(TEXTS, false).filter_map(Result::ok).count()), 0);
    let (mut sizes, mut codes) = ([Byte::MIN; 2], [0; 2]);
    assert_eq!(count_of(|| Byte::parse_buffers(b"12 Kx", &[0i32, 2, 5], false, &mut sizes, &mut codes)), 0);
    let count = count_of(|| {
        let adjusted = most.get_appropriate_unit(UnitType::Both);
        write_parsed(Ok::<_, fmt::Error>(most.get_recoverable_unit(true, 28).0));
        write_parsed(Ok::<_, fmt::Error>(Bit::from_u64(1).get_adjusted_unit(Unit::RiB)));
        write_parsed(Decimal::try_from(3.5));
        (adjusted.get_value(), adjusted.write_text(FormatSpec::PLAIN, &mut [0; 200]).is_ok(), most.get_exact_unit(true))
    });
    assert_eq!(count, 0);
    assert!(count_of(|| most.approximate_text(UnitType::Binary, 1)) > 0);
}
