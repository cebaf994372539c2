//! A terminal without an operating system, as far as one can be tried on Linux: no `std` and no heap, all storage on the stack. It takes in the event lines of a sample and prints their
//! listing. Of the C library it has `write`, where a terminal has its own output, and what every program with the archive needs: `memset`, `memmove`, `memcpy`, `memcmp`.

#![no_std]
#![no_main]

use core::alloc::{GlobalAlloc, Layout};
use core::panic::PanicInfo;
use core::ptr::null_mut;

use torvaskin::{Lent, Overlay, Reader, Refusal, STAGED, Sizes};

/// The crate names `alloc`, so a program has a heap by name; this one gives nothing, since nothing is asked of it where storage is lent.
struct NoHeap;

// SAFETY: it gives no memory.
unsafe impl GlobalAlloc for NoHeap {
    unsafe fn alloc(&self, _: Layout) -> *mut u8 {
        null_mut()
    }

    unsafe fn dealloc(&self, _: *mut u8, _: Layout) {}
}

#[global_allocator]
static HEAP: NoHeap = NoHeap;

#[panic_handler]
fn panicked(_: &PanicInfo<'_>) -> ! {
    loop {}
}

/// A name that `alloc` has for unwinding, which this program does not do.
#[unsafe(no_mangle)]
extern "C" fn rust_eh_personality() {}

#[link(name = "c")]
unsafe extern "C" {
    fn write(file: i32, bytes: *const u8, len: usize) -> isize;
}

const SIZES: Sizes = Sizes { ids: [64; 3], arenas: [4_096; 3], strings: 64, string_bytes: 1_024 };
const LINES: &str = include_str!("../../../samples/example.events");

/// The listing at the start of the page: its length.
fn listing(page: &mut [u8]) -> Result<usize, Refusal> {
    let (mut words, mut bytes, mut counters) = ([0; SIZES.words()], [0; SIZES.bytes()], [0; 17]);
    let (mut reader_words, mut staged) = ([0; 19], [0; STAGED]);
    let lent = Lent { words: &mut words, bytes: &mut bytes, counters: &mut counters };
    let mut overlay = Overlay::set_up(lent, &SIZES)?;
    let mut reader = Reader::fresh(&mut reader_words, &mut staged);
    let taken = reader.events(&mut overlay, LINES)?;
    if taken < LINES.len() {
        // the rest is a line without its line feed, which is refused
        reader.event(&mut overlay, &LINES[taken..])?;
    }
    reader.end(&overlay)?;
    Ok(overlay.listing_into(page)?.len())
}

#[unsafe(no_mangle)]
extern "C" fn main() -> i32 {
    let mut page = [0; 4_096];
    let Ok(len) = listing(&mut page) else { return 1 };
    // SAFETY: so many bytes of the page are the listing.
    let written = unsafe { write(1, page.as_ptr(), len) };
    if usize::try_from(written) == Ok(len) { 0 } else { 2 }
}
