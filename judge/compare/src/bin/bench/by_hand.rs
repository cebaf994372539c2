//! The yardstick, `judge/yardstick`: the library's work by hand in C, over the same storage.

use torvaskin::entry::{EventsReply, Reply};
use torvaskin::{Blocks, Lent, Overlay, Owned, Reader, STAGED, Shared, Sizes, Storage as _};

unsafe extern "C" {
    fn yardstick_events(
        words: *mut u64,
        bytes: *mut u8,
        counters: *mut [u64; 17],
        reader: *mut [u64; 19],
        staged: *mut [u8; STAGED],
        run: *const u8,
        run_len: usize,
    ) -> EventsReply;
    fn yardstick_is_sound(
        words: *const u64,
        words_len: usize,
        bytes: *const u8,
        bytes_len: usize,
        counters: *const [u64; 17],
    ) -> Reply;
    fn yardstick_is_text(s: *const u8, len: usize) -> std::ffi::c_int;
}

/// A run of lines.
///
/// # Safety
///
/// What is lent must be an overlay and a reader of it: the yardstick does not test them.
pub unsafe fn events(lent: Lent<'_>, reader: &mut [u64; 19], staged: &mut [u8; STAGED], run: &[u8]) -> EventsReply {
    let Blocks { words, bytes, counters } = lent;
    let (words, bytes) = (words.as_mut_ptr(), bytes.as_mut_ptr());
    // SAFETY: all of it is borrowed, and it is an overlay.
    unsafe { yardstick_events(words, bytes, counters, reader, staged, run.as_ptr(), run.len()) }
}

/// The test of what is lent.
pub fn is_sound(lent: Shared<'_>) -> bool {
    let Blocks { words, bytes, counters } = lent;
    // SAFETY: slices that are borrowed, with their lengths.
    unsafe { yardstick_is_sound(words.as_ptr(), words.len(), bytes.as_ptr(), bytes.len(), counters) }.number == 0
}

/// The text check.
pub fn is_text(s: &[u8]) -> bool {
    // SAFETY: a slice that is borrowed, with its length.
    unsafe { yardstick_is_text(s.as_ptr(), s.len()) != 0 }
}

/// A document by one batch into an empty overlay, and the test of it that a batch of the library begins with.
pub fn batch(lent: Lent<'_>, input: &str) {
    let mut lent = Overlay::set_up(lent, &Sizes::MOST).expect("set up").into_storage();
    let (mut words, mut staged) = fresh();
    assert!(is_sound(lent.shared()));
    // SAFETY: an empty overlay, and a fresh reader.
    let reply = unsafe { events(lent.lent(), &mut words, &mut staged, input.as_bytes()) };
    assert_eq!((reply.number, reply.taken), (0, input.len()));
}

/// A fresh reader's words and bytes, allocated as the crate for Rust does it.
fn fresh() -> (Box<[u64; 19]>, Box<[u8; STAGED]>) {
    (Box::new([0; 19]), Box::new([0; STAGED]))
}

/// The storage of an empty overlay of the largest sizes, and a fresh reader's.
fn empty() -> (Owned, Box<[u64; 19]>, Box<[u8; STAGED]>) {
    let (words, staged) = fresh();
    (Overlay::new(&Sizes::MOST).expect("within limits").into_storage(), words, staged)
}

/// Demands that the yardstick and the port leave the same words, bytes and counters of a document, and the same reader.
pub fn same_storage(input: &str) {
    let (mut port, mut port_words, mut port_staged) = empty();
    let mut overlay = Overlay::kept(&mut port);
    let mut reader = Reader::kept(&mut *port_words, &mut *port_staged);
    assert_eq!(reader.events(&mut overlay, input).expect("taken"), input.len());
    let (mut hand, mut hand_words, mut hand_staged) = empty();
    // SAFETY: an empty overlay, and a fresh reader.
    let reply = unsafe { events(hand.lent(), &mut hand_words, &mut hand_staged, input.as_bytes()) };
    assert_eq!((reply.number, reply.taken), (0, input.len()));
    assert!(port == hand && is_sound(hand.shared()), "the yardstick leaves another overlay");
    assert!((port_words, port_staged) == (hand_words, hand_staged), "the yardstick leaves another reader");
}
