//! Road changes: takes in OpenStreetMap changes as events or as direct calls, keeps them in storage that is allocated or lent, and prints the
//! listing.
//!
//! The work is done by a library in which each call is proved to do what its contract says, to stay within what is lent and to end. This
//! crate is its face in Rust: what a caller owes at the C boundary is seen to by types, and nothing that safe code can hand over, damaged
//! storage neither, panics or is undefined. What is refused has a number, which docs/REFUSALS.md explains: [`Refusal`]. A thread that calls it
//! needs 128 KiB of stack.
//!
//! It runs on x86-64 Linux with 64-bit pointers. It needs `alloc` and not `std`: where storage and output are lent, nothing is allocated but by
//! the calls that hand out or take in a [`Record`], a `Vec` or a `String`. rust/bare in the repository is a program without `std` and without a heap.
//!
//! ```
//! use torvaskin::{ElementKind, Overlay, Reader, Sizes};
//!
//! let mut overlay = Overlay::new(&Sizes::ROADLIST)?;
//! let mut reader = Reader::new();
//! let input = "open\tosmChange\nopen\tcreate\nopen\tway\tid=5\tversion=4\n\
//!              empty\ttag\tk=maxweight\tv=7.5\nclose\nclose\nclose\n";
//! // all whole lines in one call; a rest without its line feed would be handed to `event`
//! assert_eq!(reader.events(&mut overlay, input)?, input.len());
//! reader.end(&overlay)?;
//! let bridge = overlay.get(ElementKind::Way, 5)?.expect("it was created");
//! assert_eq!(bridge.tags, [("maxweight", "7.5")]);
//! assert_eq!(overlay.listing(65_536)?, "w\t5\t+\t4\t9\t4\t0\t0\t0\t\t0\t1\tmaxweight\t7.5\n");
//! # Ok::<(), torvaskin::Refusal>(())
//! ```
//!
//! For those who know pbfhogg's overlay:
//!
//! | There | Here |
//! |---|---|
//! | `CompactDiffOverlay::new()` | [`Overlay::new`] with [`Sizes`], or [`Overlay::set_up`] in [`Lent`] blocks |
//! | `parse_osc_file_into(path, &mut overlay)` | a [`FileReader`] and the file's pieces, or a [`Reader`] and event lines |
//! | `push_way(id, &refs, &tags, &meta)`, `delete_way(id, &meta)` | [`Overlay::push`] of a [`Record`], [`Overlay::delete`] |
//! | `get_way(id)`, `has_way(id)`, `is_deleted(kind, id)` | [`Overlay::get`], [`Overlay::has`], [`Overlay::is_deleted`] |
//! | `way_ids()`, `way_count()`, `deleted_ids(kind)` | [`Overlay::live_ids`], [`Overlay::live_count`], [`Overlay::deleted_ids`] |
//! | `CompactWayRef`: `id()`, `refs()`, `tags()`, `metadata()` | [`Record`]: `id`, [`Record::refs`], `tags`, `metadata` |
//! | `into_sorted()`: `upserts(kind)`, `way(n)`, `range_overlaps`, `Seek` | [`Overlay::live_ids`], [`Overlay::record`], [`lists`] |
//! | an error, a panic | a [`Refusal`] |

#![no_std]
#![deny(missing_docs, unsafe_code, unsafe_op_in_unsafe_fn)]

extern crate alloc;

mod blocks;
#[doc(hidden)]
#[allow(missing_docs)]
pub mod entry;
#[allow(missing_docs, unsafe_code)]
mod ffi;
pub mod fields;
mod file;
pub mod lists;
mod overlay;
mod reader;
mod record;
mod refusal;

pub use blocks::{Blocks, Lent, Owned, Shared, Sizes, Storage};
pub use file::{FILE_BYTES, FILE_WORDS, FileReader};
pub use overlay::{Name, Overlay};
pub use reader::{Reader, STAGED};
pub use record::{Body, ElementKind, Handle, Member, Metadata, Record};
pub use refusal::{Reason, Refusal};

/// The version of this crate and of the library: that of the header for C. CHANGELOG.md says what each version changed.
pub const VERSION: &str = env!("CARGO_PKG_VERSION");

/// What the words, bytes and counters of an overlay and the words and staged bytes of a reader mean. It changes when they do: who saves them
/// writes it beside them, as examples/saved.rs does.
pub const STORED_FORM: u32 = 1;
