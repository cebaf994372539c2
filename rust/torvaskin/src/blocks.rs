//! What is lent for an overlay, and how much.

use alloc::boxed::Box;
use alloc::vec;
use alloc::vec::Vec;
use core::ops::DerefMut;

use crate::entry::{self, KindSize};
use crate::{ElementKind, Reason, Refusal};

/// The two blocks and the counters that are lent for an overlay: owned ([`Owned`]), or borrowed from whoever keeps them ([`Lent`]).
///
/// A caller lends them and may keep them anywhere; what they hold is the library's. [`Sizes`] says how long they are; set-up writes the
/// sizes behind the counters, and every later call goes by them. Whatever else the blocks hold is answered 22, never more.
///
/// ```
/// use torvaskin::{Blocks, Lent, Overlay, Sizes};
///
/// // storage for 8 ids a kind, 256 bytes of records a kind, and 4 strings of 64 bytes together
/// const SIZES: Sizes = Sizes { ids: [8; 3], arenas: [256; 3], strings: 4, string_bytes: 64 };
/// let (mut words, mut bytes, mut counters) = ([0; SIZES.words()], [0; SIZES.bytes()], [0; 17]);
/// let lent: Lent<'_> = Blocks { words: &mut words, bytes: &mut bytes, counters: &mut counters };
/// let overlay = Overlay::set_up(lent, &SIZES)?;
/// assert!(overlay.is_empty()?);
///
/// // the overlay is there while the same blocks are lent
/// let lent: Lent<'_> = Blocks { words: &mut words, bytes: &mut bytes[1..], counters: &mut counters };
/// assert_eq!(Overlay::kept(lent).is_empty().unwrap_err().number(), 22);
/// # Ok::<(), torvaskin::Refusal>(())
/// ```
#[derive(Clone, Copy, Debug, PartialEq, Eq)]
pub struct Blocks<W, B, C> {
    /// The id tables of nodes, ways and relations, three words an id; then where the strings lie, two words a string.
    pub words: W,
    /// The arenas of records of nodes, ways and relations; then the bytes of the strings.
    pub bytes: B,
    /// The nine counters, then the eight sizes.
    pub counters: C,
}

/// Blocks that are allocated: [`Sizes::allocate`].
pub type Owned = Blocks<Vec<u64>, Vec<u8>, Box<[u64; 17]>>;

/// Blocks that are borrowed from whoever keeps them.
pub type Lent<'a> = Blocks<&'a mut [u64], &'a mut [u8], &'a mut [u64; 17]>;

/// Blocks as a call sees them that only reads.
pub type Shared<'a> = Blocks<&'a [u64], &'a [u8], &'a [u64; 17]>;

/// Whatever two blocks and the counters can be borrowed from: [`Owned`], [`Lent`], or another way to keep them.
pub trait Storage {
    /// The blocks, to be read.
    fn shared(&self) -> Shared<'_>;
    /// The blocks, to be changed.
    fn lent(&mut self) -> Lent<'_>;
}

impl<W, B, C> Storage for Blocks<W, B, C>
where
    W: DerefMut<Target = [u64]>,
    B: DerefMut<Target = [u8]>,
    C: DerefMut<Target = [u64; 17]>,
{
    fn shared(&self) -> Shared<'_> {
        Blocks { words: &self.words, bytes: &self.bytes, counters: &self.counters }
    }

    fn lent(&mut self) -> Lent<'_> {
        Blocks { words: &mut self.words, bytes: &mut self.bytes, counters: &mut self.counters }
    }
}

impl<S: Storage + ?Sized> Storage for &mut S {
    fn shared(&self) -> Shared<'_> {
        (**self).shared()
    }

    fn lent(&mut self) -> Lent<'_> {
        (**self).lent()
    }
}

/// What the blocks have of a kind.
#[derive(Clone, Copy)]
pub(crate) struct KindPart<'a> {
    /// Its id table.
    pub rows: &'a [[u64; 3]],
    /// Its arena.
    pub arena: &'a [u8],
}

/// What they have of the strings.
#[derive(Clone, Copy)]
pub(crate) struct TextPart<'a> {
    pub spans: &'a [[u64; 2]],
    pub bytes: &'a [u8],
}

impl<'a> Shared<'a> {
    /// The sizes behind the counters.
    pub(crate) fn sizes(&self) -> Sizes {
        let size = |word| usize::try_from(word).unwrap_or(usize::MAX);
        let [.., nodes, ways, relations, na, wa, ra, strings, string_bytes] = self.counters.map(size);
        Sizes { ids: [nodes, ways, relations], arenas: [na, wa, ra], strings, string_bytes }
    }

    /// The part of a kind by these sizes.
    pub(crate) fn part(&self, kind: ElementKind) -> KindPart<'a> {
        let sizes = self.sizes();
        let table = cut(self.words, sizes.ids.map(|ids| ids.saturating_mul(3)))[kind as usize];
        KindPart { rows: table.as_chunks().0, arena: cut(self.bytes, sizes.arenas)[kind as usize] }
    }

    /// The strings' part by these sizes.
    pub(crate) fn texts(&self) -> TextPart<'a> {
        let sizes = self.sizes();
        let [.., spans] = cut(self.words, sizes.ids.map(|ids| ids.saturating_mul(3)));
        let [.., bytes] = cut(self.bytes, sizes.arenas);
        TextPart { spans: spans.as_chunks().0, bytes }
    }
}

impl Lent<'_> {
    /// As much of the strings' part as so many new texts of so many bytes together may take: the words of their spans, and their bytes.
    pub(crate) fn unused_texts(&mut self, texts: usize, text_bytes: usize) -> (&mut [u64], &mut [u8]) {
        let sizes = self.shared().sizes();
        let used = |place: usize| usize::try_from(self.counters[place]).unwrap_or(usize::MAX);
        let before = Sizes { strings: used(6), string_bytes: used(7), ..sizes };
        (unused(self.words, before.words(), texts.saturating_mul(2)), unused(self.bytes, before.bytes(), text_bytes))
    }
}

/// From a place on so many of a block, or as many as there are.
fn unused<T>(block: &mut [T], from: usize, most: usize) -> &mut [T] {
    let rest = block.get_mut(from..).unwrap_or_default();
    let len = rest.len();
    &mut rest[..len.min(most)]
}

/// A block's parts of these sizes, and what lies behind them; what the block does not have is missing at its end.
fn cut<T>(mut block: &[T], sizes: [usize; 3]) -> [&[T]; 4] {
    let [nodes, ways, relations] = sizes.map(|size| {
        let (part, rest) = block.split_at(size.min(block.len()));
        block = rest;
        part
    });
    [nodes, ways, relations, block]
}

/// How much is lent for an overlay.
///
/// ```
/// use torvaskin::{Overlay, Sizes};
///
/// let small = Sizes { ids: [1; 3], arenas: [0; 3], strings: 1, string_bytes: 0 };
/// assert_eq!((small.words(), small.bytes()), (11, 0));
/// assert!(Overlay::new(&small).is_ok());
/// let none = Sizes { strings: 0, ..small };
/// assert_eq!(Overlay::new(&none).unwrap_err().number(), 1);
/// ```
#[derive(Clone, Copy, Debug, PartialEq, Eq)]
pub struct Sizes {
    /// Ids of nodes, ways and relations, live and deleted together: 1 to 4,096 of each.
    pub ids: [usize; 3],
    /// Bytes of records of each: up to 1,048,576.
    pub arenas: [usize; 3],
    /// Strings, the empty one among them: 1 to 4,096.
    pub strings: usize,
    /// Their bytes together: up to 65,536.
    pub string_bytes: usize,
}

impl Sizes {
    /// What the program `roadlist` lends.
    pub const ROADLIST: Self = Self { ids: [512; 3], arenas: [8_192; 3], strings: 512, string_bytes: 8_192 };

    /// The most that can be lent.
    pub const MOST: Self = Self { ids: [4_096; 3], arenas: [1_048_576; 3], strings: 4_096, string_bytes: 65_536 };

    /// How many words they take: three an id, two a string; where that is past the largest number, the largest.
    pub const fn words(&self) -> usize {
        let [nodes, ways, relations] = self.ids;
        let ids = nodes.saturating_add(ways).saturating_add(relations);
        ids.saturating_mul(3).saturating_add(self.strings.saturating_mul(2))
    }

    /// How many bytes they take; likewise.
    pub const fn bytes(&self) -> usize {
        let [nodes, ways, relations] = self.arenas;
        nodes.saturating_add(ways).saturating_add(relations).saturating_add(self.string_bytes)
    }

    /// Blocks of these sizes; refused 1 where one is larger than [`Sizes::MOST`].
    pub fn allocate(&self) -> Result<Owned, Refusal> {
        let within = |sizes: [usize; 3], most: [usize; 3]| sizes.iter().zip(most).all(|(size, most)| *size <= most);
        let most = Self::MOST;
        if !within(self.ids, most.ids)
            || !within(self.arenas, most.arenas)
            || self.strings > most.strings
            || self.string_bytes > most.string_bytes
        {
            return Err(Refusal::of(Reason::Size));
        }
        Ok(Blocks { words: vec![0; self.words()], bytes: vec![0; self.bytes()], counters: Box::new([0; 17]) })
    }

    /// As set-up is given them.
    pub(crate) fn given(&self) -> entry::Sizes {
        let kind = |kind: ElementKind| {
            let (ids, bytes) = (self.ids[kind as usize] as u64, self.arenas[kind as usize] as u64);
            KindSize { ids, bytes }
        };
        let [nodes, ways, relations] = ElementKind::ALL.map(kind);
        let (strings, string_bytes) = (self.strings as u64, self.string_bytes as u64);
        entry::Sizes { nodes, ways, relations, strings, string_bytes }
    }
}
