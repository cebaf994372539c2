//! Readers of change files.

use alloc::boxed::Box;
use core::ops::DerefMut;

use crate::entry::{self, FileParts};
use crate::reader::taken;
use crate::{Overlay, Refusal, STAGED, Storage};

/// How many words a reader of files has beside a reader's 19.
pub const FILE_WORDS: usize = 7;

/// How many bytes are lent to it for the line of a markup and for the name of the open element.
pub const FILE_BYTES: usize = 32_771;

/// A reader of OsmChange files in XML, one for each file (docs/FILES.md).
///
/// Its words and bytes are allocated ([`FileReader::new`]) or lent ([`FileReader::fresh`]).
///
/// ```
/// use torvaskin::{FileReader, Overlay, Sizes};
///
/// let mut overlay = Overlay::new(&Sizes::ROADLIST)?;
/// let mut file = FileReader::new();
/// // a piece may end anywhere
/// for piece in ["<osmChange><delete><way id=\"-4\" ver", "sion='2'/></delete></osmChange>\n"] {
///     file.piece(&mut overlay, piece)?;
/// }
/// file.end(&overlay)?;
/// assert_eq!(overlay.listing(100)?, "w\t-4\t-\t2\n");
/// # Ok::<(), torvaskin::Refusal>(())
/// ```
#[derive(Clone, Debug)]
pub struct FileReader<R = Box<[u64; 19]>, S = Box<[u8; STAGED]>, W = Box<[u64; FILE_WORDS]>, B = Box<[u8; FILE_BYTES]>>
{
    reader: R,
    staged: S,
    words: W,
    bytes: B,
}

impl FileReader {
    /// A fresh reader in memory of its own.
    pub fn new() -> Self {
        Self::fresh(Box::new([0; 19]), Box::new([0; STAGED]), Box::new([0; FILE_WORDS]), Box::new([0; FILE_BYTES]))
    }
}

impl Default for FileReader {
    fn default() -> Self {
        Self::new()
    }
}

impl<R, S, W, B> FileReader<R, S, W, B>
where
    R: DerefMut<Target = [u64; 19]>,
    S: DerefMut<Target = [u8; STAGED]>,
    W: DerefMut<Target = [u64; FILE_WORDS]>,
    B: DerefMut<Target = [u8; FILE_BYTES]>,
{
    /// A fresh reader in these words and bytes, whatever they hold.
    pub fn fresh(mut reader: R, staged: S, mut words: W, bytes: B) -> Self {
        reader.fill(0);
        words.fill(0);
        Self { reader, staged, words, bytes }
    }

    /// The reader that these words and bytes hold since an earlier one. Where they hold none, its calls are refused 22.
    pub fn kept(reader: R, staged: S, words: W, bytes: B) -> Self {
        Self { reader, staged, words, bytes }
    }

    /// A piece of the file. Refused as the first refused markup is, at the line of its first byte, with what stands before it taken in: 25, 26,
    /// and what an event is refused with. A refused markup stops the reader.
    pub fn piece<T: Storage>(&mut self, overlay: &mut Overlay<T>, piece: impl AsRef<[u8]>) -> Result<(), Refusal> {
        let file = FileParts {
            reader: &mut self.reader,
            staged: &mut self.staged,
            words: &mut self.words,
            bytes: &mut self.bytes,
        };
        taken(entry::file_piece(overlay.storage_mut().lent(), file, piece.as_ref()))
    }

    /// The end of the file. Refused 25 inside markup, 18 where an element is open.
    pub fn end<T: Storage>(&self, overlay: &Overlay<T>) -> Result<(), Refusal> {
        taken(entry::file_end(overlay.storage().shared(), &self.reader, &self.staged, &self.words, &self.bytes))
    }
}
