//! Readers of event lines.

use alloc::boxed::Box;
use core::ops::DerefMut;

use crate::entry::{self, EventReply};
use crate::{Overlay, Refusal, Storage};

/// How many bytes are lent to a reader for the parts of an element.
pub const STAGED: usize = 44_432;

/// A reader of event lines, one for each document. Several can read into one overlay by turns, with other calls in between.
///
/// Its 19 words and its staged bytes are allocated ([`Reader::new`]) or lent ([`Reader::fresh`]).
///
/// ```
/// use torvaskin::{Overlay, Reader, Sizes};
///
/// let mut overlay = Overlay::new(&Sizes::ROADLIST)?;
/// let mut reader = Reader::new();
/// reader.events(&mut overlay, "open\tosmChange\nopen\tdelete\nempty\tway\tid=-4\tversion=2\nclose\nclose\n")?;
/// reader.end(&overlay)?;
/// assert_eq!(overlay.listing(100)?, "w\t-4\t-\t2\n");
/// # Ok::<(), torvaskin::Refusal>(())
/// ```
#[derive(Clone, Debug)]
pub struct Reader<W = Box<[u64; 19]>, B = Box<[u8; STAGED]>> {
    words: W,
    staged: B,
}

impl Reader {
    /// A fresh reader in memory of its own.
    pub fn new() -> Self {
        Self::fresh(Box::new([0; 19]), Box::new([0; STAGED]))
    }
}

impl Default for Reader {
    fn default() -> Self {
        Self::new()
    }
}

impl<W: DerefMut<Target = [u64; 19]>, B: DerefMut<Target = [u8; STAGED]>> Reader<W, B> {
    /// A fresh reader in these words and bytes, whatever they hold.
    ///
    /// ```
    /// use torvaskin::{Overlay, Reader, STAGED, Sizes};
    ///
    /// let (mut words, mut staged) = ([7; 19], [7; STAGED]);
    /// let mut reader = Reader::fresh(&mut words, &mut staged);
    /// let mut overlay = Overlay::new(&Sizes::ROADLIST)?;
    /// reader.event(&mut overlay, "open\tosmChange\n")?;
    /// assert_eq!(Reader::kept(&mut words, &mut staged).end(&overlay).unwrap_err().number(), 18);
    /// # Ok::<(), torvaskin::Refusal>(())
    /// ```
    pub fn fresh(mut words: W, staged: B) -> Self {
        words.fill(0);
        Self { words, staged }
    }

    /// The reader that these words and bytes hold since an earlier one. Where they hold none, its calls are refused 22.
    pub fn kept(words: W, staged: B) -> Self {
        Self { words, staged }
    }

    /// One line with its line feed. Refused 2 to 16, 23 and 24; the rest of an input without a line feed is 2 where it is longer than a line, 3
    /// where it is no text, and else 4. A refused line stops the reader: later lines and the end are refused the same.
    pub fn event<S: Storage>(&mut self, overlay: &mut Overlay<S>, line: impl AsRef<[u8]>) -> Result<(), Refusal> {
        taken(entry::event(overlay.storage_mut().lent(), &mut self.words, &mut self.staged, line.as_ref()))
    }

    /// The whole lines of a run, one event after another, with one test of what is lent: how many bytes were taken. What follows them is a line
    /// without its line feed, to be handed over again with what comes behind it. Refused as the first refused line is, with the lines before it
    /// taken in; 2 where what follows is already longer than a line may be; and a run that holds no line is refused 22 or as the reader was
    /// stopped, as any other.
    ///
    /// ```
    /// use torvaskin::{Overlay, Reader, Sizes};
    ///
    /// let (mut overlay, mut reader) = (Overlay::new(&Sizes::ROADLIST)?, Reader::new());
    /// let run = "open\tosmChange\nopen\tdelete\nempty\tway\tid=5\nclo";
    /// assert_eq!(reader.events(&mut overlay, run)?, run.len() - 3);
    /// assert_eq!(reader.events(&mut overlay, "close\nclose\n")?, 12);
    /// reader.end(&overlay)?;
    /// assert_eq!(overlay.listing(100)?, "w\t5\t-\t?\n");
    /// # Ok::<(), torvaskin::Refusal>(())
    /// ```
    pub fn events<S: Storage>(&mut self, overlay: &mut Overlay<S>, run: impl AsRef<[u8]>) -> Result<usize, Refusal> {
        let lent = overlay.storage_mut().lent();
        let reply = entry::events(lent, &mut self.words, &mut self.staged, run.as_ref());
        Refusal::unless_taken(reply.number, reply.held, reply.line).map(|()| reply.taken)
    }

    /// The end of the document. Refused 18 where an element is open.
    pub fn end<S: Storage>(&self, overlay: &Overlay<S>) -> Result<(), Refusal> {
        taken(entry::end(overlay.storage().shared(), &self.words, &self.staged))
    }
}

pub(crate) fn taken(reply: EventReply) -> Result<(), Refusal> {
    Refusal::unless_taken(reply.number, reply.held, reply.line)
}
