//! What is refused, and why.

use core::fmt;

/// The refusals: number, what happened, what helps.
macro_rules! reasons {
    ($($name:ident = $number:literal, $sentence:literal, $help:literal;)*) => {
        /// Why something was refused; its number is that of docs/REFUSALS.md.
        #[derive(Clone, Copy, Debug, PartialEq, Eq, Hash)]
        #[repr(u8)]
        #[non_exhaustive]
        pub enum Reason {
            $(#[doc = $sentence] $name = $number,)*
        }

        impl Reason {
            /// All of them, by number.
            pub const ALL: &[Self] = &[$(Self::$name),*];

            /// What happened, for the person who reads it.
            pub fn sentence(self) -> &'static str {
                match self { $(Self::$name => $sentence,)* }
            }

            /// What helps.
            pub fn help(self) -> &'static str {
                match self { $(Self::$name => $help,)* }
            }
        }
    };
}

#[rustfmt::skip]
reasons! {
    Size = 1, "The overlay was set up with too little or too much storage.",
        "Set it up again with 1 to 4,096 ids and 0 to 1,048,576 bytes of records a kind, 1 to 4,096 strings and 0 to 65,536 string bytes, in blocks of exactly these sizes.";
    LongLine = 2, "A line of the input is longer than 16,384 bytes.",
        "Ask the supplier of the file: no change that is taken has so long a line.";
    NotText = 3, "A line, or a text handed in by a program, is not proper text: damaged characters, or a carriage return in a line.",
        "Fetch the file again. If it was edited on another computer, save it as UTF-8 with plain line feeds.";
    NotEventLine = 4, "A line is not an event line, names an attribute twice, or the file ends in the middle of a line.",
        "Fetch the file again; it may have been cut off.";
    Misplaced = 5, "An element stands where it does not belong, as a road inside another road.",
        "The file is not a change file, or two files were joined. Fetch it again, and hand in one file at a time.";
    OutsideSection = 6, "A node, way or relation stands outside `create`, `modify` and `delete`.",
        "The file does not say what to do with it. Ask its supplier.";
    Missing = 7, "A field that is needed is missing, as an id or a coordinate.",
        "Ask the supplier of the file.";
    NotInteger = 8, "A field should be a whole number of its size and is not.",
        "Ask the supplier of the file.";
    NotTimestamp = 9, "A timestamp is not of the form 2024-01-31T12:00:00Z, has a sign in a number, or names a day or hour that does not exist.",
        "Ask the supplier of the file.";
    CoordinateRange = 10, "A coordinate lies outside the globe.",
        "Ask the supplier of the file.";
    MemberType = 11, "A member of a relation is neither a node, a way nor a relation.",
        "Ask the supplier of the file.";
    Regression = 12, "A change is older than what is held for that element. The version shown is the one held.",
        "In `roadlist`: the changes of the file are in the wrong order; ask its supplier. In a terminal: a file was skipped or read late; read the files in their order from an empty overlay.";
    StringsFull = 13, "There is no room left for names (keys, roles, users).",
        "In `roadlist`: the file is too large; ask for one with fewer roads or a shorter time. In a terminal: start with an empty overlay; its maker can lend more strings or string bytes.";
    IdsFull = 14, "There is no room left for further ids of that kind.",
        "In `roadlist`: the file is too large; ask for one with fewer roads or a shorter time. In a terminal: start with an empty overlay; its maker can lend more ids.";
    ArenaFull = 15, "There is no room left for records of that kind.",
        "In `roadlist`: the file is too large; ask for one with fewer roads or a shorter time. In a terminal: start with an empty overlay; its maker can lend a larger arena.";
    TooManyParts = 16, "One element has more than 256 tags, 2,000 refs, 2,000 members or 16,384 bytes of tag values.",
        "The element is larger than anything that is taken. Ask the supplier whether it can be divided.";
    BadRecord = 17, "The terminal's program handed in a record that contradicts itself or texts that do not fit their lengths, or asked for a kind that does not exist.",
        "A fault of that program: report it to its maker.";
    Unfinished = 18, "The input ended before its last element was closed, or nothing was handed in.",
        "The file was cut off, or it is empty. Fetch it again.";
    ShortOutput = 19, "The listing does not fit its output, or ids or handles do not fit the lists that are to hold them.",
        "In `roadlist`: the file is too large; ask for one with fewer roads or a shorter time. In a terminal: its maker can lend more output.";
    NotInOrder = 20, "A program handed in a list of ids that is not strictly in order.",
        "A fault of the calling program.";
    NoSuchNumber = 21, "A program asked for an id or a record by a number that its list does not have, or for a text by a handle that is not held.",
        "A fault of the calling program.";
    Unsound = 22, "What the terminal has stored is damaged, or was handed over cut short.",
        "Do not use the listing. Start with an empty overlay, lent as at set-up, and read the files again.";
    NotDegrees = 23, "A coordinate in degrees is not of the form 59.011234: at most one sign, one to three digits, and behind a point one to twelve.",
        "Ask the supplier of the file.";
    BothForms = 24, "A node gives a coordinate twice, in degrees and in whole numbers: `lat` beside `lat7`, or `lon` beside `lon7`.",
        "Ask the supplier of the file.";
    NotMarkup = 25, "The file is not well-formed XML there, or holds what is not supported: a DOCTYPE, CDATA or an encoding other than UTF-8.",
        "Fetch the file again; it may have been cut off. If it is refused at the same line again, ask its supplier for OsmChange in UTF-8 without these.";
    UnmatchedEndTag = 26, "An end tag closes nothing, or another element than the one that is open.",
        "Fetch the file again. If it is refused at the same line again, ask its supplier.";
}

/// A refusal: nothing that was lent has changed, but for the stop mark of a refused event's reader.
///
/// ```
/// use torvaskin::{Overlay, Reader, Sizes};
///
/// let mut overlay = Overlay::new(&Sizes::ROADLIST)?;
/// let refusal = Reader::new().event(&mut overlay, "open\tnode\tid=1\n").unwrap_err();
/// assert_eq!((refusal.number(), refusal.line(), refusal.held()), (5, Some(1), None));
/// assert_eq!(
///     refusal.to_string(),
///     "refused 5, line 1: An element stands where it does not belong, as a road inside another road."
/// );
/// # Ok::<(), torvaskin::Refusal>(())
/// ```
#[derive(Clone, Copy, Debug, PartialEq, Eq)]
pub struct Refusal {
    reason: Reason,
    held: i32,
    line: u64,
}

impl Refusal {
    /// A refusal that names no line and no version.
    pub(crate) const fn of(reason: Reason) -> Self {
        Self { reason, held: 0, line: 0 }
    }

    /// Where stored data does not say what it should.
    pub(crate) const UNSOUND: Self = Self::of(Reason::Unsound);

    /// What an entry's reply says: accepted, or refused.
    pub(crate) fn unless_taken(number: u32, held: i32, line: u64) -> Result<(), Self> {
        let Some(place) = (number as usize).checked_sub(1) else { return Ok(()) };
        let reason = Reason::ALL.get(place).copied().unwrap_or(Reason::Unsound);
        Err(Self { reason, held, line })
    }

    /// Its number, 1 to 24.
    pub fn number(&self) -> u32 {
        self.reason as u32
    }

    /// Why.
    pub fn reason(&self) -> Reason {
        self.reason
    }

    /// Of 12 the version that is held.
    pub fn held(&self) -> Option<i32> {
        (self.reason == Reason::Regression).then_some(self.held)
    }

    /// Of an event or an end the line, from 1 on; of 22 none.
    pub fn line(&self) -> Option<u64> {
        (self.line != 0).then_some(self.line)
    }
}

impl fmt::Display for Refusal {
    fn fmt(&self, f: &mut fmt::Formatter<'_>) -> fmt::Result {
        write!(f, "refused {}", self.number())?;
        if let Some(line) = self.line() {
            write!(f, ", line {line}")?;
        }
        if let Some(held) = self.held() {
            write!(f, ", version held {held}")?;
        }
        write!(f, ": {}", self.reason.sentence())
    }
}

impl core::error::Error for Refusal {}
