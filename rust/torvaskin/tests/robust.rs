//! What no caller should meet: damaged storage and readers, calls at random with refusals in between, outputs of every length, the largest
//! sizes. No call panics; what is unsound is refused 22 by every call; what is refused changes nothing. Each test prints how many calls were
//! made, and how many were answered by each number.

use std::cell::Cell;

use torvaskin::{
    Body, ElementKind, Handle, Member, Metadata, Overlay, Owned, Reader, Record, Refusal, STAGED, Shared, Sizes,
    Storage,
};

const KINDS: [ElementKind; 3] = ElementKind::ALL;

/// What is lent for the small overlay.
const SMALL: Sizes = Sizes { ids: [4, 5, 3], arenas: [260, 250, 240], strings: 6, string_bytes: 40 };

/// Calls by the number of their answer.
#[derive(Default)]
struct Tally([u64; 23]);

impl Tally {
    /// Counts an answer: its number.
    fn count<T>(&mut self, answer: &Result<T, Refusal>) -> u32 {
        let number = answer.as_ref().err().map_or(0, Refusal::number);
        self.0[number as usize] += 1;
        number
    }

    fn print(&self, what: &str) {
        let answered = self.0.iter().enumerate().filter(|(_, calls)| **calls != 0);
        let answered: Vec<String> = answered.map(|(number, calls)| format!("{number}: {calls}")).collect();
        println!("{what}: {} calls, by answer {}", self.0.iter().sum::<u64>(), answered.join(", "));
    }
}

/// splitmix64
struct Random(u64);

impl Random {
    fn draw(&mut self) -> u64 {
        self.0 = self.0.wrapping_add(0x9e37_79b9_7f4a_7c15);
        let mut z = self.0;
        z = (z ^ (z >> 30)).wrapping_mul(0xbf58_476d_1ce4_e5b9);
        z = (z ^ (z >> 27)).wrapping_mul(0x94d0_49bb_1331_11eb);
        z ^ (z >> 31)
    }

    fn below(&mut self, most: usize) -> usize {
        (self.draw() % most as u64) as usize
    }

    /// A small number, an end of a width, or any.
    fn word(&mut self) -> u64 {
        let ends = [0, 255, (1 << 32) - 1, 1 << 32, (1 << 63) - 1, 1 << 63, u64::MAX];
        match self.below(4) {
            0 => self.draw(),
            1 => ends[self.below(ends.len())],
            _ => self.below(9) as u64,
        }
    }
}

/// What is lent: an overlay's storage, a reader's words and its staged bytes.
#[derive(Clone, PartialEq)]
struct Lent {
    storage: Owned,
    words: Box<[u64; 19]>,
    staged: Box<[u8; STAGED]>,
}

impl Lent {
    /// A small overlay of three ids a kind, one of them deleted, under a reader in the midst of a way.
    fn small() -> Self {
        let mut overlay = Overlay::new(&SMALL).expect("within limits");
        let metadata =
            Metadata { version: Some(3), timestamp: 1, changeset: -9, uid: 258, user: Some("ß"), hidden: false };
        let records = [
            Record::node(5, 900_000_000, -1_800_000_000).metadata(metadata).tag("k", "é"),
            Record::node(-4, 0, 0),
            Record::way(-1, [7, -8]).version(2).tag("k", "").tag("", "v"),
            Record::way(i64::MIN, []),
            Record::relation(i64::MAX, [(ElementKind::Way, 5, "k"), (ElementKind::Node, -1, "")]),
            Record::relation(2, []),
        ];
        for record in &records {
            overlay.push(record).expect("room");
        }
        for kind in KINDS {
            overlay.delete(kind, 1, Some(4)).expect("room");
        }
        let (mut words, mut staged) = (Box::new([0; 19]), Box::new([0; STAGED]));
        let mut reader = Reader::fresh(&mut *words, &mut *staged);
        for line in [
            "open\tosmChange\n",
            "open\tmodify\n",
            "open\tway\tid=-1\tuser=ß\n",
            "empty\tnd\tref=7\n",
            "empty\ttag\tk=k\tv=é\n",
        ] {
            reader.event(&mut overlay, line).expect("taken");
        }
        Self { storage: overlay.into_storage(), words, staged }
    }

    /// Every lent word: tables, spans, counters and sizes, the reader's.
    fn all_words(&mut self) -> Vec<&mut u64> {
        let blocks = self.storage.lent();
        blocks.words.iter_mut().chain(blocks.counters).chain(self.words.iter_mut()).collect()
    }

    /// Every lent byte: arenas, string bytes, of the staged ones the used and a few more.
    fn all_bytes(&mut self) -> Vec<&mut u8> {
        self.storage.bytes.iter_mut().chain(self.staged.iter_mut().take(40)).collect()
    }

    /// Every call on what is lent, each on it as it is.
    fn every_call(&self, tally: &mut Tally) {
        let sound = self.reads(tally) == 0;
        let mut numbers = Vec::new();
        let mut change = |call: &dyn Fn(&mut Overlay) -> Result<(), Refusal>| {
            let mut overlay = Overlay::kept(self.storage.clone());
            let number = tally.count(&call(&mut overlay));
            assert!(number == 0 || overlay.into_storage() == self.storage, "{number} changed something");
            numbers.push(number);
        };
        change(&|overlay| overlay.allow_version_regression(true));
        for text in ["k", "new", "ß", "\u{1}"] {
            change(&|overlay| overlay.intern(text).map(drop));
        }
        for texts in [&[][..], &["", "new"], &["\u{1}", "k"]] {
            change(&|overlay| overlay.intern_texts(texts).map(drop));
        }
        for kind in KINDS {
            change(&|overlay| overlay.delete(kind, 5, Some(9)));
            change(&|overlay| overlay.delete(kind, -1, None));
            for (handle, id) in [(0, 5), (2, 6), (9, 7)] {
                change(&|overlay| overlay.push(&with_handles(kind, id, Handle(handle))));
            }
        }
        assert!(numbers.iter().all(|number| (*number == 22) != sound), "{sound} {numbers:?}");
        self.reader_calls(tally, sound);
        self.set_up(tally);
    }

    /// Set-up takes blocks of its sizes, whatever they hold; in others it is refused 1 and changes nothing.
    fn set_up(&self, tally: &mut Tally) {
        let mut storage = self.storage.clone();
        let empty =
            Overlay::set_up(&mut storage, &SMALL).and_then(|overlay| Ok((overlay.is_empty()?, overlay.sizes()?)));
        let number = tally.count(&empty);
        if (storage.words.len(), storage.bytes.len()) == (SMALL.words(), SMALL.bytes()) {
            assert_eq!(empty, Ok((true, SMALL)));
        } else {
            assert!(number == 1 && storage == self.storage);
        }
    }

    /// Every reading call. All of them see what the test of soundness says.
    fn reads(&self, tally: &mut Tally) -> u32 {
        let overlay = Overlay::kept(self.storage.clone());
        let sound = tally.count(&overlay.is_sound());
        let see = |number: u32| assert!(number == sound || (number != 22 && sound == 0), "{number} for {sound}");
        see(tally.count(&overlay.is_empty()));
        see(tally.count(&overlay.used()));
        see(tally.count(&overlay.sizes()));
        for kind in KINDS {
            see(tally.count(&overlay.live_count(kind)));
            see(tally.count(&overlay.deleted_count(kind)));
            see(tally.count(&overlay.live_ids(kind)));
            see(tally.count(&overlay.deleted_ids(kind)));
            see(tally.count(&overlay.records(kind)));
            see(tally.count(&overlay.live_id(kind, 1)));
            see(tally.count(&overlay.deleted_id(kind, 1)));
            see(tally.count(&overlay.record(kind, 0)));
            for id in [5, -1, 1] {
                see(tally.count(&overlay.get(kind, id)));
                see(tally.count(&overlay.has(kind, id)));
                see(tally.count(&overlay.is_deleted(kind, id)));
                see(tally.count(&overlay.known_version(kind, id)));
            }
        }
        for handle in [0, 1, 5, u32::MAX] {
            see(tally.count(&overlay.text(Handle(handle))));
        }
        let mut out = [b'.'; 1_000];
        see(tally.count(&overlay.listing_into(&mut out)));
        sound
    }

    /// Events and the end. An event that is refused changes its stop mark alone, and one that is refused 22 nothing.
    fn reader_calls(&self, tally: &mut Tally, sound: bool) {
        for line in [
            "close\n",
            "empty\ttag\tk=new\tv=yes\n",
            "empty\tnd\tref=1\n",
            "open\tdelete\n",
            "empty\tway\tid=5\n",
            "close",
            "",
        ] {
            let (mut lent, mut overlay) = (self.clone(), Overlay::kept(self.storage.clone()));
            let mut reader = Reader::kept(&mut *lent.words, &mut *lent.staged);
            let number = tally.count(&reader.event(&mut overlay, line));
            lent.storage = overlay.into_storage();
            assert!(sound || number == 22);
            if number != 0 && number != 22 {
                lent.words[16..].copy_from_slice(&self.words[16..]);
            }
            assert!(number == 0 || lent == *self, "{number} changed something");
        }
        let long = format!("other\n{}", "x".repeat(16_385));
        for run in ["", "close", "other\nclose\nempty\tway\tid=5\nclo", "empty\tnd\tref=1\nbad\nclose\n", &long] {
            self.run(tally, run);
        }
        let reader = Reader::kept(self.words.clone(), self.staged.clone());
        let number = tally.count(&reader.end(&Overlay::kept(self.storage.clone())));
        assert!(sound || number == 22);
    }

    /// A run answers 22 or its reader's stop as the end does, whatever it holds; else it leaves and answers what its lines do one by one, and what is
    /// left of it where that is too long for a line.
    fn run(&self, tally: &mut Tally, run: &str) {
        let (mut at_once, mut in_turn) = (self.clone(), self.clone());
        let mut overlay = Overlay::kept(&mut at_once.storage);
        let mut reader = Reader::kept(&mut *at_once.words, &mut *at_once.staged);
        let answer = reader.events(&mut overlay, run);
        tally.count(&answer);
        let mut overlay = Overlay::kept(&mut in_turn.storage);
        let mut reader = Reader::kept(&mut *in_turn.words, &mut *in_turn.staged);
        let first = reader.end(&overlay).or_else(|refusal| if refusal.number() == 18 { Ok(()) } else { Err(refusal) });
        let is_event = |line: &&str| line.ends_with('\n') || line.len() > 16_384;
        let lines: Vec<&str> = run.split_inclusive('\n').filter(is_event).collect();
        let each = first.and_then(|()| lines.iter().try_for_each(|line| reader.event(&mut overlay, line)));
        assert!(at_once == in_turn);
        assert!(answer == each.map(|()| lines.concat().len()));
    }
}

/// A record whose one name is this handle.
fn with_handles(kind: ElementKind, id: i64, handle: Handle) -> Record<'static, Handle> {
    let body = match kind {
        ElementKind::Node => Body::Node { lat: 1, lon: -1 },
        ElementKind::Way => Body::Way { refs: vec![1, 2] },
        ElementKind::Relation => Body::Relation { members: vec![Member { kind, id: 1, role: handle }] },
    };
    Record { id, body, metadata: None, tags: vec![(handle, "v")] }
}

/// Every lent byte, those of words too, to several values.
#[test]
fn byte_by_byte() {
    let (mut lent, mut tally) = (Lent::small(), Tally::default());
    lent.every_call(&mut tally);
    let values = |old: u8| [old ^ 1, old ^ 4, old ^ 128, old.wrapping_add(1), old.wrapping_sub(1), 0, 255];
    for n in 0..lent.all_bytes().len() {
        let old = *lent.all_bytes()[n];
        for value in values(old) {
            *lent.all_bytes()[n] = value;
            lent.every_call(&mut tally);
        }
        *lent.all_bytes()[n] = old;
    }
    for n in 0..lent.all_words().len() {
        let old = *lent.all_words()[n];
        for place in 0..8 {
            for value in values(old.to_le_bytes()[place]) {
                let mut bytes = old.to_le_bytes();
                bytes[place] = value;
                *lent.all_words()[n] = u64::from_le_bytes(bytes);
                lent.every_call(&mut tally);
            }
        }
        *lent.all_words()[n] = old;
    }
    tally.print("byte by byte");
}

/// Every two words, each to a neighbour of what it was or to the other one; the two exchanged.
#[test]
fn in_pairs() {
    let (base, mut tally) = (Lent::small(), Tally::default());
    let mut lent = base.clone();
    let count = lent.all_words().len();
    for (a, b) in (0..count).flat_map(|a| (0..a).map(move |b| (a, b))) {
        let mut words = lent.all_words();
        let (old_a, old_b) = (*words[a], *words[b]);
        for (new_a, new_b) in
            [(old_b, old_a), (old_a.wrapping_add(1), old_b.wrapping_sub(1)), (old_b, old_b.wrapping_add(1))]
        {
            (*words[a], *words[b]) = (new_a, new_b);
            lent.every_call(&mut tally);
            words = lent.all_words();
        }
        (*words[a], *words[b]) = (old_a, old_b);
    }
    tally.print("in pairs");
}

/// Several words and bytes at random; storage and readers of nothing but random words and bytes; blocks of any lengths, and of those that the
/// sizes behind the counters then take.
#[test]
fn at_random() {
    let (base, mut tally, mut random) = (Lent::small(), Tally::default(), Random(1));
    for round in 0..6_000 {
        let mut lent = base.clone();
        for _ in 0..1 + random.below(4) {
            let mut words = lent.all_words();
            let at = random.below(words.len());
            *words[at] = random.word();
            let mut bytes = lent.all_bytes();
            let at = random.below(bytes.len());
            *bytes[at] = random.word() as u8;
        }
        if round % 3 == 0 {
            lent.all_words().into_iter().for_each(|word| *word = random.word());
            lent.all_bytes().into_iter().for_each(|byte| *byte = random.word() as u8);
        }
        let storage = &mut lent.storage;
        if round % 5 == 0 {
            storage.words.resize(random.below(90), 7);
            storage.bytes.resize(random.below(900), 7);
        }
        if round % 10 < 3 {
            let sizes = &mut storage.counters[9..];
            sizes[random.below(8)] = 1 + random.below(300) as u64;
            sizes[random.below(8)] = random.below(5) as u64;
            fit(storage);
        }
        lent.every_call(&mut tally);
    }
    tally.print("at random");
}

/// Makes the blocks as long as the sizes behind the counters take, where these are small.
fn fit(storage: &mut Owned) {
    let sizes = &storage.counters[9..];
    if sizes.iter().all(|size| *size < 1_000) {
        let sum = |sizes: &[u64]| sizes.iter().sum::<u64>() as usize;
        let (words, bytes) = (3 * sum(&sizes[..3]) + 2 * sum(&sizes[6..7]), sum(&sizes[3..6]) + sum(&sizes[7..]));
        storage.words.resize(words, 7);
        storage.bytes.resize(bytes, 7);
    }
}

/// Blocks that are lent longer or shorter than at set-up are 22, and at set-up 1; with all that was lent they are an overlay again.
#[test]
fn lent_longer_and_shorter() {
    let (base, mut tally) = (Lent::small(), Tally::default());
    let (words, bytes) = (SMALL.words(), SMALL.bytes());
    for (words, bytes) in [
        (words + 1, bytes),
        (words - 1, bytes),
        (words, bytes + 1),
        (words, bytes - 1),
        (words + 1, bytes - 1),
        (words + 3, bytes),
        (words, bytes + 260),
        (0, bytes),
        (words, 0),
        (0, 0),
    ] {
        let mut lent = base.clone();
        lent.storage.words.resize(words, 0);
        lent.storage.bytes.resize(bytes, 0);
        assert_eq!(lent.reads(&mut tally), 22);
        lent.every_call(&mut tally);
    }
    assert_eq!(base.reads(&mut tally), 0);
    tally.print("lent longer and shorter");
}

/// Storage that hands out other blocks than before from some borrowing on.
struct Fickle<'a> {
    first: &'a mut Owned,
    then: &'a mut Owned,
    /// How often it hands out the first.
    left: Cell<usize>,
}

impl Fickle<'_> {
    /// Whether this borrowing is one of the first.
    fn is_first(&self) -> bool {
        self.left.replace(self.left.get().saturating_sub(1)) > 0
    }
}

impl Storage for Fickle<'_> {
    fn shared(&self) -> Shared<'_> {
        if self.is_first() { self.first.shared() } else { self.then.shared() }
    }

    fn lent(&mut self) -> torvaskin::Lent<'_> {
        if self.is_first() { self.first.lent() } else { self.then.lent() }
    }
}

type FickleCall = fn(&mut Overlay<Fickle<'_>>, ElementKind) -> Result<(), Refusal>;

/// Blocks and sizes that change between a test and what is read by it: any answer, no panic.
#[test]
fn storage_that_changes() {
    let (base, mut tally) = (Lent::small(), Tally::default());
    let mut others = vec![base.storage.clone()];
    for n in 0..17 {
        for value in [0, 1, 2, 7, 300, 1 << 62, 1 << 63, u64::MAX / 3, u64::MAX] {
            let mut storage = base.storage.clone();
            storage.counters[n] = value;
            others.push(storage);
        }
    }
    for (words, bytes) in [(0, 0), (1, 1), (30, 100), (SMALL.words(), 0), (0, SMALL.bytes())] {
        let mut storage = base.storage.clone();
        storage.words.resize(words, 0);
        storage.bytes.resize(bytes, 0);
        others.push(storage);
    }
    let calls: [FickleCall; 10] = [
        |overlay, _| overlay.used().map(drop),
        |overlay, _| overlay.sizes().map(drop),
        |overlay, kind| overlay.records(kind).map(drop),
        |overlay, kind| overlay.record(kind, 0).map(drop),
        |overlay, kind| overlay.get(kind, [5, -1, i64::MAX][kind as usize]).map(drop),
        |overlay, kind| overlay.live_versions(kind).map(drop),
        |overlay, kind| overlay.text(Handle(kind as u32)).map(drop),
        |overlay, kind| overlay.push(&with_handles(kind, 6, Handle(1))),
        |overlay, kind| overlay.push(&Record::way(6, []).tag("new", ["k", "", "v"][kind as usize])),
        |overlay, _| overlay.listing(1_000).map(drop),
    ];
    for (other, left) in others.iter().flat_map(|other| (0..4).map(move |left| (other, left))) {
        for (call, kind) in calls.iter().flat_map(|call| KINDS.map(|kind| (call, kind))) {
            let (mut first, mut then) = (base.storage.clone(), other.clone());
            let storage = Fickle { first: &mut first, then: &mut then, left: Cell::new(left) };
            tally.count(&call(&mut Overlay::kept(storage), kind));
        }
    }
    tally.print("storage that changes");
}

/// The sizes of an overlay as numbers: ids and arenas of the three kinds, strings, string bytes.
fn of([a, b, c, d, e, f, strings, string_bytes]: [usize; 8]) -> Sizes {
    Sizes { ids: [a, b, c], arenas: [d, e, f], strings, string_bytes }
}

/// Sizes at their ends and past them, alone and with another that makes the sum come out, some of them only where it comes round: taken where
/// each is within its ends and the blocks are as long as they take, else refused 1 with nothing changed.
#[test]
fn sizes_at_their_ends() {
    let (base, mut tally) = (Lent::small(), Tally::default());
    let least = [1, 1, 1, 0, 0, 0, 1, 0];
    let most = [4_096, 4_096, 4_096, 1 << 20, 1 << 20, 1 << 20, 4_096, 1 << 16];
    let small = [4, 5, 3, 260, 250, 240, 6, 40];
    let ends = |n: usize| [0, 1, most[n], most[n] + 1, usize::MAX / 3 + 1, 1 << 63, small[n] ^ 1 << 63, usize::MAX];
    let cases = (0..64).flat_map(|pair| ends(pair / 8).map(|size| (pair / 8, pair % 8, size)));
    for (n, other, size) in cases {
        let mut numbers = small;
        numbers[other] = small[other].wrapping_add(small[n]).wrapping_sub(size);
        numbers[n] = size;
        let sizes = of(numbers);
        let within = (0..8).all(|n| (least[n]..=most[n]).contains(&numbers[n]));
        assert_eq!(tally.count(&Overlay::new(&sizes)), u32::from(!within), "{sizes:?}");
        let fits = within && (sizes.words(), sizes.bytes()) == (SMALL.words(), SMALL.bytes());
        let mut storage = base.storage.clone();
        assert_eq!(tally.count(&Overlay::set_up(&mut storage, &sizes)), u32::from(!fits), "{sizes:?}");
        assert!(fits || storage == base.storage);
    }
    tally.print("sizes at their ends");
}

/// Calls at random on one overlay, many of them refused: what is refused leaves the listing, what is pushed is read back, and the overlay stays
/// sound.
#[test]
fn sequences() {
    let (mut tally, mut random) = (Tally::default(), Random(2));
    let texts = ["", "name", "ref", "Straße", "a\tb\\", "\u{1}", "€🚚", "maxweight", "outer", "inner"];
    for round in 0..60 {
        let sizes =
            Sizes { ids: [4 + round; 3], arenas: [90 * round; 3], strings: 1 + round % 11, string_bytes: round };
        let mut overlay = Overlay::new(&sizes).expect("within limits");
        let mut readers = [Reader::new(), Reader::new()];
        let mut before = String::new();
        for _ in 0..300 {
            let (text, id) = (texts[random.below(texts.len())], random.below(12) as i64 - 6);
            let version = [None, Some(random.below(4) as i32)][random.below(2)];
            let number = match random.below(8) {
                0 => tally.count(&overlay.intern(text)),
                1 => tally.count(&overlay.delete(KINDS[random.below(3)], id, version)),
                2 => tally.count(&overlay.allow_version_regression(id < 0)),
                3..6 => {
                    let mut record = match random.below(3) {
                        0 => Record::node(id, random.word() as i32, 0),
                        1 => Record::way(id, vec![id; random.below(5) * random.below(600)]),
                        _ => Record::relation(id, [(KINDS[random.below(3)], id, text)]),
                    };
                    record.tags = vec![(text, texts[random.below(texts.len())]); random.below(4) * random.below(90)];
                    record.metadata = version.map(|_| Metadata { version, user: Some(text), ..Metadata::default() });
                    let number = tally.count(&overlay.push(&record));
                    assert!(number != 0 || overlay.get(record.kind(), id) == Ok(Some(record)));
                    number
                }
                turn => {
                    let lines = [
                        "close\n",
                        "open\tosmChange\n",
                        "open\tcreate\n",
                        "open\tway\tid=3\tversion=1\n",
                        "empty\tnd\tref=3\n",
                    ];
                    let reader = &mut readers[turn - 6];
                    let number = tally.count(&reader.event(&mut overlay, lines[random.below(lines.len())]));
                    if number != 0 && random.below(3) == 0 {
                        *reader = Reader::new();
                    }
                    number
                }
            };
            let listing = overlay.listing(1 << 20);
            tally.count(&listing);
            let listing = listing.expect("sound");
            assert!(number == 0 || listing == before, "{number} changed the listing");
            before = listing;
        }
        KINDS.into_iter().for_each(|kind| by_number(&overlay, kind));
    }
    tally.print("sequences");
}

/// Ids and records read all at once are those that are read by number.
fn by_number(overlay: &Overlay, kind: ElementKind) {
    let read = || {
        let (live, deleted) = (0..overlay.live_count(kind)?, 0..overlay.deleted_count(kind)?);
        let ids = live.clone().map(|n| overlay.live_id(kind, n)).collect::<Result<Vec<_>, _>>()?;
        let records = live.map(|n| overlay.record(kind, n)).collect::<Result<Vec<_>, _>>()?;
        let deleted = deleted.map(|n| overlay.deleted_id(kind, n)).collect::<Result<Vec<_>, _>>()?;
        Ok::<_, Refusal>((ids, records, deleted))
    };
    let all = || Ok::<_, Refusal>((overlay.live_ids(kind)?, overlay.records(kind)?, overlay.deleted_ids(kind)?));
    assert_eq!(read().expect("sound"), all().expect("sound"));
}

/// A push that is refused after its names were taken in leaves every lent byte, used or not, as it was.
#[test]
fn refused_pushes() {
    let mut tally = Tally::default();
    let full = Sizes { ids: [1; 3], arenas: [150; 3], strings: 7, string_bytes: 30 };
    let user = Metadata { user: Some("a user"), ..Metadata::default() };
    let way = |id| Record::way(id, [1]).metadata(user).tag("first", "v").tag("second", "w");
    let long = "v".repeat(200);
    for (fill, number) in
        [(0x5a, 0), (0x5a, 3), (0xff, 10), (0, 12), (0x5a, 13), (7, 13), (0xff, 14), (0x11, 15), (0x5a, 17)]
    {
        let storage = full.allocate().expect("within limits");
        let mut overlay = Overlay::set_up(storage, &full).expect("an empty overlay");
        overlay.push(&Record::way(5, []).version(4).tag("held", "")).expect("room");
        let mut storage = overlay.into_storage();
        // whatever lies behind what is in use
        storage.words[9 + 4..].fill(u64::from_le_bytes([fill; 8]));
        storage.bytes[150 + 57..300].fill(fill);
        storage.bytes[450 + 4..].fill(fill);
        let mut overlay = Overlay::kept(storage.clone());
        let pushed = match number {
            3 => overlay.push(&way(5).version(5).tag("\u{1}", "")),
            10 => overlay.push(&Record::node(1, 1_000_000_000, 0).metadata(user).tag("first", "")),
            12 => overlay.push(&way(5).version(3)),
            13 if fill == 7 => overlay.push(&way(5).version(5).tag("one that is longer than there is room", "")),
            13 => overlay.push(&way(5).version(5).tag("a", "").tag("b", "").tag("c", "").tag("d", "")),
            14 => overlay.push(&way(6)),
            15 => overlay.push(&way(5).version(5).tag("a", &long)),
            17 => overlay.push(&Record {
                id: 1,
                body: Body::Way { refs: vec![] },
                metadata: None,
                tags: vec![(Handle(9), "v")],
            }),
            _ => overlay.push(&way(5).version(5)),
        };
        assert_eq!(tally.count(&pushed), number);
        assert!((overlay.into_storage() == storage) == (number != 0), "{number}");
    }
    tally.print("refused pushes");
}

/// Outputs of every length up to past the listing's.
#[test]
fn outputs() {
    let (overlay, mut tally) = (Overlay::kept(Lent::small().storage), Tally::default());
    let listing = overlay.listing(1_000).expect("it fits");
    for len in 0..listing.len() + 40 {
        let mut out = vec![b'.'; len];
        let number = tally.count(&overlay.listing_into(&mut out).map(str::len));
        let (fits, past) = (len >= listing.len(), listing.len().min(len));
        assert_eq!(number, if fits { 0 } else { 19 });
        assert!(out[..past] == if fits { listing.clone() } else { ".".repeat(past) }.as_bytes()[..]);
        assert!(out[past..].iter().all(|byte| *byte == b'.'));
        assert_eq!(overlay.listing(len).ok(), fits.then(|| listing.clone()));
    }
    assert_eq!(overlay.listing(usize::MAX).ok(), Some(listing));
    tally.print("outputs");
}

/// The most that can be lent, filled to the last id, string and byte; then one more of each.
#[test]
fn largest() {
    let (mut overlay, mut tally) = (Overlay::new(&Sizes::MOST).expect("the most"), Tally::default());
    let name = |n: usize| if n < 4_095 { format!("{n:016}") } else { format!("{n:032}") };
    let mut handles = Vec::new();
    for n in 1..4_096 {
        handles.push(overlay.intern(&name(n)).expect("room"));
    }
    tally.0[0] += 4_095;
    assert_eq!(tally.count(&overlay.intern("new")), 13);
    // 4,096 ways of 256 bytes: 45, 19 refs, and a tag of 8 and 51
    let value = "v".repeat(51);
    let way = |id: i64, key| Record {
        id,
        body: Body::Way { refs: vec![id; 19] },
        metadata: None,
        tags: vec![(key, &*value)],
    };
    for id in 0..4_096 {
        assert_eq!(tally.count(&overlay.push(&way(id, handles[id as usize % 4_095]))), 0);
    }
    assert_eq!(tally.count(&overlay.push(&way(5, Handle(0)))), 15);
    assert_eq!(tally.count(&overlay.push(&way(-1, Handle(0)))), 14);
    for id in 0..4_096 {
        assert_eq!(tally.count(&overlay.delete(ElementKind::Relation, id, Some(1))), 0);
    }
    assert_eq!(tally.count(&overlay.delete(ElementKind::Relation, -1, None)), 14);
    assert_eq!(overlay.records(ElementKind::Way).expect("sound").len(), 4_096);
    assert_eq!(overlay.text(handles[4_094]).expect("held"), name(4_095));
    let listing = overlay.listing(16 << 20).expect("it fits");
    assert_eq!(listing.lines().count(), 8_192);
    tally.count(&overlay.listing(listing.len()));
    assert_eq!(tally.count(&overlay.listing(listing.len() - 1)), 19);
    let storage = overlay.into_storage();
    assert_eq!(storage.counters[..9], [0, 4_096, 4_096, 0, 1 << 20, 0, 4_096, 65_536, 0]);
    assert_eq!(storage.counters[9..], [4_096, 4_096, 4_096, 1 << 20, 1 << 20, 1 << 20, 4_096, 65_536]);
    tally.print("largest");
}
