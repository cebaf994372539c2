//! Many texts taken in by one call: the same handles and the same storage as one by one, up to the first that is refused; lengths that do not
//! fit; and a push by texts, which is the push by their handles.

use torvaskin::entry;
use torvaskin::{ElementKind, Handle, Metadata, Overlay, Owned, Record, Refusal, Sizes, Storage};

/// Six strings, the empty one among them, and 40 bytes.
const SMALL: Sizes = Sizes { ids: [4, 5, 3], arenas: [260, 250, 240], strings: 6, string_bytes: 40 };

/// What the same texts come to one by one: the handles up to the first refusal, that refusal, and the storage.
fn one_by_one(mut overlay: Overlay, texts: &[&str]) -> (Vec<u64>, Option<Refusal>, Owned) {
    let mut handles = Vec::new();
    for text in texts {
        match overlay.intern(text) {
            Ok(Handle(handle)) => handles.push(handle.into()),
            Err(refusal) => return (handles, Some(refusal), overlay.into_storage()),
        }
    }
    (handles, None, overlay.into_storage())
}

fn lengths(texts: &[&str]) -> Vec<usize> {
    texts.iter().map(|text| text.len()).collect()
}

/// A word that no handle is.
const OTHER: u64 = 0xa5a5;

#[test]
fn as_one_by_one() {
    let more = "x".repeat(41);
    let lists: [&[&str]; 9] = [
        &[],
        &[""],
        &["name", "", "maxweight", "name"],
        &["a", "b", "c", "d", "e"],
        &["a", "b", "c", "d", "e", "a", "f", "g"],
        &["a", "\u{1}", "b"],
        &["\u{ffff}"],
        &["a", &more, "b"],
        &["ß", "a\tb", "ß", "\u{1}", "c"],
    ];
    for held in [&[][..], &["name", "b"]] {
        let mut start = Overlay::new(&SMALL).expect("within limits");
        start.intern_texts(held).expect("room");
        for texts in lists {
            let (handles, refusal, storage) = one_by_one(start.clone(), texts);
            let mut overlay = start.clone();
            let answer = overlay.intern_texts(texts);
            assert_eq!(answer.as_ref().err(), refusal.as_ref(), "{texts:?}");
            if let Ok(all) = answer {
                assert_eq!(all.iter().map(|handle| u64::from(handle.0)).collect::<Vec<_>>(), handles, "{texts:?}");
            }
            assert!(overlay.into_storage() == storage, "{texts:?}");
            // the entry itself: so many were taken in, and the words past their handles are left
            let (mut lent, mut words) = (start.clone().into_storage(), vec![OTHER; texts.len() + 2]);
            let done = entry::intern_texts(lent.lent(), texts.concat().as_bytes(), &lengths(texts), &mut words);
            assert_eq!((done.number, done.taken), (refusal.map_or(0, |it| it.number()), handles.len()), "{texts:?}");
            assert_eq!(words[..done.taken], handles, "{texts:?}");
            assert!(words[done.taken..].iter().all(|word| *word == OTHER), "{texts:?}");
            assert!(lent == storage, "{texts:?}");
        }
    }
}

#[test]
fn lengths_that_do_not_fit() {
    let storage = Overlay::new(&SMALL).expect("within limits").into_storage();
    let refused = |lengths: &[usize], room: usize| {
        let (mut lent, mut words) = (storage.clone(), vec![OTHER; room]);
        let done = entry::intern_texts(lent.lent(), b"namekey", lengths, &mut words);
        assert!(done.number == 0 || (lent == storage && done.taken == 0 && words.iter().all(|word| *word == OTHER)));
        done.number
    };
    assert_eq!(refused(&[4, 3], 2), 0);
    for wrong in [&[][..], &[4], &[4, 4], &[3, 3], &[8], &[4, 3, 1], &[usize::MAX, 8], &[usize::MAX, usize::MAX, 9]] {
        // 17 comes before 19
        assert_eq!((refused(wrong, 9), refused(wrong, 0)), (17, 17), "{wrong:?}");
    }
    assert_eq!((refused(&[4, 3], 1), refused(&[4, 0, 3], 2), refused(&[7], 0)), (19, 19, 19));
    // 22 comes before both
    let mut unsound = storage.clone();
    unsound.counters[6] = 7;
    let kept = unsound.clone();
    for lengths in [&[4, 3][..], &[9], &[], &[1; 7]] {
        let mut words = [OTHER; 2];
        let done = entry::intern_texts(unsound.lent(), b"namekey", lengths, &mut words);
        assert_eq!((done.number, done.taken, words), (22, 0, [OTHER; 2]));
        assert!(unsound == kept);
    }
}

/// 4,095 texts of 16 bytes, some of them twice: all strings that there may be.
#[test]
fn most() {
    let names: Vec<_> = (0..4_500_usize).map(|n| format!("{:012}-key", (n * 8) % 4_095)).collect();
    let texts: Vec<_> = names.iter().map(String::as_str).collect();
    let sizes = Sizes { ids: [1; 3], arenas: [0; 3], ..Sizes::MOST };
    let mut overlay = Overlay::new(&sizes).expect("within limits");
    let (handles, refusal, storage) = one_by_one(overlay.clone(), &texts);
    assert_eq!((handles.len(), refusal), (4_500, None));
    let all = overlay.intern_texts(&texts).expect("room");
    assert_eq!(all.iter().map(|handle| u64::from(handle.0)).collect::<Vec<_>>(), handles);
    assert_eq!(overlay.intern_texts(&["name"]).unwrap_err().number(), 13);
    assert!(overlay.into_storage() == storage);
}

/// A push by texts takes them in as one by one (its user, the roles, the keys), and is the push by their handles.
#[test]
fn pushes() {
    let metadata = Metadata { version: Some(3), uid: 258, user: Some("ada"), ..Metadata::default() };
    let records = [
        Record::node(5, 1, 2).tag("name", "A").tag("name", "B"),
        Record::way(6, [7, 8]).metadata(metadata).tag("name", "A").tag("ada", "B").tag("", "C"),
        Record::relation(9, [(ElementKind::Way, 6, "via"), (ElementKind::Node, 5, ""), (ElementKind::Way, 6, "name")])
            .metadata(metadata)
            .tag("type", "restriction"),
        Record::way(7, [1]),
    ];
    let mut overlay = Overlay::new(&Sizes::ROADLIST).expect("within limits");
    let mut one = overlay.clone();
    for record in &records {
        overlay.push(record).expect("room");
        let user = record.metadata.and_then(|metadata| metadata.user);
        let roles = record.members().iter().map(|member| member.role);
        for text in user.into_iter().chain(roles).chain(record.tags.iter().map(|tag| tag.0)) {
            one.intern(text).expect("room");
        }
        one.push(record).expect("room");
        assert_eq!(overlay.get(record.kind(), record.id).expect("sound").as_ref(), Some(record));
    }
    assert!(overlay.into_storage() == one.into_storage());
}
