//! Texts, lines and storage that somebody made to be slow.

use crate::least;
use std::hint::black_box;
use torvaskin::{Overlay, Owned, Reader, Sizes};

/// Storage of an empty overlay.
fn empty() -> Owned {
    Overlay::new(&Sizes::MOST).expect("within limits").into_storage()
}

/// The spans behind that of the empty text.
fn spans(lent: &mut Owned) -> impl Iterator<Item = &mut [u64; 2]> {
    let (spans, _) = lent.words[Sizes::MOST.words() - 2 * Sizes::MOST.strings..].as_chunks_mut();
    spans.iter_mut().skip(1)
}

/// The string bytes.
fn string_bytes(lent: &mut Owned) -> &mut [u8] {
    &mut lent.bytes[Sizes::MOST.bytes() - Sizes::MOST.string_bytes..]
}

/// Storage that holds these texts behind the empty one.
fn holding(texts: &[String]) -> Owned {
    let mut lent = empty();
    let mut used = 0;
    for (text, span) in texts.iter().zip(spans(&mut lent)) {
        *span = [used, text.len() as u64];
        used += text.len() as u64;
    }
    let all = texts.concat();
    string_bytes(&mut lent)[..all.len()].copy_from_slice(all.as_bytes());
    lent.counters[6] = texts.len() as u64 + 1;
    lent.counters[7] = used;
    lent
}

/// A number whose digits look random.
fn mixed(i: u64) -> u64 {
    i.wrapping_mul(0x9e37_79b9_7f4a_7c15).rotate_left(29).wrapping_mul(0xbf58_476d_1ce4_e5b9)
}

fn numbered(count: u64, text: impl Fn(u64) -> String) -> Vec<String> {
    (1..=count).map(text).collect()
}

/// Texts of `Aa` and `BB`, which many hashes by multiplication do not tell apart.
fn alike(count: u64) -> Vec<String> {
    numbered(count, |i| (0..12).map(|bit| if i >> bit & 1 == 0 { "Aa" } else { "BB" }).collect())
}

/// Texts that fall in one bucket of the chains in which a batch looks for them.
fn one_bucket(count: usize) -> Vec<String> {
    let bucket = |text: &str| {
        let hash = text.bytes().fold(0u64, |k, b| (k * 16_777_619 + u64::from(b)) % (1 << 32));
        hash * 2_654_435_761 % (1 << 32) >> 20
    };
    (0u64..).map(|i| format!("{i:x}")).filter(|text| bucket(text) == 0).take(count).collect()
}

fn soundness(name: &str, lent: Owned) {
    let overlay = Overlay::kept(lent);
    let took = least(1, || _ = black_box(overlay.is_sound()));
    println!("soundness of {name}\t{:.1} µs", took / 1_000.0);
}

/// Spans of 57,344 bytes that overlap, out of order. They differ, if at all, by where one letter stands near their ends.
fn overlapping(equal: bool) -> Owned {
    let mut lent = empty();
    string_bytes(&mut lent).fill(b'a');
    if !equal {
        string_bytes(&mut lent)[57_343] = b'b';
    }
    for (i, span) in (0..).zip(spans(&mut lent)) {
        *span = [i * 1_171 % 4_096, 57_344];
    }
    lent.counters[6] = 4_096;
    lent.counters[7] = 65_536;
    lent
}

/// The first line of a document, with attributes of these names as far as so many bytes hold them.
fn first_line(bytes: usize, name: impl Fn(usize) -> String) -> (String, usize) {
    let mut line = String::from("open\tosmChange");
    let mut count = 0;
    loop {
        let attribute = format!("\t{}=", name(count));
        if line.len() + attribute.len() > bytes {
            break;
        }
        line.push_str(&attribute);
        count += 1;
    }
    line.push('\n');
    (line, count)
}

fn lines() {
    let small = Sizes { ids: [1; 3], arenas: [0; 3], strings: 1, string_bytes: 0 };
    let mut overlay = Overlay::new(&small).expect("within limits");
    let different = |i: usize| if i < 26 { letter(i) } else { letter(i / 93) + &letter(i % 93) };
    let mut time = |name: &str, (line, count): (String, usize)| {
        let took = least(20, || (0..20).for_each(|_| _ = black_box(Reader::new().events(&mut overlay, &line))));
        println!("a line of {} bytes, {count} attributes, {name}\t{:.1} µs", line.len() - 1, took / 1_000.0);
    };
    time("all different", first_line(16_384, different));
    time("of one byte, many equal", first_line(16_384, |i| letter(i % 26)));
    time("all different", first_line(200, different));
}

/// A letter, a digit or a sign that may stand in a name.
fn letter(i: usize) -> String {
    let signs = (b'!'..=b'~').filter(|b| *b != b'=' && *b != b'\\');
    let b = (b'a'..=b'z').chain(signs.filter(|b| !b.is_ascii_lowercase())).nth(i % 92).expect("a sign");
    char::from(b).to_string()
}

/// A document whose ways have 200 tags, with each key twice.
fn keys(name: &str, keys: &[String]) {
    let mut input = String::from("open\tosmChange\nopen\tcreate\n");
    let twice: Vec<&String> = keys.iter().chain(keys).collect();
    for (i, tags) in twice.chunks(200).enumerate() {
        input.push_str(&format!("open\tway\tid={}\tversion=1\n", i + 1));
        tags.iter().for_each(|key| input.push_str(&format!("empty\ttag\tk={key}\tv=1\n")));
        input.push_str("close\n");
    }
    input.push_str("close\nclose\n");
    let count = input.lines().count();
    let mut lent = Sizes::MOST.allocate().expect("within limits");
    let line = least(count, || {
        let mut overlay = Overlay::set_up(&mut lent, &Sizes::MOST).expect("set up");
        assert_eq!(Reader::new().events(&mut overlay, &input).expect("taken"), input.len());
    });
    println!("document of {count} lines, {} keys {name}: a line\t{line:.0} ns", keys.len());
}

pub fn hostile() {
    for count in [39, 639, 4_095] {
        let texts = numbered(count, |i| format!("{:x}", mixed(i)));
        soundness(&format!("{} strings, each at random", count + 1), holding(&texts));
    }
    soundness("2,731 texts made of Aa and BB", holding(&alike(2_730)));
    soundness(
        "4,095 texts of 16 bytes, the first 12 the same",
        holding(&numbered(4_095, |i| format!("addr:street:{i:04}"))),
    );
    soundness("3,333 names that begin alike", holding(&numbered(3_333, |i| format!("Karl-Liebknecht{i:04}"))));
    soundness("4,095 spans that overlap, all different", overlapping(false));
    soundness("4,095 spans that overlap, all equal", overlapping(true));
    lines();
    keys("at random", &numbered(4_095, |i| format!("{:x}", mixed(i))));
    keys("made of Aa and BB", &alike(2_730));
    keys("in one bucket", &one_bucket(4_095));
}
