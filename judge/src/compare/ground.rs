//! Key order, version floors, integers, stamps and the text check.

use super::{Compared, Tally};
use crate::ground as judge;
use crate::random::Random;

/// No version, as a word.
pub const NONE: u64 = 1 << 32;

/// The port's calls of the first layers, in the forms of its C entries.
pub trait Ground {
    fn osm_id_key(&self, id: i64) -> (u8, u64);
    fn osm_id_cmp(&self, a: i64, b: i64) -> u8;
    fn blob_osm_first_key(&self, min: i64, max: i64) -> (u8, u64);
    fn blob_osm_last_key(&self, min: i64, max: i64) -> (u8, u64);
    fn osm_id_rank(&self, id: i64) -> u64;
    fn version_admit(&self, floor: u64, claim: u64) -> (u32, i32);
    fn version_raise(&self, floor: u64, claim: u64) -> u64;
    fn read_i64(&self, s: &[u8]) -> (u32, i64);
    fn read_i32(&self, s: &[u8]) -> (u32, i64);
    fn stamp(&self, s: &[u8]) -> (u32, i64);
    fn is_text(&self, s: &[u8]) -> u8;
}

/// The judge's own answers in the port's forms.
pub struct Judge;

pub fn version(word: u64) -> Option<i32> {
    u32::try_from(word).ok().map(u32::cast_signed)
}

pub fn word(version: Option<i32>) -> u64 {
    version.map_or(NONE, |v| u64::from(v.cast_unsigned()))
}

impl Ground for Judge {
    fn osm_id_key(&self, id: i64) -> (u8, u64) {
        judge::osm_id_key(id)
    }

    fn osm_id_cmp(&self, a: i64, b: i64) -> u8 {
        judge::osm_id_cmp(a, b)
    }

    fn blob_osm_first_key(&self, min: i64, max: i64) -> (u8, u64) {
        judge::blob_osm_first_key(min, max)
    }

    fn blob_osm_last_key(&self, min: i64, max: i64) -> (u8, u64) {
        judge::blob_osm_last_key(min, max)
    }

    /// The key as one number: 0 for 0, m for -m, 2^63 + p for p.
    fn osm_id_rank(&self, id: i64) -> u64 {
        match judge::osm_id_key(id) {
            (0, _) => 0,
            (1, magnitude) => magnitude,
            (_, magnitude) => (1 << 63) + magnitude,
        }
    }

    fn version_admit(&self, floor: u64, claim: u64) -> (u32, i32) {
        judge::admit(version(floor), version(claim)).map_or((0, 0), |held| (12, held))
    }

    fn version_raise(&self, floor: u64, claim: u64) -> u64 {
        word(judge::raise(version(floor), version(claim)))
    }

    fn read_i64(&self, s: &[u8]) -> (u32, i64) {
        judge::read_i64(s).map_or((8, 0), |v| (0, v))
    }

    fn read_i32(&self, s: &[u8]) -> (u32, i64) {
        judge::read_i32(s).map_or((8, 0), |v| (0, i64::from(v)))
    }

    fn stamp(&self, s: &[u8]) -> (u32, i64) {
        judge::stamp(s).map_or((9, 0), |v| (0, v))
    }

    fn is_text(&self, s: &[u8]) -> u8 {
        u8::from(judge::is_text(s))
    }
}

/// One call on both sides.
macro_rules! compare {
    ($tally:expr, $port:expr, $call:ident($($arg:expr),*)) => {
        $tally.same(
            || format!(concat!(stringify!($call), " {:?}"), ($($arg,)*)),
            Judge.$call($($arg),*),
            $port.$call($($arg),*),
        )
    };
}

/// Ids around 0, the powers of two and the ends of the width.
pub fn edge_ids() -> Vec<i64> {
    let mut ids: Vec<i64> = (-40..=40).collect();
    for power in 0..64 {
        for near in -2..=2i128 {
            let n = (1i128 << power) + near;
            ids.extend(i64::try_from(n).ok());
            ids.extend(i64::try_from(-n).ok());
        }
    }
    ids.extend([100, -100, 12_345_678_901, -12_345_678_901]);
    ids.sort_unstable();
    ids.dedup();
    ids
}

pub fn ids(port: &dyn Ground, seed: u64, rounds: u64) -> Compared {
    let mut tally = Tally::new();
    let edges = edge_ids();
    for &id in &edges {
        one_id(&mut tally, port, id)?;
    }
    for &a in &edges {
        for &b in &edges {
            two_ids(&mut tally, port, a, b)?;
        }
    }
    let mut random = Random::new(seed);
    for _ in 0..200_000 * rounds {
        let (a, b) = (random.id(), random.id());
        one_id(&mut tally, port, a)?;
        two_ids(&mut tally, port, a, b)?;
    }
    tally.done()
}

fn one_id(tally: &mut Tally, port: &dyn Ground, id: i64) -> Result<(), String> {
    compare!(tally, port, osm_id_key(id))?;
    compare!(tally, port, osm_id_rank(id))
}

/// Both ways round: the ends of a range may come the wrong way round.
fn two_ids(tally: &mut Tally, port: &dyn Ground, a: i64, b: i64) -> Result<(), String> {
    compare!(tally, port, osm_id_cmp(a, b))?;
    compare!(tally, port, blob_osm_first_key(a, b))?;
    compare!(tally, port, blob_osm_last_key(a, b))
}

/// Version words: edges of the width, and several words for none.
pub fn edge_versions() -> Vec<u64> {
    let mut words: Vec<u64> = vec![NONE, NONE + 1, NONE + 5, 1 << 33, 1 << 63, u64::MAX];
    for v in (-3..=3).chain([i32::MAX - 1, i32::MAX, i32::MIN, i32::MIN + 1, 12, 1_000_000]) {
        words.push(word(Some(v)));
    }
    words
}

pub fn versions(port: &dyn Ground, seed: u64, rounds: u64) -> Compared {
    let mut tally = Tally::new();
    let edges = edge_versions();
    for &floor in &edges {
        for &claim in &edges {
            two_versions(&mut tally, port, floor, claim)?;
        }
    }
    let mut random = Random::new(seed);
    for _ in 0..100_000 * rounds {
        let mut any = || match random.below(4) {
            0 => random.draw(),
            1 => random.draw() >> 32,
            _ => word(Some(random.below(9) as i32 - 4)),
        };
        let (floor, claim) = (any(), any());
        two_versions(&mut tally, port, floor, claim)?;
    }
    tally.done()
}

/// A floor that is none and stays none comes back as exactly 2^32.
fn two_versions(tally: &mut Tally, port: &dyn Ground, floor: u64, claim: u64) -> Result<(), String> {
    compare!(tally, port, version_admit(floor, claim))?;
    compare!(tally, port, version_raise(floor, claim))
}

fn one_integer(tally: &mut Tally, port: &dyn Ground, s: &[u8]) -> Result<(), String> {
    compare!(tally, port, read_i64(s))?;
    compare!(tally, port, read_i32(s))
}

/// All strings over `symbols` up to a length, the empty one too.
pub fn strings_over(
    symbols: &[u8],
    longest: usize,
    each: &mut dyn FnMut(&[u8]) -> Result<(), String>,
) -> Result<(), String> {
    for len in 0..=longest {
        let mut places = vec![0usize; len];
        'strings: loop {
            let s: Vec<u8> = places.iter().map(|&p| symbols[p]).collect();
            each(&s)?;
            for p in &mut places {
                *p += 1;
                if *p < symbols.len() {
                    continue 'strings;
                }
                *p = 0;
            }
            break;
        }
    }
    Ok(())
}

/// Numbers at which a width ends, or at which a careless reader wraps.
pub fn edge_numbers() -> Vec<i128> {
    let mut numbers = Vec::new();
    for power in [7, 8, 15, 16, 31, 32, 33, 63, 64, 65, 96] {
        for near in -3..=3 {
            numbers.push((1i128 << power) + near);
            numbers.push(-(1i128 << power) + near);
        }
    }
    for digits in 0..=38u32 {
        let ten = 10i128.pow(digits);
        numbers.extend([ten, ten - 1, -ten, 1 - ten, ten / 2, 9 * (ten / 10)]);
    }
    // Ten times the limits and beyond: the last digit must not be lost.
    for limit in [i128::from(i32::MAX), i128::from(i64::MAX)] {
        for last in 0..=9 {
            numbers.push(limit / 10 * 10 + last);
            numbers.push(-(limit / 10 * 10 + last));
            numbers.push(limit * 10 + last);
            numbers.push(-(limit * 10 + last));
        }
    }
    numbers.sort_unstable();
    numbers.dedup();
    numbers
}

/// The edge numbers as text: with signs, leading zeros, and a byte too many.
pub fn edge_integers() -> Vec<Vec<u8>> {
    let mut texts = Vec::new();
    for n in edge_numbers() {
        let digits = n.unsigned_abs().to_string();
        let sign = if n < 0 { "-" } else { "" };
        for zeros in [0, 1, 2, 9, 30, 300] {
            texts.push(format!("{sign}{}{digits}", "0".repeat(zeros)));
        }
        texts.push(format!("+{digits}"));
        texts.push(format!("+-{digits}"));
        texts.push(format!("-+{digits}"));
        texts.push(format!("--{digits}"));
        for extra in [" ", "\n", ".", "e", "_", "\0", "٣", "０"] {
            texts.push(format!("{sign}{digits}{extra}"));
            texts.push(format!("{extra}{sign}{digits}"));
        }
    }
    texts.push("0".repeat(16_000));
    texts.push("-".to_owned() + &"0".repeat(16_000) + "1");
    texts.push("9".repeat(16_000));
    texts.into_iter().map(String::into_bytes).collect()
}

pub fn integers(port: &dyn Ground, seed: u64, rounds: u64) -> Compared {
    let mut tally = Tally::new();
    strings_over(b"+-0179 a", 6, &mut |s| one_integer(&mut tally, port, s))?;
    strings_over(b"+-05/:\0\xb9", 4, &mut |s| one_integer(&mut tally, port, s))?;
    let all: Vec<u8> = (0..=255).collect();
    strings_over(&all, 2, &mut |s| one_integer(&mut tally, port, s))?;
    for s in edge_integers() {
        one_integer(&mut tally, port, &s)?;
        // Each place damaged, in the shorter ones.
        for at in 0..s.len().min(45) {
            let mut damaged = s.clone();
            for byte in *b"/:-+0 9" {
                damaged[at] = byte;
                one_integer(&mut tally, port, &damaged)?;
            }
        }
    }
    let mut random = Random::new(seed);
    for _ in 0..300_000 * rounds {
        let s = random_integer(&mut random);
        one_integer(&mut tally, port, &s)?;
    }
    tally.done()
}

pub fn random_integer(random: &mut Random) -> Vec<u8> {
    let mut s = Vec::new();
    match random.below(4) {
        0 => s.push(b'-'),
        1 => s.push(b'+'),
        _ => {}
    }
    if random.once_in(4) {
        s.resize(s.len() + random.below(40), b'0');
    }
    let longest = *random.pick(&[3, 11, 12, 20, 21, 40]);
    for _ in 0..random.below(longest) {
        s.push(b'0' + random.below(10) as u8);
    }
    if random.once_in(5) && !s.is_empty() {
        let at = random.below(s.len());
        s[at] = random.draw() as u8;
    }
    s
}

fn one_stamp(tally: &mut Tally, port: &dyn Ground, s: &[u8]) -> Result<(), String> {
    compare!(tally, port, stamp(s))
}

/// Two-character fields, of digits and with signs.
fn two() -> Vec<String> {
    let mut out: Vec<String> = (0..=99).map(|n| format!("{n:02}")).collect();
    for n in 0..=9 {
        out.push(format!("+{n}"));
        out.push(format!("-{n}"));
    }
    out.extend([" 1", "1 ", "--", "++", "+-", "a1", "1a", "0x", "1.", "é"].map(str::to_owned));
    out
}

/// Timestamps that are taken, and some that are not: past a field's end, with signs, in another form.
pub const EDGE_STAMPS: [&str; 23] = [
    "1970-01-01T00:00:00Z",
    "2000-02-29T00:00:00Z",
    "1969-12-31T23:59:59Z",
    "2024-01-01T-1:00:00Z",
    "9999-12-31T23:59:59Z",
    "0000-01-01T00:00:00Z",
    "-999-+9--9T-9:-9:-9Z",
    "1900-02-29T00:00:00Z",
    "2024-01-01T00:00:60Z",
    "2016-12-31T23:59:60Z",
    "2024-01-01t00:00:00Z",
    "2024-01-01T00:00:00z",
    "2024-01-01 00:00:00Z",
    "2024-01-01T00:00:00+00:00",
    "2024-01-01T00:00:00.0Z",
    "2024-01-01T24:00:00Z",
    "2024-01-00T00:00:00Z",
    "2024-00-01T00:00:00Z",
    "2024-13-01T00:00:00Z",
    "2024-01--1T00:00:00Z",
    "2024-01-+0T00:00:00Z",
    "2024-01--0T00:00:00Z",
    "２０２４-01-1T00:00Z",
];

pub fn stamps(port: &dyn Ground, seed: u64, rounds: u64) -> Compared {
    let mut tally = Tally::new();
    for edge in EDGE_STAMPS.map(str::as_bytes) {
        one_stamp(&mut tally, port, edge)?;
        for len in 0..=edge.len() {
            one_stamp(&mut tally, port, &edge[..len])?;
            one_stamp(&mut tally, port, &edge[len..])?;
        }
        one_stamp(&mut tally, port, &[edge, b"Z"].concat())?;
        one_stamp(&mut tally, port, &[edge, b"\0"].concat())?;
        for at in 0..edge.len() {
            let mut damaged = edge.to_vec();
            for byte in 0..=255 {
                damaged[at] = byte;
                one_stamp(&mut tally, port, &damaged)?;
            }
        }
    }
    let mut each =
        |year: &str, date: &str, time: &str| one_stamp(&mut tally, port, format!("{year}-{date}T{time}Z").as_bytes());
    // Every year, with and without signs, at its February and its ends.
    let mut years: Vec<String> = (0..=9_999).map(|y| format!("{y:04}")).collect();
    for y in 0..=999 {
        years.push(format!("-{y:03}"));
        years.push(format!("+{y:03}"));
    }
    for year in &years {
        for date in ["01-01", "02-28", "02-29", "02-30", "03-01", "12-31"] {
            each(year, date, "00:00:00")?;
        }
    }
    // Every month and day, in leap and other years.
    let two = two();
    for year in [
        "2023", "2024", "1900", "2000", "2100", "0000", "0004", "0100", "-001", "-004", "-100", "-400", "+004", "+100",
        "-000",
    ] {
        for month in &two {
            for day in &two {
                each(year, &format!("{month}-{day}"), "12:34:56")?;
            }
        }
    }
    // Every hour, minute and second, two at a time.
    for a in &two {
        for b in &two {
            for time in [format!("{a}:{b}:07"), format!("{a}:08:{b}"), format!("09:{a}:{b}")] {
                each("2024", "02-29", &time)?;
            }
        }
    }
    let mut random = Random::new(seed);
    for _ in 0..200_000 * rounds {
        let s = random_stamp(&mut random);
        one_stamp(&mut tally, port, &s)?;
    }
    tally.done()
}

pub fn random_stamp(random: &mut Random) -> Vec<u8> {
    // At times one past the end of a field.
    let past = usize::from(random.once_in(2));
    let mut s = format!(
        "{:04}-{:02}-{:02}T{:02}:{:02}:{:02}Z",
        random.below(10_000),
        1 + random.below(12 + past),
        1 + random.below(29 + 3 * past),
        random.below(24 + past),
        random.below(60 + past),
        random.below(60 + past)
    )
    .into_bytes();
    for _ in 0..random.below(3) {
        let at = random.below(s.len());
        s[at] = *random.pick(b"+-0123456789 TZ:\xc3\xa9");
    }
    s
}

fn one_text(tally: &mut Tally, port: &dyn Ground, s: &[u8]) -> Result<(), String> {
    compare!(tally, port, is_text(s))
}

/// Published vectors: the Unicode standard's table 3-7 by its corners, table 3-8 to 3-11's examples
/// of ill-formed sequences, and the ends of XML's ranges.
pub fn text_vectors() -> Vec<Vec<u8>> {
    let mut vectors: Vec<Vec<u8>> = vec![
        b"".to_vec(),
        vec![0xc0, 0xaf, 0xe0, 0x80, 0xbf, 0xf0, 0x81, 0x82, 0x41],
        vec![0xed, 0xa0, 0x80, 0xed, 0xbf, 0xbf, 0xed, 0xaf, 0x41],
        vec![0xf4, 0x91, 0x92, 0x93, 0xff, 0x41, 0x80, 0xbf, 0x42],
        vec![0xe1, 0x80, 0xe2, 0xf0, 0x91, 0x92, 0xf1, 0xbf, 0x41],
        vec![0x4d, 0xd0, 0xb0, 0xe4, 0xba, 0x8c, 0xf0, 0x90, 0x8c, 0x82],
        vec![0xef, 0xbb, 0xbf],
    ];
    for c in [
        0u32, 8, 9, 0xa, 0xb, 0xc, 0xd, 0xe, 0x1f, 0x20, 0x7e, 0x7f, 0x80, 0x85, 0x9f, 0xa0, 0x7ff, 0x800, 0xfff,
        0x1000, 0xcfff, 0xd000, 0xd7ff, 0xe000, 0xfdcf, 0xfdd0, 0xfdef, 0xfeff, 0xfffd, 0xfffe, 0xffff, 0x1_0000,
        0x1_fffe, 0x3_ffff, 0x4_0000, 0xf_ffff, 0x10_0000, 0x10_fffd, 0x10_ffff,
    ] {
        let c = char::from_u32(c).expect("a scalar value");
        let one = c.to_string().into_bytes();
        for len in 1..one.len() {
            vectors.push(one[..len].to_vec());
            vectors.push(one[len..].to_vec());
            vectors.push([&one[..len], b"a"].concat());
        }
        vectors.push([b"a", &one[..], b"z"].concat());
        vectors.push([&one[..], &one[..]].concat());
        vectors.push(one);
    }
    vectors
}

pub fn texts(port: &dyn Ground, seed: u64, rounds: u64) -> Compared {
    let mut tally = Tally::new();
    for s in text_vectors() {
        one_text(&mut tally, port, &s)?;
    }
    for a in 0..=255u8 {
        one_text(&mut tally, port, &[a])?;
        for b in 0..=255u8 {
            one_text(&mut tally, port, &[a, b])?;
            for c in 0..=255u8 {
                one_text(&mut tally, port, &[a, b, c])?;
            }
        }
    }
    // Four bytes: every pair of first bytes, then the ends of the classes.
    let ends = [0x00, 0x41, 0x7f, 0x80, 0x81, 0x8f, 0x90, 0x9f, 0xa0, 0xbd, 0xbe, 0xbf, 0xc0, 0xc2, 0xe0, 0xff];
    for a in 0..=255u8 {
        for b in 0..=255u8 {
            for &c in &ends {
                for &d in &ends {
                    one_text(&mut tally, port, &[a, b, c, d])?;
                }
            }
        }
    }
    // Every scalar value, alone and before another character.
    for c in (0..=0x10_ffffu32).filter_map(char::from_u32) {
        let mut buffer = [0u8; 5];
        let len = c.encode_utf8(&mut buffer).len();
        one_text(&mut tally, port, &buffer[..len])?;
        buffer[len] = b'a';
        one_text(&mut tally, port, &buffer[..=len])?;
    }
    let mut random = Random::new(seed);
    for _ in 0..200_000 * rounds {
        let s = random_text(&mut random);
        one_text(&mut tally, port, &s)?;
    }
    tally.done()
}

/// Mostly text, at times damaged at one byte or cut.
pub fn random_text(random: &mut Random) -> Vec<u8> {
    let mut s = String::new();
    for _ in 0..random.below(20) {
        let limit = *random.pick(&[0x80u32, 0x800, 0x1_0000, 0x11_0000]);
        let c = char::from_u32(random.below(limit as usize) as u32).unwrap_or('a');
        let keep = crate::lines::is_xml_char(c) || random.once_in(60);
        s.push(if keep { c } else { ' ' });
    }
    let mut s = s.into_bytes();
    if random.once_in(3) && !s.is_empty() {
        let at = random.below(s.len());
        if random.once_in(2) {
            s[at] = random.draw() as u8;
        } else {
            s.truncate(at);
        }
    }
    s
}
