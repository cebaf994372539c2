//! Readers of event lines: sequences and names at every level, whole documents, several readers in turns
//! with direct calls between their lines; the listing and all that is lent after them.

use super::Compared;
use super::both::Both;
use super::call::{Call, Port};
use super::direct::{LARGEST, random_call, some_sizes};
use super::reads::everything;
use crate::answer::Sizes;
use crate::degrees::Axis;
use crate::lines::LINE_MAX;
use crate::produce::{Bytes, Documents, EDGE_DEGREES, NO_DEGREES, Style, close_names, events, levels, random_degrees};
use crate::random::Random;

/// Every sequence of events up to `depth` from every level, in both settings; after a refusal only
/// its repeats.
pub fn nesting(port: &dyn Port, depth: usize) -> Compared {
    let mut both = Both::new(port);
    let alphabet = events();
    for setting in [0, 1] {
        for (_, prefix) in levels() {
            to_level(&mut both, setting, &prefix)?;
            from_level(&mut both, &alphabet, depth)?;
        }
    }
    both.tally.done()
}

fn to_level(both: &mut Both<'_>, setting: u64, prefix: &[Bytes]) -> Result<(), String> {
    let sizes = Sizes { ids: [3; 3], arenas: [2_000; 3], strings: 20, string_bytes: 200, output: 0 };
    both.set_up(&sizes, setting)?;
    both.fresh(0);
    for line in prefix {
        both.event(0, line)?;
    }
    Ok(())
}

fn from_level(both: &mut Both<'_>, alphabet: &[Bytes], depth: usize) -> Result<(), String> {
    for event in alphabet {
        let here = both.here();
        let number = both.event(0, event)?;
        both.call(&Call::End(0))?;
        both.listing()?;
        if number != 0 {
            both.event(0, b"close\n")?;
            both.call(&Call::End(0))?;
        } else if depth > 1 {
            from_level(both, alphabet, depth - 1)?;
        }
        both.back(here);
    }
    Ok(())
}

/// Names at every level, opened and empty: the spellings, each of them damaged, longer and shorter at
/// each place, and names at random.
pub fn names(port: &dyn Port, seed: u64, rounds: u64) -> Compared {
    let mut both = Both::new(port);
    let names = close_names(&mut Random::new(seed), 200 * rounds);
    for (_, prefix) in levels() {
        to_level(&mut both, 0, &prefix)?;
        for name in &names {
            for form in ["open", "empty"] {
                let here = both.here();
                let fields = b"\tid=1\tlat7=0\tlon7=0\tk=a\tv=b\ttype=way\tref=2\n";
                let line = [form.as_bytes(), b"\t", name, fields].concat();
                both.event(0, &line)?;
                both.back(here);
            }
        }
    }
    both.tally.done()
}

/// Coordinates: degrees of every form and at every edge, and at random; each coordinate missing, in one form, good, bad or
/// out of range, or in both, of each kind in each section; what is staged or stored, and the listing.
pub fn coordinates(port: &dyn Port, seed: u64, rounds: u64) -> Compared {
    let mut both = Both::new(port);
    for section in ["create", "modify", "delete"] {
        to_level(&mut both, 0, &[b"open\tosmChange\n".to_vec(), format!("open\t{section}\n").into_bytes()])?;
        for kind in ["node", "way", "relation"] {
            for given in given_coordinates() {
                one_element(&mut both, &format!("open\t{kind}\tid=1{given}\n"))?;
                one_element(&mut both, &format!("empty\t{kind}{given}\tid=1\n"))?;
            }
        }
    }
    to_level(&mut both, 0, &[b"open\tosmChange\n".to_vec(), b"open\tmodify\n".to_vec()])?;
    for text in EDGE_DEGREES.iter().chain(&NO_DEGREES) {
        in_degrees(&mut both, text)?;
        // Each place without its byte, and with another one.
        for at in text.char_indices().map(|(at, _)| at) {
            let (before, behind) = text.split_at(at);
            let past = &behind[behind.chars().next().map_or(0, char::len_utf8)..];
            in_degrees(&mut both, &format!("{before}{past}"))?;
            for other in [".", "-", "+", "5", "e", "/", ":"] {
                in_degrees(&mut both, &format!("{before}{other}{past}"))?;
                in_degrees(&mut both, &format!("{before}{other}{behind}"))?;
            }
        }
    }
    in_degrees(&mut both, &"9".repeat(16_000))?;
    in_degrees(&mut both, &format!("1.{}", "0".repeat(16_000)))?;
    let mut random = Random::new(seed);
    for n in 0..20_000 * rounds {
        let mut text = random_degrees(&mut random, Axis::BOTH[n as usize % 2]);
        if random.once_in(6) {
            let at = random.below(text.len() + 1);
            text.insert(at, *random.pick(&['0', '9', '.', '-', '+', 'e', ' ', 'E']));
        }
        in_degrees(&mut both, &text)?;
    }
    both.tally.done()
}

/// Each coordinate in no form, in one with a good value, a bad one and one out of range, and in both; longitude first in every
/// second.
fn given_coordinates() -> Vec<String> {
    let seven = ["", "7", "x", "1800000001"];
    let degrees = ["", "-7.25", "x", "180.000000000001"];
    let given = |name: &str, value: &str| match value {
        "" => String::new(),
        value => format!("\t{name}={value}"),
    };
    let mut out = Vec::new();
    for (lat7, lat) in seven.iter().flat_map(|lat7| degrees.map(|lat| (lat7, lat))) {
        for (lon7, lon) in seven.iter().flat_map(|lon7| degrees.map(|lon| (lon7, lon))) {
            let lat = given("lat7", lat7) + &given("lat", lat);
            let lon = given("lon", lon) + &given("lon7", lon7);
            out.push(if out.len() % 2 == 0 { lat + &lon } else { lon + &lat });
        }
    }
    out
}

/// An element in a section, the end of it or what its refusal leaves, and the listing.
fn one_element(both: &mut Both<'_>, line: &str) -> Result<(), String> {
    let here = both.here();
    both.event(0, line.as_bytes())?;
    both.event(0, b"close\n")?;
    both.call(&Call::End(0))?;
    both.listing()?;
    both.back(here);
    Ok(())
}

/// A node with this text as its latitude, and as its longitude.
fn in_degrees(both: &mut Both<'_>, text: &str) -> Result<(), String> {
    for place in [format!("lat={text}\tlon7=0"), format!("lat7=0\tlon={text}")] {
        let here = both.here();
        both.event(0, format!("open\tnode\tid=1\t{place}\n").as_bytes())?;
        both.back(here);
    }
    Ok(())
}

/// Whole documents at random, valid and damaged.
pub fn documents(port: &dyn Port, seed: u64, rounds: u64) -> Result<(u64, u64), String> {
    let sources = [Documents::new(seed, Style::VALID), Documents::new(seed + 1, Style::DAMAGED)];
    documents_of(port, sources, 200 * rounds)
}

/// The same of lines with many attributes, elements with many children, and many texts.
pub fn wide_documents(port: &dyn Port, seed: u64, rounds: u64) -> Result<(u64, u64), String> {
    let damaged = Style { damage: 2_000, ..Style::WIDE };
    documents_of(port, [Documents::new(seed, Style::WIDE), Documents::new(seed + 1, damaged)], 20 * rounds)
}

/// Documents of two sources in turn, in both settings, several into one overlay, in large and in small
/// sizes. How many were read comes with the answers.
fn documents_of(port: &dyn Port, mut sources: [Documents; 2], count: u64) -> Result<(u64, u64), String> {
    let mut both = Both::new(port);
    let mut read = 0;
    for n in 0..count {
        let source = &mut sources[(n % 2) as usize];
        source.forget();
        let sizes = some_sizes(&mut source.random, n / 2);
        both.set_up(&sizes, u64::from(n % 4 >= 2))?;
        for reader in 0..1 + source.random.below(3) {
            read += 1;
            both.fresh(reader);
            if n % 3 == 2 {
                // In runs, cut anywhere.
                let (mut rest, mut more) = (source.document().concat(), true);
                while more {
                    let len = rest.len().min(1 + source.random.below(rest.len().max(1)));
                    more = both.call(&Call::Events(reader, rest[..len].to_vec()))? == 0 && len < rest.len();
                    let whole = rest[..len].iter().rposition(|byte| *byte == b'\n').map_or(0, |at| at + 1);
                    rest.drain(..whole);
                }
                if !rest.is_empty() {
                    both.event(reader, &rest)?;
                }
            }
            for line in source.document().into_iter().filter(|_| n % 3 != 2) {
                if both.event(reader, &line)? != 0 {
                    // The mark is repeated.
                    both.event(reader, b"other\n")?;
                    break;
                }
                if source.random.once_in(16) {
                    both.listing()?;
                }
            }
            both.call(&Call::End(reader))?;
            both.listing()?;
        }
        if n % 10 == 0 {
            everything(&mut both)?;
        }
    }
    Ok((read, both.tally.done()?))
}

/// A document of hundreds of elements of each kind into the largest sizes, in runs cut anywhere. How many bytes were taken comes with the answers.
pub fn large_document(port: &dyn Port, seed: u64) -> Result<(usize, u64), String> {
    let mut both = Both::new(port);
    let style = Style { sections: 120, objects: 60, ids: 1_500, children: 12, texts: 150, ..Style::VALID };
    let mut source = Documents::new(seed, style);
    both.set_up(&LARGEST, 0)?;
    both.fresh(0);
    let document = source.document().concat();
    let mut at = 0;
    while at < document.len() {
        let end = (at + 1 + source.random.below(40_000)).min(document.len());
        if both.call(&Call::Events(0, document[at..end].to_vec()))? != 0 {
            break;
        }
        at += document[at..end].iter().rposition(|byte| *byte == b'\n').map_or(0, |last| last + 1);
    }
    both.call(&Call::End(0))?;
    both.listing()?;
    everything(&mut both)?;
    Ok((at, both.tally.done()?))
}

/// Several readers on one overlay, turn by turn, with direct calls between their lines.
pub fn readers(port: &dyn Port, seed: u64, rounds: u64) -> Compared {
    let mut both = Both::new(port);
    let mut random = Random::new(seed);
    let mut source = Documents::new(seed ^ 0x5555, Style::DAMAGED);
    source.style.damage = 60;
    for n in 0..80 * rounds {
        source.forget();
        both.set_up(&some_sizes(&mut random, n), u64::from(n % 8 >= 6))?;
        let count = 1 + random.below(4);
        let mut left: Vec<std::vec::IntoIter<Bytes>> = (0..count).map(|_| source.document().into_iter()).collect();
        for reader in 0..count {
            both.fresh(reader);
        }
        for _ in 0..120 {
            let reader = random.below(count);
            match random.below(12) {
                0 => both.call(&Call::End(reader))?,
                1 | 2 => random_call(&mut both, &mut random)?,
                4 => {
                    let lines: Vec<Bytes> = left[reader].by_ref().take(random.below(6)).collect();
                    let mut run = lines.concat();
                    if random.once_in(9) {
                        // An unfinished line, as long as a line may be or longer.
                        run.resize(run.len() + LINE_MAX + random.below(2), b'x');
                    }
                    both.call(&Call::Events(reader, run))?
                }
                3 if random.once_in(6) => {
                    // A reader may begin anywhere in a list.
                    both.fresh(reader);
                    left[reader] = source.document().into_iter();
                    0
                }
                _ => {
                    let mut line = left[reader].next().unwrap_or_else(|| b"close\n".to_vec());
                    if random.once_in(300) {
                        // Two lines in one slice are no event line.
                        line.extend_from_slice(b"close\n");
                    }
                    both.event(reader, &line)?
                }
            };
            if random.once_in(12) {
                both.listing()?;
            }
        }
        both.listing()?;
    }
    both.tally.done()
}
