//! Degrees as decimal text, beside Rust's float reader.

use crate::{ROUNDS, least, over};
use compare::Library;
use judge::compare::ground::Ground;
use std::fmt::Write;
use std::hint::black_box;
use std::time::Instant;
use torvaskin::{Overlay, Reader, Sizes};

const NODES: u64 = 20_000;

/// Latitudes with seven decimals, and the same in whole numbers, as long in a line: `lat=` before one, `lat7=` before the other.
fn texts() -> (Vec<String>, Vec<String>) {
    let digits = |n: u64| n.wrapping_mul(0x9e37_79b9_7f4a_7c15) % 10_000_000;
    let text = |point: &str, n: u64| format!("{}{point}{:07}", n % 90, digits(n));
    ((0..NODES).map(|n| text(".", n)).collect(), (0..NODES).map(|n| text("", n)).collect())
}

/// The least time of a node whose coordinates are given so, in short runs of empty ones, in nanoseconds.
fn node(lat: &str, lon: &str, texts: &[String]) -> f64 {
    let mut sum = 0.0;
    for texts in texts.chunks(160) {
        let mut run = String::from("open\tosmChange\nopen\tcreate\n");
        for text in texts {
            let _ = writeln!(run, "empty\tnode\tid=1\t{lat}={text}\t{lon}={text}");
        }
        let mut best = f64::INFINITY;
        for _ in 0..5 * ROUNDS {
            let (mut overlay, mut reader) = (Overlay::new(&Sizes::ROADLIST).expect("within limits"), Reader::new());
            let start = Instant::now();
            assert_eq!(reader.events(&mut overlay, &run).expect("taken"), run.len());
            best = best.min(start.elapsed().as_secs_f64() * 1e9);
            black_box(&overlay);
        }
        sum += best;
    }
    sum / texts.len() as f64
}

/// Reading a `lat`: it has no entry of its own, so it is what a coordinate of a node takes more in degrees than in whole numbers, in lines of
/// the same lengths, and what the entry for whole numbers takes for these.
pub fn degrees() {
    let (degrees, whole) = texts();
    let more = (node("lat", "lon", &degrees) - node("lat7", "lon7", &whole)) / 2.0;
    let read = least(whole.len(), || over(&whole, &|s: &String| Library.read_i32(s.as_bytes()).1.cast_unsigned()));
    let float = |text: &String| text.parse::<f64>().map_or(0, f64::to_bits);
    let rust = least(degrees.len(), || over(&degrees, &float));
    let port = read + more;
    println!("reading a `lat`, beside `str::parse::<f64>`\t{port:.1} ns\t{rust:.1} ns\t{:.2}", port / rust);
}
