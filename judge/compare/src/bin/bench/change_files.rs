//! A change file of some megabytes: through the library, beside expat's bare parse and the published Rust over quick-xml 0.26.

use crate::ROUNDS;
use files::produce::{Shape, real};
use std::ffi::{CStr, c_char, c_int, c_void};
use std::hint::black_box;
use std::time::Instant;
use torvaskin::{FileReader, Lent, Overlay, Sizes, Storage};

/// How many bytes are handed over at once.
const PIECE: usize = 65_536;

unsafe extern "C" {
    fn dlopen(name: *const c_char, flags: c_int) -> *mut c_void;
    fn dlsym(library: *mut c_void, name: *const c_char) -> *mut c_void;
}

type Create = unsafe extern "C" fn(*const c_char) -> *mut c_void;
type Start = unsafe extern "C" fn(*mut c_void, *const c_char, *const *const c_char);
type End = unsafe extern "C" fn(*mut c_void, *const c_char);
type Handle = unsafe extern "C" fn(*mut c_void, Start, End);
type Parse = unsafe extern "C" fn(*mut c_void, *const c_char, c_int, c_int) -> c_int;
type Free = unsafe extern "C" fn(*mut c_void);

/// expat, where the system has it.
struct Expat {
    create: Create,
    handle: Handle,
    parse: Parse,
    free: Free,
}

unsafe extern "C" fn started(_: *mut c_void, name: *const c_char, _: *const *const c_char) {
    black_box(name);
}

unsafe extern "C" fn ended(_: *mut c_void, name: *const c_char) {
    black_box(name);
}

impl Expat {
    fn found() -> Option<Self> {
        // SAFETY: the functions have these types in expat.h.
        unsafe {
            let library = dlopen(c"libexpat.so.1".as_ptr(), 2);
            let of = |name: &CStr| {
                let at = if library.is_null() { std::ptr::null_mut() } else { dlsym(library, name.as_ptr()) };
                (!at.is_null()).then_some(at)
            };
            Some(Self {
                create: std::mem::transmute::<*mut c_void, Create>(of(c"XML_ParserCreate")?),
                handle: std::mem::transmute::<*mut c_void, Handle>(of(c"XML_SetElementHandler")?),
                parse: std::mem::transmute::<*mut c_void, Parse>(of(c"XML_Parse")?),
                free: std::mem::transmute::<*mut c_void, Free>(of(c"XML_ParserFree")?),
            })
        }
    }

    /// The file parsed in pieces; its elements are handed to functions that do nothing.
    fn parse(&self, file: &[u8]) {
        // SAFETY: as expat.h asks.
        unsafe {
            let parser = (self.create)(std::ptr::null());
            (self.handle)(parser, started, ended);
            for (n, piece) in file.chunks(PIECE).enumerate() {
                let last = (n + 1) * PIECE >= file.len();
                let length = c_int::try_from(piece.len()).expect("a piece");
                assert_eq!((self.parse)(parser, piece.as_ptr().cast(), length, last.into()), 1, "it is well formed");
            }
            (self.free)(parser);
        }
    }
}

/// The least time over the rounds, in milliseconds.
fn least(mut work: impl FnMut()) -> f64 {
    let mut best = f64::INFINITY;
    for _ in 0..ROUNDS {
        let start = Instant::now();
        work();
        best = best.min(start.elapsed().as_secs_f64() * 1e3);
    }
    best
}

fn port(lent: Lent<'_>, file: &[u8], size: usize) {
    let mut overlay = Overlay::set_up(lent, &Sizes::MOST).expect("set up");
    let mut reader = FileReader::new();
    file.chunks(size).for_each(|piece| reader.piece(&mut overlay, piece).expect("it is taken"));
    reader.end(&overlay).expect("it is whole");
}

pub fn change_files() {
    let file = real(&Shape::LARGE, 1);
    let mut lent = Sizes::MOST.allocate().expect("within limits");
    let taken = least(|| port(lent.lent(), &file, PIECE));
    let rate = |ms: f64| file.len() as f64 / ms / 1e3;
    let megabytes = file.len() as f64 / 1e6;
    println!("a change file of {megabytes:.1} MB, pieces of 64 KiB\t{taken:.1} ms\t{:.0} MB/s", rate(taken));
    let rust = least(|| drop(black_box(over::drive(&file).expect("it is taken"))));
    println!("  the published Rust over quick-xml 0.26\t{rust:.1} ms\tport / Rust {:.2}", taken / rust);
    match Expat::found() {
        Some(expat) => {
            let bare = least(|| expat.parse(&file));
            println!("  expat's bare parse\t{bare:.1} ms\tport / expat {:.2}", taken / bare);
        }
        None => println!("  expat is not there"),
    }
    let small = least(|| port(lent.lent(), &file[..], 4_096));
    println!("  pieces of 4 KiB\t{small:.1} ms");
    for (name, enemy) in [
        ("a comment", format!("<osmChange><!--{}--></osmChange>", "x".repeat(20_000_000))),
        ("a value", format!("<osmChange a=\"{}\"/>", "x".repeat(20_000_000))),
        ("a reference's zeros", format!("<osmChange a=\"&#{}65;\"/>", "0".repeat(20_000_000))),
        ("line feeds", format!("<osmChange>{}</osmChange>", "\n".repeat(20_000_000))),
    ] {
        let mut taken = f64::INFINITY;
        for _ in 0..3 {
            let mut overlay = Overlay::set_up(lent.lent(), &Sizes::MOST).expect("set up");
            let (mut reader, start) = (FileReader::new(), Instant::now());
            // what is too long is refused
            let _ = black_box(enemy.as_bytes().chunks(PIECE).try_for_each(|piece| reader.piece(&mut overlay, piece)));
            taken = taken.min(start.elapsed().as_secs_f64() * 1e3);
        }
        println!("  20 MB of {name}\t{taken:.0} ms");
    }
}
