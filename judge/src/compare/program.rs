//! The program `roadlist`: whole inputs on standard input, what it prints on standard output.

use super::{Compared, Tally};
use crate::answer::{Sizes, run, run_sized};
use crate::produce::{Documents, Style};

/// Prints for an input what the program prints.
pub trait Program {
    fn print(&self, input: &[u8]) -> Vec<u8>;
}

/// What the judge prints in `roadlist`'s sizes.
pub fn expected(input: &[u8]) -> Vec<u8> {
    run_sized(input, false, &Sizes::ROADLIST).0.print()
}

fn one(tally: &mut Tally, program: &dyn Program, input: &[u8]) -> Result<(), String> {
    tally.same(
        || format!("{:?}", String::from_utf8_lossy(&input[..input.len().min(4_000)])),
        String::from_utf8_lossy(&expected(input)).into_owned(),
        String::from_utf8_lossy(&program.print(input)).into_owned(),
    )
}

/// Inputs at the program's limits, and at the ends of lines and of the input.
pub fn limits(program: &dyn Program) -> Compared {
    let mut tally = Tally::new();
    for input in edge_inputs() {
        one(&mut tally, program, &input)?;
    }
    tally.done()
}

/// Documents at random, valid and damaged.
pub fn documents(program: &dyn Program, seed: u64, rounds: u64) -> Compared {
    let mut tally = Tally::new();
    let mut sources = [Documents::new(seed, Style::VALID), Documents::new(seed + 1, Style::DAMAGED)];
    for n in 0..60 * rounds {
        let source = &mut sources[(n % 2) as usize];
        source.forget();
        let input = source.document().concat();
        one(&mut tally, program, &input)?;
    }
    tally.done()
}

/// Lines of one section in a document.
fn in_section(section: &str, lines: &str) -> Vec<u8> {
    format!("open\tosmChange\nopen\t{section}\n{lines}close\nclose\n").into_bytes()
}

pub fn edge_inputs() -> Vec<Vec<u8>> {
    let mut inputs: Vec<Vec<u8>> = [
        &b""[..],
        b"\n",
        b"\n\n",
        b"close",
        b"close\n",
        b"empty\tosmChange",
        b"empty\tosmChange\n",
        b"empty\tosmChange\n\n",
        b"empty\tosmChange\r\n",
        b"\xff",
        b"\xef\xbb\xbfempty\tosmChange\n",
        b"open\tosmChange\nopen\tmodify\nopen\tnode\tid=7\tversion=3\tlat7=10\tlon7=-20\nempty\ttag\tk=name\tv=A\nclose\nclose\nopen\tdelete\nempty\tway\tid=-4\tversion=2\nclose\nclose\n",
    ]
    .iter()
    .map(|s| s.to_vec())
    .collect();
    // Lines around the longest, in the first and in a later line, with and without a line feed.
    for len in [16_383, 16_384, 16_385, 16_386, 65_536, 200_000] {
        for before in ["", "other\n", "close\nother\n"] {
            for after in ["", "\n", "\nclose\n"] {
                let mut input = before.as_bytes().to_vec();
                let mut line = b"empty\tosmChange\tx=".to_vec();
                line.resize(len, b'a');
                input.extend_from_slice(&line);
                input.extend_from_slice(after.as_bytes());
                inputs.push(input);
            }
        }
    }
    // A document cut at every byte, and with carriage returns.
    let document = inputs[11].clone();
    inputs.extend((0..document.len()).map(|len| document[..len].to_vec()));
    inputs.push(String::from_utf8_lossy(&document).replace('\n', "\r\n").into_bytes());
    // Some megabytes.
    inputs.push([b"other\n".repeat(700_000), document].concat());
    // Many short lines: more than a program's buffer holds.
    inputs.push([b"other\n".repeat(50_000), b"empty\tosmChange\n".to_vec()].concat());
    inputs.push(b"other\n".repeat(50_000));
    // Some megabytes of elements, whose children a delete drops.
    let children = "empty\ttag\tk=maxweight\tv=7.5\\tt\nempty\tnd\tref=-17\nopen\ttag\tv=x\tk=y\nclose\n".repeat(4);
    let deletes =
        |n: i64| (0..n).map(|id| format!("open\tway\tid={}\n{children}close\n", id % 512)).collect::<String>();
    inputs.push(in_section("delete", &deletes(9_000)));
    inputs.push(in_section("delete", &(deletes(9_000) + "empty\tway\tid=-1\n")));
    // Ids: 512 are taken, the next is 14, a known one is not.
    let ids = |n: i64| (0..n).map(|id| format!("empty\tway\tid={}\n", 7 * id - 900)).collect::<String>();
    inputs.push(in_section("delete", &ids(512)));
    inputs.push(in_section("delete", &ids(513)));
    inputs.push(in_section("delete", &(ids(512) + "empty\tway\tid=-900\n")));
    // Arena: 8,192 bytes of a kind; 45 a way, 8 a ref.
    let ways = |n: usize| "empty\tway\tid=1\n".repeat(n);
    inputs.push(in_section("create", &ways(182)));
    inputs.push(in_section("create", &ways(183)));
    for (ways_before, refs) in [(1, 1_012), (1, 1_013), (0, 1_018), (0, 1_019), (0, 2_000), (0, 2_001)] {
        let staged = format!("open\tway\tid=2\n{}close\n", "empty\tnd\tref=9\n".repeat(refs));
        inputs.push(in_section("create", &(ways(ways_before) + &staged)));
    }
    // Strings: 511 beside the empty one; 8,192 string bytes.
    let users = |n: usize| (0..n).map(|k| format!("empty\tway\tid=1\tuser={k}\n")).collect::<String>();
    for n in [511, 512] {
        inputs.push(in_section("delete", &users(n)));
        inputs.push(in_section("delete", &(users(n) + "empty\tway\tid=1\tuser=7\tversion=1\n")));
    }
    let user = |n: usize| format!("empty\tway\tid=1\tuser={}\n", "u".repeat(n));
    for n in [8_191, 8_192, 8_193] {
        inputs.push(in_section("create", &user(n)));
        inputs.push(in_section("create", &(user(n) + "empty\tway\tid=2\tuser=v\n")));
    }
    // Elements: 256 tags, 2,000 members, 16,384 value bytes, in pushed and in deleted ones.
    for section in ["create", "delete"] {
        for n in [256, 257] {
            let tags = "empty\ttag\tk=a\tv=\n".repeat(n);
            inputs.push(in_section(section, &format!("open\tway\tid=1\n{tags}close\n")));
        }
        for n in [2_000, 2_001] {
            let members = "empty\tmember\ttype=way\tref=1\n".repeat(n);
            inputs.push(in_section(section, &format!("open\trelation\tid=1\n{members}close\n")));
        }
        for last in [0, 1] {
            let value = "v".repeat(8_192);
            let tags = format!("empty\ttag\tk=a\tv={value}\n").repeat(2);
            let more = format!("empty\ttag\tk=a\tv={}\n", "w".repeat(last));
            inputs.push(in_section(section, &format!("open\tway\tid=1\n{tags}{more}close\n")));
        }
    }
    // Output: a long user name, listed with each way; 65,536 bytes, one more, and far past. With an
    // id of three digits and no version a line is 25 bytes and the name.
    let listed = |name: usize, ways: usize, last: usize| {
        let lines: String = (100..99 + ways)
            .chain([last])
            .map(|id| format!("empty\tway\tid={id}\tuser={}\n", "n".repeat(name)))
            .collect();
        in_section("create", &lines)
    };
    for (name, ways, last) in
        [(4_071, 16, 900), (4_071, 16, 9_000), (4_071, 16, 90), (8_167, 8, 900), (8_167, 8, 9_000), (8_000, 20, 900)]
    {
        inputs.push(listed(name, ways, last));
    }
    // A refusal after a large accepted part, and a regression with its held version.
    inputs.push(in_section("create", "empty\tway\tid=1\tversion=5\nempty\tway\tid=1\tversion=4\n"));
    inputs.push(in_section("create", "empty\tway\tid=1\tversion=-5\nempty\tway\tid=1\tversion=-6\n"));
    inputs.push(in_section("create", "empty\tway\tid=1\tversion=0\nempty\tway\tid=1\tversion=-1\n"));
    inputs
}

/// Which numbers the edge inputs meet in the judge, and how many of them the plain Rust takes.
pub fn edge_numbers_met() -> (std::collections::BTreeSet<u32>, usize) {
    let mut numbers = std::collections::BTreeSet::new();
    let mut plain = 0;
    for input in edge_inputs() {
        numbers.insert(match run_sized(&input, false, &Sizes::ROADLIST).0 {
            crate::Outcome::Listing(_) => 0,
            crate::Outcome::Refused(stop) => stop.number,
        });
        plain += usize::from(matches!(run(&input, false).0, crate::Outcome::Listing(_)));
    }
    (numbers, plain)
}
