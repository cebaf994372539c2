//! Inputs for both sides: event sequences from every level, and documents at random.

use crate::degrees::{self, Axis};
use crate::ground;
use crate::lines::escape;
use crate::random::Random;

/// One line, with its line feed where it has one.
pub type Bytes = Vec<u8>;

fn line(text: &str) -> Bytes {
    let mut bytes = text.replace('|', "\t").into_bytes();
    bytes.push(b'\n');
    bytes
}

/// An open and an empty element for each.
fn elements(tails: &[&str]) -> Vec<Bytes> {
    let both = |tail| [line(&format!("open|{tail}")), line(&format!("empty|{tail}"))];
    tails.iter().flat_map(both).collect()
}

/// Thirteen names with good fields.
pub(crate) const GOOD: [&str; 13] = [
    "osmChange",
    "create",
    "modify",
    "delete",
    "node|id=1|version=2|lat7=3|lon7=-4|user=u",
    "way|id=1|version=2|user=u",
    "relation|id=1|version=2",
    "tag|k=a|v=b",
    "nd|ref=7",
    "member|type=way|ref=-7|role=r",
    "bbox",
    "bounds|x=y",
    "x",
];

/// The spellings; each with a byte changed, more and less at each place; two in one; names at random.
pub fn close_names(random: &mut Random, times: u64) -> Vec<Bytes> {
    let spellings: Vec<&str> = GOOD.iter().map(|g| g.split('|').next().expect("a name")).collect();
    let mut out = vec![b"bound".to_vec(), b" node".to_vec(), "wäy".into(), b"\\".to_vec()];
    for spelling in &spellings {
        let name = spelling.as_bytes();
        out.extend([name.to_vec(), name.to_ascii_uppercase()]);
        out.extend(spellings.iter().map(|other| [name, other.as_bytes()].concat()));
        for at in 0..=name.len() {
            for byte in [b'A', b'a', b's', b'=', b' ', 0x7f] {
                out.push([&name[..at], &[byte], &name[at..]].concat());
                out.push([&name[..at], &[byte], &name[(at + 1).min(name.len())..]].concat());
            }
            out.push([&name[..at], &name[(at + 1).min(name.len())..]].concat());
        }
    }
    let letters = spellings.concat().into_bytes();
    for _ in 0..times {
        out.push((0..1 + random.below(9)).map(|_| *random.pick(&letters)).collect());
    }
    out
}

/// Every kind of event: thirteen names opened and empty, with good fields; a node with a low version,
/// and one without its coordinates; a close; and another.
pub fn events() -> Vec<Bytes> {
    let mut out = elements(&GOOD);
    out.extend(elements(&["node|id=1|version=0|lat7=3|lon7=-4|user=w", "node|id=1|version=3|user=z"]));
    out.push(line("close"));
    out.push(line("other"));
    out
}

/// Lines that lead to each level, with each section and each kind of element.
pub fn levels() -> Vec<(String, Vec<Bytes>)> {
    let mut out = vec![("Doc".to_owned(), vec![])];
    let root = vec![line("open|osmChange")];
    let then = |lines: &[Bytes], next: &str| {
        let mut lines = lines.to_vec();
        lines.push(line(next));
        lines
    };
    out.push(("Root".to_owned(), root.clone()));
    out.push(("Other".to_owned(), then(&root, "open|x")));
    for section in ["create", "modify", "delete"] {
        let inside = then(&root, &format!("open|{section}"));
        out.push((format!("Section {section}"), inside.clone()));
        for kind in ["node", "way", "relation"] {
            let element = then(&inside, &format!("open|{kind}|id=1|lat7=0|lon7=0|version=1"));
            let leaf = then(&element, "open|tag|k=c|v=d");
            out.push((format!("Element {section} {kind}"), element));
            out.push((format!("Leaf {section} {kind}"), leaf));
        }
    }
    out.push(("Done".to_owned(), then(&root, "close")));
    out.push(("Done".to_owned(), vec![line("empty|osmChange")]));
    out
}

/// Texts for keys, values, roles and user names.
const TEXTS: [&str; 16] = [
    "",
    "a",
    "b",
    "name",
    "highway",
    "maxweight",
    "a=b",
    "tab\there",
    "line\nfeed",
    "back\\slash",
    "return\r",
    " ",
    "Straße",
    "道路",
    "🚚",
    "\u{fdd0}\u{85}\u{7f}",
];

/// Sixty texts that fall into one of the 4,096 buckets of crate text_index: its search goes from one to the next.
static ONE_BUCKET: std::sync::LazyLock<Vec<String>> = std::sync::LazyLock::new(|| {
    let bucket = |text: &str| {
        let sum = text.bytes().fold(0u32, |k, b| k.wrapping_mul(16_777_619).wrapping_add(u32::from(b)));
        sum.wrapping_mul(2_654_435_761) >> 20
    };
    (0..).map(|n: u32| format!("b{n}")).filter(|text| bucket(text) == 0).take(60).collect()
});

/// Texts that are no degrees, among them those that Rust's float reader takes.
pub const NO_DEGREES: [&str; 40] = [
    "",
    "+",
    "-",
    ".",
    "-.",
    "+-1",
    "--1",
    " 1",
    "1 ",
    "1\\t",
    "1,5",
    "1_0",
    "0x1",
    "1f",
    "x",
    "1.5.5",
    "1.-5",
    "1.+5",
    "٣",
    "1.٣",
    "５",
    "e1",
    "1e",
    "1e1",
    "1E1",
    "1e-8",
    "1e+2",
    "0e0",
    ".5",
    "+.5",
    "5.",
    "-5.",
    "inf",
    "-inf",
    "infinity",
    "nan",
    "NaN",
    "0090",
    "0000",
    "0.0000000000000",
];

/// Degrees at the edges: ties, what lies beside them, signs, zeros, the ends of the range and past them.
pub const EDGE_DEGREES: [&str; 40] = [
    "0",
    "-0",
    "+0",
    "000",
    "-0.0",
    "-0.000000000000",
    "+5",
    "07",
    "0.00000005",
    "-0.00000005",
    "0.00000004999",
    "-0.000000049999",
    "0.000000050001",
    "0.00000015",
    "0.00000025",
    "-0.00000025",
    "0.00000105",
    "-0.00000105",
    "0.00000115",
    "1.00000005",
    "-1.00000005",
    "59.011234",
    "59.0112345",
    "59.01123455",
    "90",
    "-90",
    "+090.000000000000",
    "90.0",
    "89.99999995",
    "89.999999949999",
    "89.999999999999",
    "90.000000000001",
    "-90.000000000001",
    "90.00000004",
    "91",
    "179.99999995",
    "180",
    "180.000000000001",
    "-180.000000000001",
    "999",
];

/// Degrees of document 02's form, up to the end of an axis and past it: with few and many decimals, half of them ties or
/// beside one, with signs and zeros.
pub fn random_degrees(random: &mut Random, axis: Axis) -> String {
    let sign = *random.pick(&["", "", "-", "-", "+"]);
    let whole = match random.below(8) {
        0 => axis.most() as usize + random.below(2),
        1 => random.below(1_000),
        2 | 3 => random.below(2),
        _ => random.below(axis.most() as usize),
    };
    let width = 1 + random.below(3);
    let whole = format!("{sign}{whole:0width$}");
    match random.below(4) {
        0 => whole,
        1 => {
            let width = 1 + random.below(12);
            let decimals = random.below(10usize.pow(width as u32));
            format!("{whole}.{decimals:0width$}")
        }
        _ => {
            // Seven decimals: none, all nines, or any. Then a half, or what lies beside one.
            let any = random.below(10_000_000);
            let seven = *random.pick(&[0, 9_999_999, any]);
            let rest = *random.pick(&["5", "5", "50", "50000", "49999", "50001", "4", "6", "0", "00000", "45", "95"]);
            format!("{whole}.{seven:07}{rest}")
        }
    }
}

/// How documents are made.
#[derive(Clone, Copy, Debug)]
pub struct Style {
    /// About one line in so many is damaged; 0 for none.
    pub damage: usize,
    /// Sections in a document, at most.
    pub sections: usize,
    /// Objects in a section, at most.
    pub objects: usize,
    /// Ids are from -ids to ids, at times further.
    pub ids: i64,
    /// Children of an element, at most.
    pub children: usize,
    /// Attributes without a meaning in a line, at most, beside those that it has.
    pub attributes: usize,
    /// Texts beside the sixteen.
    pub texts: usize,
}

impl Style {
    pub const VALID: Self = Self { damage: 0, sections: 5, objects: 6, ids: 4, children: 4, attributes: 0, texts: 0 };
    pub const DAMAGED: Self = Self { damage: 30, ..Self::VALID };
    /// Lines of many attributes, elements of many children, many texts.
    pub const WIDE: Self = Self { damage: 0, objects: 2, children: 300, attributes: 40, texts: 150, ..Self::VALID };
}

/// Documents at random. It remembers the versions that it gave, so that most acts are accepted.
pub struct Documents {
    pub random: Random,
    pub style: Style,
    given: std::collections::HashMap<(&'static str, i64), i32>,
}

impl Documents {
    pub fn new(seed: u64, style: Style) -> Self {
        Self { random: Random::new(seed), style, given: std::collections::HashMap::new() }
    }

    /// Forget the versions: the next document goes into a new overlay.
    pub fn forget(&mut self) {
        self.given.clear();
    }

    /// One document's lines.
    pub fn document(&mut self) -> Vec<Bytes> {
        let mut out = Vec::new();
        self.noise(&mut out);
        if self.random.once_in(40) {
            out.push(line("empty|osmChange|version=0.6"));
        } else {
            out.push(line("open|osmChange|version=0.6|generator=x\\ty"));
            for _ in 0..self.random.below(self.style.sections + 1) {
                self.noise(&mut out);
                match self.random.below(12) {
                    0 => out.push(line("empty|bounds|minlat=1")),
                    1 => {
                        out.push(line("open|x"));
                        self.noise(&mut out);
                        out.push(line("close"));
                    }
                    2 => out.push(line("empty|create")),
                    _ => self.section(&mut out),
                }
            }
            out.push(line("close"));
        }
        self.noise(&mut out);
        if self.random.once_in(6) {
            out.push(line("close"));
        }
        if self.style.damage == 0 {
            return out;
        }
        self.damage(&mut out);
        // Damage may have brought in a line feed.
        let whole = out.concat();
        whole.split_inclusive(|&b| b == b'\n').map(<[u8]>::to_vec).collect()
    }

    fn noise(&mut self, out: &mut Vec<Bytes>) {
        if self.random.once_in(20) {
            out.push(line("other"));
        }
    }

    fn section(&mut self, out: &mut Vec<Bytes>) {
        let section = *self.random.pick(&["create", "modify", "modify", "delete"]);
        out.push(line(&format!("open|{section}")));
        for _ in 0..self.random.below(self.style.objects + 1) {
            self.noise(out);
            self.object(out, section == "delete");
        }
        out.push(line("close"));
    }

    fn object(&mut self, out: &mut Vec<Bytes>, delete: bool) {
        let kind = *self.random.pick(&["node", "way", "relation"]);
        let empty = self.random.once_in(3);
        let word = if empty { "empty" } else { "open" };
        let attributes = self.attributes(kind, delete);
        out.push(line(&format!("{word}|{kind}{attributes}")));
        if empty {
            return;
        }
        for _ in 0..self.random.below(self.style.children + 1) {
            self.noise(out);
            let child = self.child(kind);
            if self.random.once_in(4) {
                out.push(line(&format!("open|{child}")));
                self.noise(out);
                out.push(line("close"));
            } else {
                out.push(line(&format!("empty|{child}")));
            }
        }
        out.push(line("close"));
    }

    fn id(&mut self) -> i64 {
        if self.random.once_in(12) {
            self.random.id()
        } else {
            let width = 2 * self.style.ids.unsigned_abs() as usize + 1;
            self.random.below(width) as i64 - self.style.ids
        }
    }

    /// One of the sixteen; or of the others, of which a third falls into one bucket of the library's index, and a third is long and full of escapes.
    fn text(&mut self) -> String {
        let at = self.random.below(TEXTS.len() + self.style.texts);
        let Some(n) = at.checked_sub(TEXTS.len()) else {
            return escape(TEXTS[at]);
        };
        match n % 3 {
            0 => ONE_BUCKET[n / 3 % ONE_BUCKET.len()].clone(),
            1 => escape(&"\\\tStraße\n🚚 ".repeat(1 + n % 9)),
            _ => format!("text {n}"),
        }
    }

    /// An integer as text, at times with a sign or zeros that mean nothing.
    fn number(&mut self, n: i64) -> String {
        let zeros = "0".repeat(if self.random.once_in(10) { self.random.below(25) } else { 0 });
        let sign = match n {
            n if n < 0 => "-",
            _ if self.random.once_in(10) => "+",
            0 if self.random.once_in(10) => "-",
            _ => "",
        };
        format!("{sign}{zeros}{}", n.unsigned_abs())
    }

    fn version(&mut self, kind: &'static str, id: i64) -> i32 {
        let known = self.given.get(&(kind, id)).copied();
        let version = match (self.random.below(30), known) {
            (0, _) => *self.random.pick(&[i32::MIN, i32::MAX, -1, 0]),
            (1..=8, Some(v)) if self.style.damage > 0 => v.saturating_sub(1),
            (_, Some(v)) => v.saturating_add(self.random.below(3) as i32),
            (_, None) => self.random.below(7) as i32 - 1,
        };
        let highest = known.map_or(version, |v| v.max(version));
        // Without damage no regression is wanted.
        let version = if self.style.damage == 0 { highest } else { version };
        self.given.insert((kind, id), highest);
        version
    }

    fn attributes(&mut self, kind: &'static str, delete: bool) -> String {
        let id = self.id();
        let mut list = vec![format!("id={}", self.number(id))];
        if !self.random.once_in(3) {
            let version = i64::from(self.version(kind, id));
            list.push(format!("version={}", self.number(version)));
        }
        if self.random.once_in(3) {
            let stamp = crate::compare::ground::random_stamp(&mut self.random);
            let stamp = String::from_utf8(stamp)
                .ok()
                .filter(|s| ground::stamp(s.as_bytes()).is_some())
                .unwrap_or_else(|| "2024-01-01T23:00:00Z".to_owned());
            // Where damage is wanted, a sign may stand in it.
            let signed = ["2024-01-01T-1:00:00Z", "2024-01-01T+1:00:00Z", "+024-01-01T00:00:00Z"];
            let stamp = match self.style.damage > 0 && self.random.once_in(12) {
                true => (*self.random.pick(&signed)).to_owned(),
                false => stamp,
            };
            list.push(format!("timestamp={stamp}"));
        }
        if self.random.once_in(3) {
            let changeset = self.random.id();
            list.push(format!("changeset={}", self.number(changeset)));
        }
        if self.random.once_in(3) {
            let uid = i64::from(self.random.draw() as i32);
            list.push(format!("uid={}", self.number(uid)));
        }
        if self.random.once_in(3) {
            list.push(format!("user={}", self.text()));
        }
        if self.random.once_in(4) {
            list.push((*self.random.pick(&["visible=false", "visible=true", "visible="])).to_owned());
        }
        let coordinates = kind == "node" && !delete;
        if coordinates || self.random.once_in(10) {
            for axis in Axis::BOTH {
                list.extend(self.coordinate(axis));
            }
        } else if self.random.once_in(10) {
            // They have no meaning there.
            list.extend(["lat=x", "lon=1e3"].map(str::to_owned));
        }
        if self.random.once_in(5) {
            let odd = ["Lat=x", "Id=2", "a\\b=c", "v==", "ref=x", "é=", "k=\\\\"];
            list.push((*self.random.pick(&odd)).to_owned());
        }
        self.others(&mut list);
        self.shuffled(list)
    }

    /// A coordinate in one form; where damage is wanted, at times in both.
    fn coordinate(&mut self, axis: Axis) -> Vec<String> {
        let most = i64::from(axis.most()) * 10_000_000;
        let value = match self.random.below(6) {
            0 => most,
            1 => -most,
            _ => self.random.below(2 * most as usize + 1) as i64 - most,
        };
        let seven = format!("{}7={}", axis.name(), self.number(value));
        let degrees = format!("{}={}", axis.name(), self.degrees(axis));
        match self.random.below(6) {
            0 if self.style.damage > 0 && self.random.once_in(20) => vec![seven, degrees],
            0..=2 => vec![degrees],
            _ => vec![seven],
        }
    }

    /// Degrees as text; where damage is wanted, at times of another form or out of range.
    fn degrees(&mut self, axis: Axis) -> String {
        if self.style.damage > 0 && self.random.once_in(30) {
            return (*self.random.pick(&NO_DEGREES)).to_owned();
        }
        loop {
            let text = random_degrees(&mut self.random, axis);
            if degrees::read(&text, axis).is_ok() || (self.style.damage > 0 && self.random.once_in(30)) {
                return text;
            }
        }
    }

    /// Attributes without a meaning.
    fn others(&mut self, list: &mut Vec<String>) {
        if self.style.attributes == 0 {
            return;
        }
        for n in 0..self.random.below(self.style.attributes + 1) {
            list.push(format!("x{n}={}", self.text()));
        }
    }

    fn child(&mut self, kind: &str) -> String {
        let mut list = Vec::new();
        let name = match (self.random.below(4), kind) {
            (1, "way" | "relation") if self.random.once_in(2) => {
                return (*self.random.pick(&["bbox", "bounds|minlat=x"])).to_owned();
            }
            (1 | 2, "way") => {
                let id = self.random.id();
                list.push(format!("ref={}", self.number(id)));
                "nd"
            }
            (1 | 2, "relation") => {
                let id = self.random.id();
                list.push(format!("ref={}", self.number(id)));
                list.push(format!("type={}", self.random.pick(&["node", "way", "relation"])));
                if !self.random.once_in(3) {
                    list.push(format!("role={}", self.text()));
                }
                "member"
            }
            _ => {
                list.push(format!("k={}", self.text()));
                list.push(format!("v={}", self.text()));
                "tag"
            }
        };
        self.others(&mut list);
        format!("{name}{}", self.shuffled(list))
    }

    /// The attributes in any order, each after a bar.
    fn shuffled(&mut self, mut list: Vec<String>) -> String {
        for n in (1..list.len()).rev() {
            list.swap(n, self.random.below(n + 1));
        }
        list.iter().map(|a| format!("|{a}")).collect()
    }

    /// Damages some lines, or the order of lines, or the end.
    fn damage(&mut self, out: &mut Vec<Bytes>) {
        let mut n = 0;
        while n < out.len() {
            if self.random.once_in(self.style.damage) {
                match self.random.below(20) {
                    0 => {
                        out.remove(n);
                        continue;
                    }
                    1 => out.insert(n, out[n].clone()),
                    2 => {
                        let other = self.random.below(out.len());
                        out.swap(n, other);
                    }
                    3 => {
                        let events = events();
                        out.insert(n, self.random.pick(&events).clone());
                    }
                    _ => out[n] = self.damaged_line(&out[n].clone()),
                }
            }
            n += 1;
        }
        if self.random.once_in(12) {
            out.truncate(self.random.below(out.len() + 1));
        }
        if self.random.once_in(25)
            && let Some(last) = out.last_mut()
        {
            last.pop();
            if last.is_empty() {
                out.pop();
            }
        }
    }

    fn damaged_line(&mut self, old: &[u8]) -> Bytes {
        let mut line = old[..old.len() - 1].to_vec();
        let fields: Vec<Bytes> = line.split(|&b| b == b'\t').map(<[u8]>::to_vec).collect();
        let join = |fields: &[Bytes]| fields.join(&b'\t');
        match self.random.below(14) {
            0 => {
                let at = self.random.below(line.len() + 1);
                let byte = *self.random.pick(b"\t=\\\r 0-+a\xff\xc3\x01~");
                line.insert(at, byte);
            }
            1 if !line.is_empty() => {
                line.remove(self.random.below(line.len()));
            }
            2 if !line.is_empty() => {
                let at = self.random.below(line.len());
                line[at] = self.random.draw() as u8;
            }
            3 => {
                let mut fields = fields;
                let again = self.random.pick(&fields).clone();
                fields.push(again);
                line = join(&fields);
            }
            4 => {
                let mut fields = fields;
                fields.remove(self.random.below(fields.len()));
                line = join(&fields);
            }
            5 => {
                let mut fields = fields;
                let word = *self.random.pick(&["open", "empty", "close", "other", "Open", ""]);
                fields[0] = word.into();
                line = join(&fields);
            }
            6..=10 => {
                // Another value for one attribute.
                let mut fields = fields;
                let at = self.random.below(fields.len());
                if let Some(equals) = fields[at].iter().position(|&b| b == b'=') {
                    let bad: [&[u8]; 37] = [
                        b"",
                        b"x",
                        b"1.5",
                        b"2147483648",
                        b"-2147483649",
                        b"9223372036854775808",
                        b"-9223372036854775809",
                        b"+",
                        b"-",
                        b"--1",
                        b"1e3",
                        b"inf",
                        b" 1",
                        b"\\q",
                        b"\\",
                        b"area",
                        b"1_0",
                        b"0x1",
                        b"2024-01-01T00:00:60Z",
                        b"2023-02-29T00:00:00Z",
                        b"2024-01-01T-1:00:00Z",
                        b"+024-01-01T00:00:00Z",
                        b"0",
                        b"2147483647",
                        b"-900000001",
                        b"1800000001",
                        b"-1",
                        b"90.000000000001",
                        b"-180.000000000001",
                        b"0.00000105",
                        b"-0",
                        b"999",
                        b"0090",
                        b".5",
                        b"5.",
                        b"nan",
                        b"0.0000000000000",
                    ];
                    let value = *self.random.pick(&bad);
                    fields[at].truncate(equals + 1);
                    fields[at].extend_from_slice(value);
                }
                line = join(&fields);
            }
            11 => line.push(b'\r'),
            12 => line.extend_from_slice(b"\tzz="),
            _ => {
                // At and past the longest line.
                let long = *self.random.pick(&[16_384, 16_385, 20_000]);
                let mut extra = b"\tzz=".to_vec();
                extra.resize(long - line.len().min(long), b'z');
                line.extend_from_slice(&extra);
            }
        }
        line.push(b'\n');
        line
    }
}
