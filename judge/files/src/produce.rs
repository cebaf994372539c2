//! Files at random, the same on every machine: a real-looking change file of any size, and small ones, whole and damaged.

use std::fmt::Write;

use judge::random::Random;

/// How much a real-looking file holds.
#[derive(Clone, Copy, Debug)]
pub struct Shape {
    pub nodes: usize,
    /// Of each node.
    pub versions: usize,
    pub ways: usize,
    /// Of each way.
    pub refs: usize,
    pub relations: usize,
    /// Of each relation.
    pub members: usize,
    pub deletes: usize,
}

impl Shape {
    /// Some hundred KB.
    pub const SOME: Self =
        Self { nodes: 800, versions: 2, ways: 250, refs: 20, relations: 40, members: 20, deletes: 90 };
    /// Some MB.
    pub const LARGE: Self =
        Self { nodes: 4_000, versions: 4, ways: 1_500, refs: 40, relations: 300, members: 50, deletes: 90 };
}

const KEYS: [&str; 10] =
    ["highway", "name", "surface", "maxweight", "maxheight", "lanes", "oneway", "ref", "bridge", "source"];
const VALUES: [&str; 12] = [
    "residential",
    "Mill Lane",
    "asphalt",
    "7.5",
    "4.2",
    "2",
    "yes",
    "A 12",
    "no",
    "survey &amp; GPS",
    "B\u{e4}ckerstra\u{df}e",
    "track",
];
const USERS: [&str; 5] = ["anna", "Bj\u{f6}rn K", "c_mapper", "dora99", "\u{c9}mile"];
const ROLES: [&str; 4] = ["", "outer", "inner", "stop"];

struct Real {
    out: String,
    random: Random,
}

/// A change file as they are handed in: a declaration, sections, one element a line, lines begun with spaces.
pub fn real(shape: &Shape, seed: u64) -> Vec<u8> {
    let mut real = Real { out: String::new(), random: Random::new(seed) };
    real.line("<?xml version=\"1.0\" encoding=\"UTF-8\"?>");
    real.line("<osmChange version=\"0.6\" generator=\"the judge\">");
    let nodes: Vec<i64> = (0..shape.nodes as i64).map(|n| 1_000_000_000 + 7_919 * n).collect();
    for version in 1..=shape.versions {
        real.line("  <modify>");
        nodes.iter().for_each(|id| real.node(*id, version));
        real.line("  </modify>");
    }
    real.line("  <create>");
    (0..shape.ways).for_each(|n| real.way(100_000_000 + 31 * n, shape.refs, &nodes));
    (1..=shape.relations).for_each(|id| real.relation(id, shape.members, &nodes));
    real.line("  </create>");
    real.line("  <delete>");
    for n in 0..shape.deletes {
        let version = 1 + real.random.below(8);
        real.line(&format!("    <node id=\"{}\" version=\"{version}\"/>", 1 + 101 * n));
    }
    real.line("  </delete>");
    real.line("</osmChange>");
    real.out.into_bytes()
}

impl Real {
    fn line(&mut self, line: &str) {
        self.out.push_str(line);
        self.out.push('\n');
    }

    fn pick(&mut self, from: &[&'static str]) -> &'static str {
        from[self.random.below(from.len())]
    }

    fn below(&mut self, n: usize) -> usize {
        self.random.below(n)
    }

    fn metadata(&mut self, version: usize) -> String {
        let [month, day, hour] = [self.below(12) + 1, self.below(28) + 1, self.below(24)];
        let [minute, second] = [self.below(60), self.below(60)];
        let (changeset, uid) = (100_000_000 + self.below(100_000_000), self.below(1_000_000));
        let user = self.pick(&USERS);
        format!(
            "version=\"{version}\" timestamp=\"2024-{month:02}-{day:02}T{hour:02}:{minute:02}:{second:02}Z\" \
             changeset=\"{changeset}\" uid=\"{uid}\" user=\"{user}\""
        )
    }

    fn degrees(&mut self, most: usize) -> String {
        let (sign, whole, decimals) = (["", "-"][self.below(2)], self.below(most), self.below(10_000_000));
        format!("{sign}{whole}.{decimals:07}")
    }

    fn tag(&mut self, key: &str) {
        let value = self.pick(&VALUES);
        self.line(&format!("      <tag k=\"{key}\" v=\"{value}\"/>"));
    }

    fn node(&mut self, id: i64, version: usize) {
        let (metadata, lat, lon) = (self.metadata(version), self.degrees(90), self.degrees(180));
        let tagged = self.random.once_in(10);
        let end = if tagged { ">" } else { "/>" };
        self.line(&format!("    <node id=\"{id}\" {metadata} lat=\"{lat}\" lon=\"{lon}\"{end}"));
        if tagged {
            let key = self.pick(&KEYS);
            self.tag(key);
            self.line("    </node>");
        }
    }

    fn way(&mut self, id: usize, refs: usize, nodes: &[i64]) {
        let metadata = self.metadata(1);
        self.line(&format!("    <way id=\"{id}\" {metadata}>"));
        for _ in 0..refs {
            let node = nodes[self.below(nodes.len())];
            self.line(&format!("      <nd ref=\"{node}\"/>"));
        }
        let from = self.below(KEYS.len());
        (from..from + 3).for_each(|n| self.tag(KEYS[n % KEYS.len()]));
        self.line("    </way>");
    }

    fn relation(&mut self, id: usize, members: usize, nodes: &[i64]) {
        let metadata = self.metadata(1);
        self.line(&format!("    <relation id=\"{id}\" {metadata}>"));
        for _ in 0..members {
            let (kind, role) = (["node", "way"][self.below(2)], self.pick(&ROLES));
            let node = nodes[self.below(nodes.len())];
            self.line(&format!("      <member type=\"{kind}\" ref=\"{node}\" role=\"{role}\"/>"));
        }
        self.line("      <tag k=\"type\" v=\"multipolygon\"/>");
        self.line("    </relation>");
    }
}

/// How a small file is made.
#[derive(Clone, Copy, Debug, PartialEq, Eq)]
pub enum Style {
    /// What the comparison with the Rust speaks of: references in `k`, `v`, `user` and `role` alone, no raw tab or line end in a value.
    Compared,
    /// References and white space anywhere in values, other declarations, other forms of coordinates.
    Wide,
    /// The same with one to three places changed, put in or taken out.
    Damaged,
}

/// Small files.
pub struct Files {
    random: Random,
    out: Vec<u8>,
    wide: bool,
}

const TEXTS: [&str; 14] =
    ["", "a", "Mill Lane", "7.5", "a&b", "<", ">", "\"", "'", "\\", "a\tb\n\r", "\u{e4}\u{20ac}", "\u{1f600}", "]]>"];

const BETWEEN: [&str; 14] = [
    "",
    "\n",
    "  ",
    "\r\n",
    "\t",
    "\r",
    "text",
    "&",
    "]]>",
    "<!-- a - b -->",
    "<!---->",
    "<?a b?>",
    "<?a?>",
    "\n<!-- <node> & -->\n",
];

const DECLARATIONS: [&str; 8] = [
    "<?xml version=\"1.0\" encoding=\"UTF-8\"?>",
    "<?xml version='1.0'?>\n",
    "\u{feff}<?xml version=\"1.0\" encoding='utf-8' standalone=\"yes\" ?>",
    "\u{feff}",
    "<?xml version=\"1.1\"?>",
    "<?xml version = \"1.0\"\nencoding=\"Utf-8\"?>",
    "",
    "",
];

const OTHER_DECLARATIONS: [&str; 10] = [
    "<?xml version=\"1.0\" encoding=\"ISO-8859-1\"?>",
    "<?xml version=\"1.0\" encoding=\"UTF-16\"?>",
    "<?xml version=\"2.0\"?>",
    "<?xml?>",
    "<?xml encoding=\"UTF-8\"?>",
    "\n<?xml version=\"1.0\"?>",
    "<?xml version=\"1.0\" standalone=\"maybe\"?>",
    "<!DOCTYPE osmChange>",
    "<?XML a?>",
    "\u{feff}\u{feff}<?xml version=\"1.0\"?>",
];

/// What may be put in anywhere.
const PIECES: [&[u8]; 70] = [
    b"<",
    b">",
    b"&",
    b"\"",
    b"'",
    b"/",
    b"=",
    b"-",
    b"--",
    b"-->",
    b"<!--",
    b"<!-- a -- b -->",
    b"<!-- \xff -->",
    b"<!>",
    b"<?",
    b"?>",
    b"<?a >?>",
    b"<?a \x01?>",
    b"<?xml version=\"1.0\"?>",
    b"<?XML a?>",
    b"<? a?>",
    b"<!DOCTYPE osmChange>",
    b"<![CDATA[x]]>",
    b"<!doctype a>",
    b"<![cdata[x]]>",
    b"]]>",
    b"&amp;",
    b"&lt;",
    b"&#65;",
    b"&#x41;",
    b"&#9;",
    b"&#10;",
    b"&#0;",
    b"&#1;",
    b"&#xFFFE;",
    b"&#00000065;",
    b"&#x0000041;",
    b"&#1114112;",
    b"&#4294967361;",
    b"&nbsp;",
    b"&AMP;",
    b"&#X41;",
    b"&;",
    b" a=\"b\"",
    b" id=\"1\"",
    b" k=\"a\"",
    b" a='b'c='d'",
    b" a=\"<\"",
    b" visible=\"false\"",
    b" visible=\"f&#97;lse\"",
    b" lat7=\"1\"",
    b" version=\"2\"",
    b"\t",
    b"\n",
    b"\r",
    b"\r\n",
    b" ",
    b"\x00",
    b"\x01",
    b"\xff",
    b"\xc3\xa9",
    b"\xc3\x97",
    b"\xef\xbf\xbe",
    b"\xef\xbb\xbf",
    b"</a>",
    b"<a>",
    b"<a/>",
    b"<1a/>",
    b"</osmChange>",
    b"<create>",
];

impl Files {
    pub fn new(seed: u64) -> Self {
        Self { random: Random::new(seed), out: Vec::new(), wide: false }
    }

    pub fn file(&mut self, style: Style) -> Vec<u8> {
        self.out.clear();
        self.wide = style != Style::Compared;
        self.document();
        if style == Style::Damaged {
            for _ in 0..=self.random.below(3) {
                self.damage();
            }
        }
        self.out.clone()
    }

    fn put(&mut self, text: &str) {
        self.out.extend_from_slice(text.as_bytes());
    }

    fn pick(&mut self, from: &[&'static str]) -> &'static str {
        from[self.random.below(from.len())]
    }

    fn between(&mut self) {
        let text = self.pick(&BETWEEN);
        self.put(text);
    }

    fn document(&mut self) {
        let other = self.wide && self.random.once_in(12);
        let declaration = self.pick(if other { &OTHER_DECLARATIONS } else { &DECLARATIONS });
        self.put(declaration);
        self.between();
        self.tag("osmChange", &[("version", "0.6"), ("generator", "x")], |files| {
            for _ in 0..files.random.below(4) {
                files.between();
                match files.random.below(8) {
                    0 => files.tag("bounds", &[("minlat", "1")], |_| {}),
                    1 => files.tag("a", &[], |files| files.between()),
                    2 if files.odd() => files.element(),
                    n => files.tag(["create", "modify", "delete"][n % 3], &[], Self::section),
                }
            }
        });
        self.between();
    }

    fn section(&mut self) {
        for _ in 0..self.random.below(4) {
            self.between();
            if self.odd() { self.child(1) } else { self.element() }
        }
    }

    /// Now and then in a wide file.
    fn odd(&mut self) -> bool {
        self.wide && self.random.once_in(30)
    }

    fn element(&mut self) {
        let kind = self.random.below(3);
        let id = (self.random.below(6) as i64 - 2).to_string();
        let mut fields = vec![("id", id), ("version", (2 + self.random.below(3)).to_string())];
        let signed = self.odd();
        fields.push(("timestamp", if signed { "2024-01-01T-1:00:00Z" } else { "2024-02-29T12:00:00Z" }.into()));
        fields.push(("changeset", self.random.below(9).to_string()));
        fields.push(("uid", "7".into()));
        fields.push(("user", self.pick(&TEXTS).into()));
        fields.push(("visible", self.pick(&["true", "false"]).into()));
        let nameless = self.odd();
        fields.retain(|(name, _)| (*name == "id" && !nameless) || self.random.once_in(2));
        if kind == 0 {
            for name in ["lat", "lon"] {
                let degrees = self.degrees();
                fields.push((if self.wide && self.random.once_in(20) { "lat7" } else { name }, degrees));
            }
        }
        let fields: Vec<(&str, &str)> = fields.iter().map(|(name, value)| (*name, &**value)).collect();
        self.tag(["node", "way", "relation"][kind], &fields, |files| {
            for _ in 0..files.random.below(4) {
                files.between();
                files.child(kind);
            }
        });
    }

    fn degrees(&mut self) -> String {
        match self.random.below(if self.wide { 10 } else { 8 }) {
            0 => "-0.5".into(),
            1 => "+90".into(),
            8 => self.pick(&["1e1", "91", ".5", "0.00000105"]).into(),
            _ => format!("{}.{:07}", self.random.below(90), self.random.below(10_000_000)),
        }
    }

    fn child(&mut self, kind: usize) {
        let (key, value) = (self.pick(&TEXTS), self.pick(&TEXTS));
        match self.random.below(4) * kind {
            _ if self.odd() => self.tag("member", &[("type", "x"), ("ref", "5")], |_| {}),
            0 | 1 => self.tag("tag", &[("k", key), ("v", value)], |_| {}),
            2 if kind == 1 => self.tag("nd", &[("ref", "5")], |_| {}),
            2 | 4 if kind == 2 => {
                let kind = self.pick(&["node", "way", "relation"]);
                self.tag("member", &[("type", kind), ("ref", "-3"), ("role", value)], |_| {});
            }
            _ => self.tag("bbox", &[], |files| files.between()),
        }
    }

    /// A tag: empty, or with what stands inside.
    fn tag(&mut self, name: &str, fields: &[(&str, &str)], inside: impl FnOnce(&mut Self)) {
        self.put("<");
        self.put(name);
        let turn = self.random.below(fields.len().max(1));
        for n in 0..fields.len() {
            let (name, value) = fields[(n + turn) % fields.len()];
            self.attribute(name, value);
        }
        let space = self.pick(&["", "", " ", "\n"]);
        self.put(space);
        if self.random.once_in(3) {
            return self.put("/>");
        }
        self.put(">");
        inside(self);
        let space = self.pick(&["", "", "", " ", "\r\n"]);
        self.put(&format!("</{name}{space}>"));
    }

    fn attribute(&mut self, name: &str, value: &str) {
        let space = self.pick(&[" ", " ", " ", "  ", "\n", "\t", "\r\n"]);
        let equals = self.pick(&["=", "=", "=", " = ", "\n="]);
        let quote = self.pick(&["\"", "'"]);
        self.put(&format!("{space}{name}{equals}{quote}"));
        let decoded = matches!(name, "k" | "v" | "user" | "role");
        let value = if self.odd() && self.random.once_in(3) { "x" } else { value };
        for c in value.chars() {
            let written = self.written(c, quote, decoded);
            self.put(&written);
        }
        if self.wide && self.random.once_in(40) {
            let space = self.pick(&["\t", "\n", "\r", "\r\n", "\n\r"]);
            self.put(space);
        }
        self.put(quote);
    }

    /// A character of a value: as it stands, or by a reference where it has to be or may.
    fn written(&mut self, c: char, quote: &str, decoded: bool) -> String {
        let may = decoded || (self.wide && self.random.once_in(30));
        let must = matches!(c, '<' | '&' | '\t' | '\n' | '\r') || quote.contains(c);
        if !must && !(may && self.random.once_in(6)) {
            return c.into();
        }
        let named = [('<', "&lt;"), ('>', "&gt;"), ('&', "&amp;"), ('"', "&quot;"), ('\'', "&apos;")];
        let named = named.iter().find(|(known, _)| *known == c);
        let code = u32::from(c);
        match (self.random.below(4), named) {
            (0 | 1, Some((_, name))) => (*name).into(),
            (0, _) => format!("&#{code:05};"),
            (1, _) => format!("&#x{code:X};"),
            (2, _) => format!("&#x{code:04x};"),
            _ => format!("&#{code};"),
        }
    }

    /// One place changed.
    fn damage(&mut self) {
        let at = self.random.below(self.out.len() + 1);
        let until = (at + 1 + self.random.below(6)).min(self.out.len());
        match self.random.below(9) {
            0 => drop(self.out.drain(at..until)),
            1 => self.out.truncate(at),
            2 => {
                let again = self.out[at..until].to_vec();
                self.out.splice(at..at, again);
            }
            3 if self.random.once_in(20) => {
                let long = b" x=\"y".iter().copied().chain([b'z'; 16_400]).chain(*b"\"");
                self.out.splice(at..at, long);
            }
            4 | 5 => self.damage_tag(at),
            _ => {
                let piece = PIECES[self.random.below(PIECES.len())];
                self.out.splice(at..at, piece.iter().copied());
            }
        }
    }

    /// A piece put in at the end of a name or a value, where more of them are well formed.
    fn damage_tag(&mut self, at: usize) {
        let piece = PIECES[self.random.below(PIECES.len())];
        let near = self.out[at..].iter().position(|&b| matches!(b, b'"' | b'\'' | b' ' | b'>' | b'<'));
        let at = near.map_or(at, |near| at + near);
        self.out.splice(at..at, piece.iter().copied());
    }
}

/// Frames for a soup of pieces: each place where a rule of XML holds.
const FRAMES: [(&str, &str); 10] = [
    ("<r>", "</r>"),
    ("<r ", "/>"),
    ("<r a=\"", "\"/>"),
    ("<r a='", "'/>"),
    ("<r>", "<"),
    ("<r><", "/></r>"),
    ("<r><!--", "--></r>"),
    ("<r><?", "?></r>"),
    ("<?xml ", "?><r/>"),
    ("<r></r", ">"),
];

const SOUP: &str = "a|b|x|m|l|X|1|.|:|-|--|>|<|/|/>|?|?>|=|\"|'| |  |\n|\t|\r|\r\n|&|&amp;|&lt;|&apos;|&#65;|&#x41;|&#|;|#|!|\
<!--|-->|<a>|</a>|<a/>|<b c=\"d\"/>|</r>|<r>|e=\"f\"|e='f'|version=\"1.0\"|encoding=\"UTF-8\"|standalone=\"no\"|xml|]]>|]]|\
\u{e9}|\u{d7}|\u{b7}|\u{132}|\u{ffff}|\u{1}|\u{20000}|text";

/// A small file out of XML's pieces, not an OsmChange one.
pub fn soup(random: &mut Random) -> Vec<u8> {
    let pieces: Vec<&str> = SOUP.split('|').collect();
    let (front, back) = *random.pick(&FRAMES);
    let mut out = String::from(front);
    for _ in 0..random.below(7) {
        let _ = write!(out, "{}", random.pick(&pieces));
    }
    out.push_str(back);
    let mut out = out.into_bytes();
    if random.once_in(20) {
        let at = random.below(out.len() + 1);
        out.insert(at, random.draw() as u8);
    }
    out
}
