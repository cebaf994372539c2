//! One markup of a file, by the productions of XML 1.0, fifth edition; their numbers stand in brackets.
//!
//! A markup begins at its `<`. It is a start tag, an empty-element tag, an end tag, a comment, a processing instruction, or
//! at the file's beginning the XML declaration. Whatever else begins with `<` is not well formed by itself, or unsupported.

use judge::lines::{escape, is_xml_char};

/// Why a markup is refused with 25.
#[derive(Clone, Copy, Debug, PartialEq, Eq, PartialOrd, Ord)]
pub enum Fault {
    /// The file ends inside of it.
    Cut,
    /// Bytes that are no UTF-8, or a character that production 2 excludes.
    NoText,
    Doctype,
    Cdata,
    /// `<!` and something else.
    Bang,
    Comment,
    Instruction,
    /// A target `xml` in any case, where no declaration may stand.
    Reserved,
    Declaration,
    /// An encoding other than UTF-8.
    Encoding,
    /// A name that is none, behind `<`.
    Name,
    /// No white space before an attribute.
    Space,
    /// An attribute's name that is none.
    AttributeName,
    /// Anything else of a tag, behind its name.
    Tag,
    EndTag,
    /// `<` in a value.
    LessThan,
    /// `&` in a value that begins neither a reference to a character nor one of the five entities.
    Reference,
    /// A reference to a character that production 2 excludes.
    Excluded,
    /// An attribute twice.
    Twice,
}

#[derive(Clone, Debug, PartialEq, Eq)]
pub struct Attribute {
    pub name: String,
    /// As 3.3.3 normalizes it.
    pub value: String,
    pub references: usize,
    /// A reference with more than seven decimal or six hexadecimal digits.
    pub long_reference: bool,
    /// A tab or a line end that stands in it as such.
    pub raw_space: bool,
}

#[derive(Clone, Debug, PartialEq, Eq)]
pub struct Tag {
    pub name: String,
    pub attributes: Vec<Attribute>,
    pub empty: bool,
}

impl Tag {
    /// Document 01's line of the event.
    pub fn line(&self) -> String {
        let word = if self.empty { "empty" } else { "open" };
        let mut line = format!("{word}\t{}", self.name);
        for Attribute { name, value, .. } in &self.attributes {
            line.push_str(&format!("\t{name}={}", escape(value)));
        }
        line
    }

    /// "3.1, Well-formedness constraint: Unique Att Spec".
    pub fn names_twice(&self) -> bool {
        let mut names = std::collections::HashSet::new();
        !self.attributes.iter().all(|attribute| names.insert(&attribute.name))
    }
}

#[derive(Clone, Debug, PartialEq, Eq)]
pub enum Markup {
    Tag(Tag),
    /// An end tag of this name.
    End(String),
    /// A comment or the declaration.
    Silent,
    /// With `>` before its end, or without.
    Instruction {
        greater: bool,
    },
}

/// How far a tag was read.
#[derive(Clone, Debug, Default, PartialEq, Eq)]
pub struct Begun {
    pub name: String,
    /// The names of its attributes before the one that is at fault.
    pub before: Vec<String>,
    /// The attribute whose value is at fault.
    pub within: Option<String>,
}

impl Begun {
    /// A tag with an attribute twice, as far as to its second place.
    pub fn twice(tag: &Tag) -> Self {
        let names: Vec<String> = tag.attributes.iter().map(|attribute| attribute.name.clone()).collect();
        let second = (0..names.len()).find(|&n| names[..n].contains(&names[n])).unwrap_or(names.len());
        Self { name: tag.name.clone(), before: names[..second].to_vec(), within: None }
    }
}

/// The characters of a file from some byte on.
struct Cursor<'a> {
    rest: &'a [u8],
}

type Found<T> = Result<T, Fault>;

impl Cursor<'_> {
    /// The next character and its bytes. "2.11 .. translating both the two-character sequence #xD #xA and any #xD that is not
    /// followed by #xA to a single #xA character".
    fn look(&self) -> Found<(char, usize)> {
        let Some(&first) = self.rest.first() else { return Err(Fault::Cut) };
        if first == b'\r' {
            return Ok(('\n', if self.rest.get(1) == Some(&b'\n') { 2 } else { 1 }));
        }
        let length = [0x80, 0xe0, 0xf0].iter().position(|&above| first < above).unwrap_or(3) + 1;
        let Some(bytes) = self.rest.get(..length) else { return Err(Fault::NoText) };
        let text = std::str::from_utf8(bytes).map_err(|_| Fault::NoText)?;
        let c = text.chars().next().filter(|&c| is_xml_char(c)).ok_or(Fault::NoText)?;
        assert_eq!(c.len_utf8(), length);
        Ok((c, length))
    }

    fn take(&mut self) -> Found<char> {
        let (c, length) = self.look()?;
        self.rest = &self.rest[length..];
        Ok(c)
    }

    /// The next character where it is such a one.
    fn take_if(&mut self, such: impl Fn(char) -> bool) -> Found<Option<char>> {
        let (c, _) = self.look()?;
        if such(c) { self.take().map(Some) } else { Ok(None) }
    }

    /// Whether this text comes next; then it is taken.
    fn take_text(&mut self, text: &str) -> bool {
        let rest = self.rest.strip_prefix(text.as_bytes());
        self.rest = rest.unwrap_or(self.rest);
        rest.is_some()
    }

    /// This text, or the fault; cut where the file ends in it.
    fn expect(&mut self, text: &str, fault: Fault) -> Found<()> {
        for expected in text.chars() {
            if self.take()? != expected {
                return Err(fault);
            }
        }
        Ok(())
    }

    /// [3] `S?`: whether there was any.
    fn spaces(&mut self) -> Found<bool> {
        let mut any = false;
        while self.take_if(is_space)?.is_some() {
            any = true;
        }
        Ok(any)
    }

    /// [5]
    fn name(&mut self, fault: Fault) -> Found<String> {
        let mut name = String::from(self.take_if(is_name_start)?.ok_or(fault)?);
        while let Some(c) = self.take_if(is_name_char)? {
            name.push(c);
        }
        Ok(name)
    }

    /// [25] `S? '=' S?`
    fn equals(&mut self, fault: Fault) -> Found<()> {
        self.spaces()?;
        self.expect("=", fault)?;
        self.spaces().map(drop)
    }

    fn quote(&mut self, fault: Fault) -> Found<char> {
        self.take_if(|c| matches!(c, '"' | '\''))?.ok_or(fault)
    }
}

/// [3]
fn is_space(c: char) -> bool {
    matches!(c, ' ' | '\t' | '\r' | '\n')
}

/// [4]
fn is_name_start(c: char) -> bool {
    matches!(c,
        ':' | 'A'..='Z' | '_' | 'a'..='z' | '\u{C0}'..='\u{D6}' | '\u{D8}'..='\u{F6}' | '\u{F8}'..='\u{2FF}'
        | '\u{370}'..='\u{37D}' | '\u{37F}'..='\u{1FFF}' | '\u{200C}'..='\u{200D}' | '\u{2070}'..='\u{218F}'
        | '\u{2C00}'..='\u{2FEF}' | '\u{3001}'..='\u{D7FF}' | '\u{F900}'..='\u{FDCF}' | '\u{FDF0}'..='\u{FFFD}'
        | '\u{10000}'..='\u{EFFFF}')
}

/// [4a]
fn is_name_char(c: char) -> bool {
    is_name_start(c) || matches!(c, '-' | '.' | '0'..='9' | '\u{B7}' | '\u{300}'..='\u{36F}' | '\u{203F}'..='\u{2040}')
}

/// The markup at the beginning of `rest`, which is a `<`, and its length. At the file's beginning, or behind the byte order mark
/// there, it may be the declaration. Or the fault, and how far a tag was read.
pub fn markup(rest: &[u8], first: bool) -> Result<(Markup, usize), (Fault, Begun)> {
    let (mut cursor, mut begun) = (Cursor { rest }, Begun::default());
    match any(&mut cursor, first, &mut begun) {
        Ok(found) => Ok((found, rest.len() - cursor.rest.len())),
        Err(fault) => Err((fault, begun)),
    }
}

fn any(cursor: &mut Cursor<'_>, first: bool, begun: &mut Begun) -> Found<Markup> {
    cursor.expect("<", Fault::Name)?;
    match cursor.look()?.0 {
        '/' => end_tag(cursor),
        '!' => comment(cursor),
        '?' => instruction(cursor, first),
        _ => tag(cursor, begun).map(Markup::Tag),
    }
}

/// [40] `'<' Name (S Attribute)* S? '>'`, [44] `'<' Name (S Attribute)* S? '/>'`
fn tag(cursor: &mut Cursor<'_>, begun: &mut Begun) -> Found<Tag> {
    let name = cursor.name(Fault::Name)?;
    begun.name.clone_from(&name);
    let mut attributes = Vec::new();
    loop {
        let spaced = cursor.spaces()?;
        let empty = cursor.take_text("/");
        if empty || cursor.take_text(">") {
            if empty {
                let goes_on = !is_space(cursor.look()?.0);
                cursor.expect(">", if goes_on { Fault::AttributeName } else { Fault::Tag })?;
            }
            return Ok(Tag { name, attributes, empty });
        }
        // a character that is none has no place before its space
        cursor.look()?;
        if !spaced {
            return Err(Fault::Space);
        }
        let found = attribute(cursor, begun)?;
        begun.before.push(found.name.clone());
        attributes.push(found);
    }
}

/// [41] `Name Eq AttValue`, [10]: between the same quotes anything but `<`, and `&` in references alone.
fn attribute(cursor: &mut Cursor<'_>, begun: &mut Begun) -> Found<Attribute> {
    let name = cursor.name(Fault::AttributeName)?;
    let ends = cursor.rest.starts_with(b"/>") || matches!(cursor.look()?.0, '=' | '>');
    let goes_on = !ends && !is_space(cursor.look()?.0);
    cursor.equals(if goes_on { Fault::AttributeName } else { Fault::Tag })?;
    let quote = cursor.quote(Fault::Tag)?;
    begun.within = Some(name.clone());
    let mut found = Attribute { name, value: String::new(), references: 0, long_reference: false, raw_space: false };
    loop {
        match cursor.take()? {
            '<' => return Err(Fault::LessThan),
            '&' => {
                let (c, long) = reference(cursor)?;
                found.value.push(c);
                found.references += 1;
                found.long_reference |= long;
            }
            // "for a white space character (#x20, #xD, #xA, #x9), append a space character"
            '\t' | '\n' => {
                found.value.push(' ');
                found.raw_space = true;
            }
            c if c == quote => {
                begun.within = None;
                return Ok(found);
            }
            c => found.value.push(c),
        }
    }
}

/// Behind the `&`: [68] with the five names that need no declaration (4.6), [66]. Whether it is long too.
fn reference(cursor: &mut Cursor<'_>) -> Found<(char, bool)> {
    if !cursor.take_text("#") {
        let name = cursor.name(Fault::Reference)?;
        cursor.expect(";", Fault::Reference)?;
        let names = [("amp", '&'), ("lt", '<'), ("gt", '>'), ("apos", '\''), ("quot", '"')];
        let named = names.iter().find(|(known, _)| *known == name);
        return named.map(|&(_, c)| (c, false)).ok_or(Fault::Reference);
    }
    let (base, most) = if cursor.take_text("x") { (16, 6) } else { (10, 7) };
    let (mut code, mut digits) = (0u32, 0);
    while let Some(c) = cursor.take_if(|c| c.is_digit(base))? {
        let digit = c.to_digit(base).expect("a digit");
        // past the last character all are the same
        code = (code * base + digit).min(0x11_0000);
        digits += 1;
    }
    cursor.expect(";", Fault::Reference)?;
    if digits == 0 {
        return Err(Fault::Reference);
    }
    let c = char::from_u32(code).filter(|&c| is_xml_char(c));
    Ok((c.ok_or(Fault::Excluded)?, digits > most))
}

/// [42] `'</' Name S? '>'`
fn end_tag(cursor: &mut Cursor<'_>) -> Found<Markup> {
    cursor.expect("/", Fault::EndTag)?;
    let name = cursor.name(Fault::EndTag)?;
    cursor.spaces()?;
    cursor.expect(">", Fault::EndTag)?;
    Ok(Markup::End(name))
}

/// [15] `'<!--' ((Char - '-') | ('-' (Char - '-')))* '-->'`
fn comment(cursor: &mut Cursor<'_>) -> Found<Markup> {
    // quick-xml 0.26 knows these in any case
    let begins = |word: &str| cursor.rest.get(..word.len()).is_some_and(|b| b.eq_ignore_ascii_case(word.as_bytes()));
    if begins("!DOCTYPE") {
        return Err(Fault::Doctype);
    }
    if begins("![CDATA[") {
        return Err(Fault::Cdata);
    }
    cursor.expect("!--", Fault::Bang)?;
    loop {
        if cursor.take()? == '-' && cursor.take()? == '-' {
            return cursor.expect(">", Fault::Comment).map(|()| Markup::Silent);
        }
    }
}

/// [16] `'<?' PITarget (S (Char* - (Char* '?>' Char*)))? '?>'`, [17] `Name - (('X' | 'x') ('M' | 'm') ('L' | 'l'))`
fn instruction(cursor: &mut Cursor<'_>, first: bool) -> Found<Markup> {
    cursor.expect("?", Fault::Instruction)?;
    let target = cursor.name(Fault::Instruction)?;
    let spaced = cursor.spaces()?;
    if target == "xml" && first {
        return if spaced { declaration(cursor) } else { Err(Fault::Declaration) };
    }
    if target.eq_ignore_ascii_case("xml") {
        return Err(Fault::Reserved);
    }
    if !spaced {
        return cursor.expect("?>", Fault::Instruction).map(|()| Markup::Instruction { greater: false });
    }
    let mut greater = false;
    loop {
        if cursor.take_text("?>") {
            return Ok(Markup::Instruction { greater });
        }
        greater |= cursor.take()? == '>';
    }
}

/// [23] `'<?xml' VersionInfo EncodingDecl? SDDecl? S? '?>'`, [24] `S 'version' Eq ..`, [80] `S 'encoding' Eq ..`,
/// [32] `S 'standalone' Eq ..`: from behind `<?xml` and white space.
fn declaration(cursor: &mut Cursor<'_>) -> Found<Markup> {
    cursor.expect("version", Fault::Declaration)?;
    let version = quoted(cursor)?;
    // [26] `'1.' [0-9]+`
    let minor = version.strip_prefix("1.").filter(|minor| !minor.is_empty());
    if !minor.is_some_and(|minor| minor.bytes().all(|b| b.is_ascii_digit())) {
        return Err(Fault::Declaration);
    }
    let mut spaced = cursor.spaces()?;
    if spaced && cursor.take_text("encoding") {
        let encoding = quoted(cursor)?;
        if !encoding.eq_ignore_ascii_case("UTF-8") {
            return Err(if is_encoding_name(&encoding) { Fault::Encoding } else { Fault::Declaration });
        }
        spaced = cursor.spaces()?;
    }
    if spaced && cursor.take_text("standalone") {
        if !matches!(&*quoted(cursor)?, "yes" | "no") {
            return Err(Fault::Declaration);
        }
        cursor.spaces()?;
    }
    cursor.expect("?>", Fault::Declaration).map(|()| Markup::Silent)
}

/// `Eq` and a text in quotes.
fn quoted(cursor: &mut Cursor<'_>) -> Found<String> {
    cursor.equals(Fault::Declaration)?;
    let quote = cursor.quote(Fault::Declaration)?;
    let mut text = String::new();
    loop {
        match cursor.take()? {
            c if c == quote => return Ok(text),
            c => text.push(c),
        }
    }
}

/// [81] `[A-Za-z] ([A-Za-z0-9._] | '-')*`
fn is_encoding_name(text: &str) -> bool {
    text.starts_with(|c: char| c.is_ascii_alphabetic())
        && text.bytes().all(|b| b.is_ascii_alphanumeric() || matches!(b, b'.' | b'_' | b'-'))
}
