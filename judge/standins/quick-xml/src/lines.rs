//! Event lines, by document 01's words: which bytes are a line, which lines are text, which are events.

/// The longest line, without its line feed.
pub const LINE_MAX: usize = 16_384;

/// XML 1.0's production `Char`.
pub fn is_xml_char(c: char) -> bool {
    matches!(u32::from(c),
        0x9 | 0xA | 0xD | 0x20..=0xD7FF | 0xE000..=0xFFFD | 0x1_0000..=0x10_FFFF)
}

/// Well-formed UTF-8 of XML 1.0 characters.
pub fn text(bytes: &[u8]) -> Option<&str> {
    std::str::from_utf8(bytes).ok().filter(|s| s.chars().all(is_xml_char))
}

/// A line that passed the line checks.
#[derive(Clone, Copy, Debug, PartialEq, Eq)]
pub enum Line<'a> {
    /// The content is the line from its name on.
    Open {
        empty: bool,
        content: &'a str,
        name_len: usize,
    },
    Close,
    Other,
}

/// Judge one line, given without its line feed; `ended` says whether it had one.
/// The refusals are 2, 3 and 4, in that order.
pub fn judge_line(bytes: &[u8], ended: bool) -> Result<Line<'_>, u32> {
    if bytes.len() > LINE_MAX {
        return Err(2);
    }
    let line = text(bytes).filter(|s| !s.contains('\r')).ok_or(3u32)?;
    if !ended || line.contains('\n') {
        return Err(4);
    }
    match line {
        "close" => return Ok(Line::Close),
        "other" => return Ok(Line::Other),
        _ => {}
    }
    let (word, content) = line.split_once('\t').ok_or(4u32)?;
    let empty = match word {
        "open" => false,
        "empty" => true,
        _ => return Err(4),
    };
    let mut fields = content.split('\t');
    let name_len = fields.next().map_or(0, str::len);
    if name_len == 0 {
        return Err(4);
    }
    let mut names = std::collections::HashSet::new();
    for field in fields {
        let (name, value) = field.split_once('=').ok_or(4u32)?;
        if name.is_empty() || unescape(value).is_none() || !names.insert(name) {
            return Err(4);
        }
    }
    Ok(Line::Open { empty, content, name_len })
}

/// The text that a value stands for; none where an escape is not one of the four.
pub fn unescape(value: &str) -> Option<String> {
    let mut out = String::with_capacity(value.len());
    let mut rest = value.chars();
    while let Some(c) = rest.next() {
        out.push(match c {
            '\\' => match rest.next()? {
                't' => '\t',
                'n' => '\n',
                'r' => '\r',
                '\\' => '\\',
                _ => return None,
            },
            other => other,
        });
    }
    Some(out)
}

/// The value that stands for a text.
pub fn escape(text: &str) -> String {
    let mut out = String::with_capacity(text.len());
    for c in text.chars() {
        match c {
            '\t' => out.push_str("\\t"),
            '\n' => out.push_str("\\n"),
            '\r' => out.push_str("\\r"),
            '\\' => out.push_str("\\\\"),
            other => out.push(other),
        }
    }
    out
}
