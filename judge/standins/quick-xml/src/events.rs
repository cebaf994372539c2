//! The event types. A start's content is the event line from its name on.

use std::borrow::Cow;
use std::ops::Deref;

use attributes::Attributes;

#[derive(Clone, Debug)]
pub enum Event<'a> {
    Start(BytesStart<'a>),
    Empty(BytesStart<'a>),
    End(BytesEnd),
    Text(BytesText),
    Eof,
}

#[derive(Clone, Debug)]
pub struct BytesEnd;

#[derive(Clone, Debug)]
pub struct BytesText;

#[derive(Clone, Debug)]
pub struct BytesStart<'a> {
    content: Cow<'a, str>,
    name_len: usize,
}

impl<'a> BytesStart<'a> {
    pub fn from_content(content: impl Into<Cow<'a, str>>, name_len: usize) -> Self {
        Self { content: content.into(), name_len }
    }

    pub fn name(&self) -> QName<'_> {
        QName(&self.content[..self.name_len])
    }

    pub fn attributes(&self) -> Attributes<'_> {
        Attributes::of(&self.content[self.name_len..])
    }

    pub fn forms(&self) -> Forms {
        attributes::forms(&self.content[self.name_len..])
    }
}

/// In which forms an element has a coordinate.
#[derive(Clone, Copy, Debug, Default, PartialEq, Eq)]
pub struct Given {
    /// `lat7` or `lon7`.
    pub seven: bool,
    /// `lat` or `lon`.
    pub degrees: bool,
}

/// The same of latitude and longitude.
#[derive(Clone, Copy, Debug, Default, PartialEq, Eq)]
pub struct Forms {
    pub lat: Given,
    pub lon: Given,
}

impl Deref for BytesStart<'_> {
    type Target = str;

    fn deref(&self) -> &str {
        &self.content
    }
}

#[derive(Clone, Copy, Debug)]
pub struct QName<'a>(&'a str);

impl<'a> QName<'a> {
    pub fn into_inner(self) -> &'a str {
        self.0
    }
}

impl AsRef<str> for QName<'_> {
    fn as_ref(&self) -> &str {
        self.0
    }
}

pub mod attributes {
    use std::borrow::Cow;
    use std::convert::Infallible;

    use super::{Forms, Given, QName};
    use crate::XmlVersion;
    use crate::lines::unescape;

    /// Values that Rust's float reader refuses: for a `lat7` or `lon7` that document 01's integer reader refuses, and
    /// for a coordinate in both forms, which the Rust is not asked.
    pub const NO_INTEGER: &str = "not an i32";
    pub const BOTH_FORMS: &str = "in both forms";

    /// An event line's value is the text itself, so the raw and the normalized value are one.
    #[derive(Clone, Debug)]
    pub struct Attribute<'a> {
        pub key: QName<'a>,
        pub value: Cow<'a, str>,
    }

    impl Attribute<'_> {
        pub fn normalized_value(&self, _version: XmlVersion) -> Result<Cow<'_, str>, Infallible> {
            Ok(Cow::Borrowed(self.value.as_ref()))
        }
    }

    /// The attributes in line order. `lat` and `lon` are handed on as they stand, `lat7` and `lon7` under their names,
    /// which the published file asks for, as degrees with seven decimals.
    #[derive(Clone, Debug)]
    pub struct Attributes<'a> {
        fields: std::str::Split<'a, char>,
        forms: Forms,
    }

    /// `rest` is empty, or a tab and the fields.
    fn fields(rest: &str) -> std::str::Split<'_, char> {
        let mut fields = rest.split('\t');
        fields.next();
        fields
    }

    pub(super) fn forms(rest: &str) -> Forms {
        let mut forms = Forms::default();
        for (name, _) in fields(rest).filter_map(|field| field.split_once('=')) {
            match name {
                "lat" => forms.lat.degrees = true,
                "lat7" => forms.lat.seven = true,
                "lon" => forms.lon.degrees = true,
                "lon7" => forms.lon.seven = true,
                _ => {}
            }
        }
        forms
    }

    impl<'a> Attributes<'a> {
        pub(super) fn of(rest: &'a str) -> Self {
            Self { fields: fields(rest), forms: forms(rest) }
        }
    }

    impl<'a> Iterator for Attributes<'a> {
        type Item = Result<Attribute<'a>, Infallible>;

        fn next(&mut self) -> Option<Self::Item> {
            let (name, raw) = self.fields.next()?.split_once('=')?;
            let text = if raw.contains('\\') { Cow::Owned(unescape(raw)?) } else { Cow::Borrowed(raw) };
            let (name, value) = match name {
                "lat" | "lat7" => ("lat", degrees(self.forms.lat, text)),
                "lon" | "lon7" => ("lon", degrees(self.forms.lon, text)),
                _ => (name, text),
            };
            Some(Ok(Attribute { key: QName(name), value }))
        }
    }

    fn degrees(given: Given, text: Cow<'_, str>) -> Cow<'_, str> {
        match given {
            Given { seven: true, degrees: true } => Cow::Borrowed(BOTH_FORMS),
            Given { degrees: true, .. } => text,
            _ => text.parse().map_or(Cow::Borrowed(NO_INTEGER), |value| Cow::Owned(seven_decimals(value))),
        }
    }

    /// A whole number of 1e-7 degree as degrees.
    pub fn seven_decimals(value: i32) -> String {
        let sign = if value < 0 { "-" } else { "" };
        let size = value.unsigned_abs();
        format!("{sign}{}.{:07}", size / 10_000_000, size % 10_000_000)
    }
}
