//! The event types.

use std::borrow::Cow;
use std::ops::Deref;
use std::str::{Utf8Error, from_utf8};

use attributes::Attributes;

pub enum Event<'a> {
    Start(BytesStart<'a>),
    Empty(BytesStart<'a>),
    End(BytesEnd),
    /// Text and everything else that the published file passes over.
    Text(BytesText),
    Eof,
}

pub struct BytesEnd;

pub struct BytesText;

/// A tag of 0.26 that is UTF-8.
pub struct BytesStart<'a>(real::events::BytesStart<'a>);

/// A part of what is UTF-8, cut at characters of ASCII.
fn text(bytes: &[u8]) -> &str {
    from_utf8(bytes).expect("a tag is UTF-8")
}

fn text_of(bytes: Cow<'_, [u8]>) -> Cow<'_, str> {
    match bytes {
        Cow::Borrowed(bytes) => Cow::Borrowed(text(bytes)),
        Cow::Owned(bytes) => Cow::Owned(String::from_utf8(bytes).expect("a tag is UTF-8")),
    }
}

impl<'a> BytesStart<'a> {
    pub fn from_content(content: impl Into<Cow<'a, str>>, name_len: usize) -> Self {
        Self(real::events::BytesStart::from_content(content, name_len))
    }

    pub(crate) fn of(tag: real::events::BytesStart<'a>) -> Result<Self, Utf8Error> {
        from_utf8(&tag)?;
        Ok(Self(tag))
    }

    pub fn name(&self) -> QName<'_> {
        QName(text(self.0.name().into_inner()))
    }

    pub fn attributes(&self) -> Attributes<'_> {
        Attributes(self.0.attributes())
    }
}

impl From<Utf8Error> for crate::Error {
    fn from(err: Utf8Error) -> Self {
        Self::Xml(err.into())
    }
}

impl Deref for BytesStart<'_> {
    type Target = str;

    fn deref(&self) -> &str {
        text(&self.0)
    }
}

#[derive(Clone, Copy)]
pub struct QName<'a>(&'a str);

impl<'a> QName<'a> {
    pub fn into_inner(self) -> &'a str {
        self.0
    }
}

impl AsRef<str> for QName<'_> {
    fn as_ref(&self) -> &str {
        self.0
    }
}

pub mod attributes {
    use std::borrow::Cow;
    use std::fmt;

    use super::{QName, text, text_of};
    use crate::XmlVersion;

    pub struct Attribute<'a> {
        pub key: QName<'a>,
        pub value: Cow<'a, str>,
    }

    /// What 0.26 says of a reference.
    #[derive(Debug)]
    pub struct BadReference(real::Error);

    impl fmt::Display for BadReference {
        fn fmt(&self, f: &mut fmt::Formatter<'_>) -> fmt::Result {
            fmt::Display::fmt(&self.0, f)
        }
    }

    impl std::error::Error for BadReference {}

    impl Attribute<'_> {
        /// 0.26 resolves references and leaves white space as it stands. By XML 1.0 (2.11, 3.3.3) a raw line end is one line
        /// feed, and raw white space a space each; values with a raw tab or line end are not compared.
        pub fn normalized_value(&self, _version: XmlVersion) -> Result<Cow<'_, str>, BadReference> {
            let spaced = self.value.replace("\r\n", " ").replace(['\r', '\n', '\t'], " ");
            let value = real::escape::unescape(&spaced).map_err(|err| BadReference(err.into()))?;
            Ok(Cow::Owned(value.into_owned()))
        }
    }

    pub struct Attributes<'a>(pub(super) real::events::attributes::Attributes<'a>);

    impl<'a> Iterator for Attributes<'a> {
        type Item = Result<Attribute<'a>, real::events::attributes::AttrError>;

        fn next(&mut self) -> Option<Self::Item> {
            let found = self.0.next()?;
            Some(found.map(|attribute| Attribute {
                key: QName(text(attribute.key.into_inner())),
                value: text_of(attribute.value),
            }))
        }
    }
}
