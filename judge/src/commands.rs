//! Stand-in for `parse_rfc3339_utc`, whose file is not among the published ones: document 01's words, by which a
//! field may have a sign. Document 02's request 6 changes nothing here: the Rust goes on taking signs.

use std::fmt;

#[derive(Debug)]
pub struct NotAStamp;

impl fmt::Display for NotAStamp {
    fn fmt(&self, f: &mut fmt::Formatter<'_>) -> fmt::Result {
        f.write_str("not a timestamp")
    }
}

impl std::error::Error for NotAStamp {}

/// `YYYY-MM-DDTHH:MM:SSZ`, 20 bytes; each field as Rust's integer reader takes it.
pub fn parse_rfc3339_utc(text: &str) -> Result<i64, NotAStamp> {
    let bytes = text.as_bytes();
    let separators = [(4, b'-'), (7, b'-'), (10, b'T'), (13, b':'), (16, b':'), (19, b'Z')];
    if bytes.len() != 20 || separators.iter().any(|&(at, b)| bytes[at] != b) {
        return Err(NotAStamp);
    }
    let field = |from: usize, to: usize| text.get(from..to).and_then(|s| s.parse::<i64>().ok()).ok_or(NotAStamp);
    let (year, month, day) = (field(0, 4)?, field(5, 7)?, field(8, 10)?);
    let (hour, minute, second) = (field(11, 13)?, field(14, 16)?, field(17, 19)?);
    if !(1..=12).contains(&month) || day == 0 || day > month_len(year, month) {
        return Err(NotAStamp);
    }
    if hour > 23 || minute > 59 || second > 59 {
        return Err(NotAStamp);
    }
    let days = days_before_year(year) + days_before_month(year, month) + day - 1;
    Ok(days * 86_400 + hour * 3_600 + minute * 60 + second)
}

fn is_leap(year: i64) -> bool {
    year.rem_euclid(4) == 0 && (year.rem_euclid(100) != 0 || year.rem_euclid(400) == 0)
}

fn month_len(year: i64, month: i64) -> i64 {
    match month {
        4 | 6 | 9 | 11 => 30,
        2 if is_leap(year) => 29,
        2 => 28,
        _ => 31,
    }
}

fn days_before_month(year: i64, month: i64) -> i64 {
    (1..month).map(|m| month_len(year, m)).sum()
}

/// Days from 1970-01-01 to the first day of `year` in the proleptic Gregorian calendar.
fn days_before_year(year: i64) -> i64 {
    let leaps = |y: i64| y.div_euclid(4) - y.div_euclid(100) + y.div_euclid(400);
    365 * (year - 1970) + leaps(year - 1) - leaps(1969)
}
