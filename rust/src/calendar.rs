//! The calendar: which sites take part in a week.

use crate::{raw, Refusal, Week, RECORD_BYTES};

/// The record of a term: the site is open from the first day to the last, both counted. Day 0 is Monday 1 January 2024.
pub fn term(site: u8, first: u16, last: u16) -> [u8; RECORD_BYTES] {
    bytes(1, site, first, last)
}

/// The record of a time in which the site is closed, term or not.
pub fn closed(site: u8, first: u16, last: u16) -> [u8; RECORD_BYTES] {
    bytes(2, site, first, last)
}

fn bytes(kind: u8, site: u8, first: u16, last: u16) -> [u8; RECORD_BYTES] {
    let ([f0, f1], [l0, l1]) = (first.to_le_bytes(), last.to_le_bytes());
    [site, kind, f0, f1, l0, l1, 0, 0]
}

/// The sites that take part in a week, by a calendar of 8-byte records: site, kind (1 term, 2 closed), first and last
/// day, each 16 bits, low byte first, and two zero bytes. Day 0 is Monday 1 January 2024, and week w begins on day 7w.
/// [`term`] and [`closed`] make such records. Refused: `Calendar`, where a record is at fault (given alone, it is so too),
/// `NoSite`.
pub fn week(calendar: &[u8], week: u16) -> Result<Week, Refusal> {
    let mut out = Week::default();
    // SAFETY: the slice is passed whole; the struct is initialised, has the library's layout and is lent to this call
    // alone.
    let answer = unsafe { raw::gerzulan_calendar_week(calendar.as_ptr(), calendar.len(), week, &mut out) };
    Refusal::check(answer).map(|()| out)
}
