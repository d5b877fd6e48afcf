//! The calendar: which sites (paper: kitchens) take part in a week, and as which processes (paper: terminals).
//!
//! Day 0 is Monday 1 January 2024; week w is days 7w to 7w+6. The days of a late week are past those of any record, so
//! a day of a week is 32 bits.

use crate::Refusal;

pub const RECORD: usize = 8;
pub const SITES: usize = 16;
/// Monday to Friday.
const WORKING_DAYS: usize = 5;

#[derive(Clone, Copy, PartialEq, Eq, Debug)]
#[repr(u8)]
pub enum Kind {
    Term = 1,
    Closed = 2,
}

/// A record without fault. First and last day both count.
#[derive(Clone, Copy, PartialEq, Eq, Debug)]
pub struct Entry {
    /// From 1.
    pub site: u8,
    pub kind: Kind,
    pub first: u16,
    pub last: u16,
}

/// What is wrong with a record, each a cause of refusal 13.
#[derive(Clone, Copy, PartialEq, Eq, Debug)]
pub enum Fault {
    Partial,
    Site,
    Kind,
    FirstAfterLast,
    LastBytes,
}

impl Entry {
    pub fn read(bytes: &[u8]) -> Result<Entry, Fault> {
        let &[site, kind, f0, f1, l0, l1, z0, z1] = bytes else { return Err(Fault::Partial) };
        if site < 1 || site > SITES as u8 {
            return Err(Fault::Site);
        }
        let kind = match kind {
            1 => Kind::Term,
            2 => Kind::Closed,
            _ => return Err(Fault::Kind),
        };
        let (first, last) = (u16::from_le_bytes([f0, f1]), u16::from_le_bytes([l0, l1]));
        if first > last {
            return Err(Fault::FirstAfterLast);
        }
        if z0 != 0 || z1 != 0 {
            return Err(Fault::LastBytes);
        }
        Ok(Entry { site, kind, first, last })
    }

    pub fn bytes(self) -> [u8; RECORD] {
        let ([f0, f1], [l0, l1]) = (self.first.to_le_bytes(), self.last.to_le_bytes());
        [self.site, self.kind as u8, f0, f1, l0, l1, 0, 0]
    }

    fn has(self, day: u32) -> bool {
        self.first as u32 <= day && day <= self.last as u32
    }
}

/// What the records of a site say of one day.
#[derive(Clone, Copy, Default)]
struct Day {
    in_term: bool,
    closed: bool,
}

impl Day {
    fn is_open(self) -> bool {
        self.in_term && !self.closed
    }
}

/// Monday to Friday of a week at one site.
#[derive(Clone, Copy, Default)]
struct WorkingDays([Day; WORKING_DAYS]);

impl WorkingDays {
    /// Notes a record of the site, without a branch, since days and kinds are in no order that a processor could guess.
    fn note(&mut self, entry: Entry, week: u16) {
        for (i, day) in self.0.iter_mut().enumerate() {
            let has = entry.has(7 * week as u32 + i as u32);
            day.in_term |= has & (entry.kind == Kind::Term);
            day.closed |= has & (entry.kind == Kind::Closed);
        }
    }

    fn takes_part(&self) -> bool {
        self.0.iter().any(|day| day.is_open())
    }
}

/// The bench of a week: n, and the numbering both ways, 0 for none.
#[repr(C)]
#[derive(Clone, Copy, PartialEq, Eq, Debug, Default)]
pub struct Week {
    pub n: u8,
    /// Of site s at s - 1.
    pub process_of: [u8; SITES],
    /// Of process p at p - 1.
    pub site_of: [u8; SITES],
}

impl Week {
    pub const BYTES: usize = 1 + 2 * SITES;

    /// Gives the next process number to this site.
    fn add(&mut self, site: usize) {
        self.site_of[self.n as usize] = site as u8;
        self.n += 1;
        self.process_of[site - 1] = self.n;
    }

    pub fn bytes(&self) -> [u8; Week::BYTES] {
        let mut bytes = [self.n; Week::BYTES];
        bytes[1..=SITES].copy_from_slice(&self.process_of);
        bytes[SITES + 1..].copy_from_slice(&self.site_of);
        bytes
    }
}

/// The bench of a week. Any faulty record is refused with 13; then a week in which no site takes part with 14.
pub fn week(calendar: &[u8], week: u16) -> Result<Week, Refusal> {
    let mut sites = [WorkingDays::default(); SITES];
    for bytes in calendar.chunks(RECORD) {
        let entry = Entry::read(bytes).map_err(|_| Refusal::Calendar)?;
        sites[entry.site as usize - 1].note(entry, week);
    }
    let mut bench = Week::default();
    for site in 1..=SITES {
        if sites[site - 1].takes_part() {
            bench.add(site);
        }
    }
    if bench.n == 0 {
        return Err(Refusal::NoSite);
    }
    Ok(bench)
}
