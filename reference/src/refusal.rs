//! The refusals and their numbers.

/// Why a call was refused. The number is the one of the paper's table.
#[derive(Clone, Copy, PartialEq, Eq, Debug)]
#[repr(u8)]
pub enum Refusal {
    /// n not 1 to 16, or t not below n.
    Size = 1,
    /// A state that is not sound.
    Damaged = 2,
    /// A record not of 8 bytes.
    Length = 3,
    /// A kind not 1 to 6.
    Kind = 4,
    /// A field out of range, or an unused one not 0.
    Field = 5,
    /// The acting process has crashed.
    Crashed = 6,
    /// The protocol does not allow the record now.
    NotDue = 7,
    /// A close that lacks only an arrival or a suspicion.
    Waiting = 8,
    /// A crash when t have crashed.
    CrashLimit = 9,
    /// A lent slice of the wrong length.
    Slice = 10,
    /// The global data of an undecided process.
    Undecided = 11,
    /// The aggregate needs an entry that is absent.
    Absent = 12,
    /// A faulty record in a calendar.
    Calendar = 13,
    /// A week in which no site takes part.
    NoSite = 14,
    /// More diet portions than portions, in a start or in an entry given to an aggregate.
    Diet = 15,
    /// A count above 65,535 in a bench of before diet portions.
    LargeCount = 16,
}

impl Refusal {
    /// The paper's number.
    pub fn number(self) -> u8 {
        self as u8
    }
}

/// 0 for what is accepted, else the refusal's number.
pub fn number<T>(answer: &Result<T, Refusal>) -> u8 {
    match answer {
        Ok(_) => 0,
        Err(refusal) => refusal.number(),
    }
}
