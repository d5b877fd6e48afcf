//! What a call refuses, by number. `include/gerzulan.h` and `docs/FORMATS.md` have the same texts.

/// Why a call refused, each with its number. Its words are [`text`](Refusal::text); `docs/FORMATS.md` says what to do.
#[derive(Clone, Copy, PartialEq, Eq, PartialOrd, Ord, Hash, Debug)]
pub enum Refusal {
    /// 1: n is not 1 to 16, or t is not below n.
    Size,
    /// 2: The bench is damaged: out of range.
    Damaged,
    /// 3: The record is not 8 bytes long.
    Length,
    /// 4: There is no record of this kind.
    Kind,
    /// 5: A process, round or mark is out of range, a and b are the same, or an unused byte is not 0.
    Field,
    /// 6: The process that is to act has crashed.
    Crashed,
    /// 7: The protocol does not allow this now.
    NotDue,
    /// 8: The close still waits for an arrival or a suspicion.
    Waiting,
    /// 9: t processes have crashed already.
    CrashLimit,
    /// 10: The memory lent is too short, or there are not n entries.
    Slice,
    /// 11: The process has not decided.
    Undecided,
    /// 12: The entry is absent, or all are.
    Absent,
    /// 13: A record of the calendar is at fault, or the last one is not whole.
    Calendar,
    /// 14: No site takes part in this week.
    NoSite,
    /// 15: There are more diet portions than portions.
    Diet,
    /// 16: A value from before diet portions is above 65,535.
    LargeValue,
    /// A number that is none of these: the library is of another version.
    Unknown(u32),
}

use Refusal::*;

/// The refusals with their texts, the one of number k at k - 1.
const TABLE: [(Refusal, &str); 16] = [
    (Size, "n is not 1 to 16, or t is not below n"),
    (Damaged, "the bench is damaged: its n, t, a round, a set or a mark is out of range"),
    (Length, "the record is not 8 bytes long"),
    (Kind, "there is no record of this kind"),
    (Field, "a process, round or mark is out of range, a and b are the same, or an unused byte is not 0"),
    (Crashed, "the process that is to act has crashed"),
    (NotDue, "the protocol does not allow this now"),
    (Waiting, "the close still waits for an arrival or a suspicion"),
    (CrashLimit, "t processes have crashed already"),
    (Slice, "the memory lent is too short, or there are not n entries"),
    (Undecided, "the process has not decided"),
    (Absent, "the entry is absent, or all are"),
    (Calendar, "a record of the calendar is at fault, or the last one is not whole"),
    (NoSite, "no site takes part in this week"),
    (Diet, "there are more diet portions than portions"),
    (LargeValue, "a value from before diet portions is above 65,535"),
];

impl Refusal {
    /// The number that the library gives.
    pub fn number(self) -> u32 {
        match self {
            Size => 1,
            Damaged => 2,
            Length => 3,
            Kind => 4,
            Field => 5,
            Crashed => 6,
            NotDue => 7,
            Waiting => 8,
            CrashLimit => 9,
            Slice => 10,
            Undecided => 11,
            Absent => 12,
            Calendar => 13,
            NoSite => 14,
            Diet => 15,
            LargeValue => 16,
            Unknown(number) => number,
        }
    }

    /// The refusal of a number; `Unknown` for one that is not 1 to 16.
    pub fn from_number(number: u32) -> Refusal {
        row(number).map_or(Unknown(number), |(refusal, _)| refusal)
    }

    /// What it means, in a line.
    pub fn text(self) -> &'static str {
        let known = if let Unknown(_) = self { None } else { row(self.number()) };
        known.map_or("no refusal of this version has this number", |(_, text)| text)
    }

    /// 0 is no refusal.
    pub(crate) fn check(answer: u32) -> Result<(), Refusal> {
        match answer {
            0 => Ok(()),
            number => Err(Refusal::from_number(number)),
        }
    }

    /// What a reading call gives, or the refusal in the high half.
    pub(crate) fn check_high(answer: u64) -> Result<u32, Refusal> {
        Refusal::check((answer >> 32) as u32)?;
        Ok(answer as u32)
    }
}

/// The row of a number from 1.
fn row(number: u32) -> Option<(Refusal, &'static str)> {
    let place = usize::try_from(number).ok()?.checked_sub(1)?;
    TABLE.get(place).copied()
}

impl std::fmt::Display for Refusal {
    fn fmt(&self, f: &mut std::fmt::Formatter<'_>) -> std::fmt::Result {
        f.write_str(self.text())
    }
}

impl std::error::Error for Refusal {}
