//! Records: 8 bytes, kind, a, b, r, then the value: portions and diet portions, low bytes first.

use crate::{Bench, Refusal, Value};

/// The fields of a record as they stand in its bytes; processes are numbered from 1.
#[derive(Clone, Copy, PartialEq, Eq, Debug, Default)]
pub struct Record {
    pub kind: u8,
    pub a: u8,
    pub b: u8,
    pub r: u8,
    pub value: Value,
}

/// What travels: the estimate of a round, or the decision.
#[derive(Clone, Copy, PartialEq, Eq, Debug)]
pub enum Message {
    Estimate { round: u8 },
    Decision,
}

/// A record that passed checks 3 to 5 and 15; processes are counted from 0.
#[derive(Clone, Copy, PartialEq, Eq, Debug)]
pub enum Event {
    Start {
        a: usize,
        value: Value,
    },
    Send {
        a: usize,
        b: usize,
    },
    Arrive {
        a: usize,
        b: usize,
        message: Message,
    },
    Close {
        a: usize,
    },
    /// Paper: stop.
    Crash {
        a: usize,
    },
    /// Paper: notice.
    Suspect {
        a: usize,
        b: usize,
    },
}

impl Message {
    /// Its place among the messages of one sender.
    pub fn slot(self) -> usize {
        match self {
            Message::Estimate { round } => round as usize,
            Message::Decision => 0,
        }
    }
}

impl Event {
    /// The process that the record is about to change.
    pub fn actor(self) -> usize {
        match self {
            Event::Arrive { b, .. } => b,
            Event::Start { a, .. }
            | Event::Send { a, .. }
            | Event::Close { a }
            | Event::Crash { a }
            | Event::Suspect { a, .. } => a,
        }
    }
}

impl Record {
    /// The opening record of a program's input.
    pub const OPEN: u8 = 0;

    pub fn new(kind: u8, a: u8, b: u8, r: u8, value: Value) -> Record {
        Record { kind, a, b, r, value }
    }

    pub fn open(n: u8, t: u8) -> Record {
        Record::new(Record::OPEN, n, t, 0, Value::ZERO)
    }

    pub fn start(a: u8, portions: u16, diet: u16) -> Record {
        Record::new(1, a, 0, 0, Value { portions, diet })
    }

    pub fn send(a: u8, b: u8) -> Record {
        Record::new(2, a, b, 0, Value::ZERO)
    }

    /// Round 0 is the decision.
    pub fn arrive(a: u8, b: u8, r: u8) -> Record {
        Record::new(3, a, b, r, Value::ZERO)
    }

    pub fn close(a: u8) -> Record {
        Record::new(4, a, 0, 0, Value::ZERO)
    }

    pub fn crash(a: u8) -> Record {
        Record::new(5, a, 0, 0, Value::ZERO)
    }

    pub fn suspect(a: u8, b: u8) -> Record {
        Record::new(6, a, b, 0, Value::ZERO)
    }

    pub fn bytes(self) -> [u8; Bench::RECORD] {
        let v = self.value.bytes();
        [self.kind, self.a, self.b, self.r, v[0], v[1], v[2], v[3]]
    }

    /// The fields, or refusal 3.
    pub fn read(bytes: &[u8]) -> Result<Record, Refusal> {
        match *bytes {
            [kind, a, b, r, v0, v1, v2, v3] => {
                let value = Value::from_bytes([v0, v1, v2, v3]);
                Ok(Record { kind, a, b, r, value })
            }
            _ => Err(Refusal::Length),
        }
    }

    /// The event on a bench of n and t, or refusal 4, 5 or 15.
    pub fn event(self, n: u8, t: u8) -> Result<Event, Refusal> {
        let Record { kind, b, r, value, .. } = self;
        match kind {
            1 => {
                self.unused(b == 0 && r == 0)?;
                let a = index(self.a, n)?;
                value.check()?;
                Ok(Event::Start { a, value })
            }
            2 => {
                self.unused(r == 0 && value == Value::ZERO)?;
                let (a, b) = self.pair(n)?;
                Ok(Event::Send { a, b })
            }
            3 => {
                self.unused(value == Value::ZERO)?;
                let (a, b) = self.pair(n)?;
                Ok(Event::Arrive { a, b, message: message(r, t)? })
            }
            4 => Ok(Event::Close { a: self.alone(n)? }),
            5 => Ok(Event::Crash { a: self.alone(n)? }),
            6 => {
                self.unused(r == 0 && value == Value::ZERO)?;
                let (a, b) = self.pair(n)?;
                Ok(Event::Suspect { a, b })
            }
            _ => Err(Refusal::Kind),
        }
    }

    fn unused(self, zero: bool) -> Result<(), Refusal> {
        if zero {
            Ok(())
        } else {
            Err(Refusal::Field)
        }
    }

    /// a, where nothing else is used.
    fn alone(self, n: u8) -> Result<usize, Refusal> {
        self.unused(self.b == 0 && self.r == 0 && self.value == Value::ZERO)?;
        index(self.a, n)
    }

    /// a and b, which differ.
    fn pair(self, n: u8) -> Result<(usize, usize), Refusal> {
        let (a, b) = (index(self.a, n)?, index(self.b, n)?);
        if a == b {
            return Err(Refusal::Field);
        }
        Ok((a, b))
    }
}

/// A process number from 1 to n, as an index from 0.
pub fn index(number: u8, n: u8) -> Result<usize, Refusal> {
    if (1..=n).contains(&number) {
        Ok(number as usize - 1)
    } else {
        Err(Refusal::Field)
    }
}

fn message(r: u8, t: u8) -> Result<Message, Refusal> {
    match r {
        0 => Ok(Message::Decision),
        round if round <= t + 1 => Ok(Message::Estimate { round }),
        _ => Err(Refusal::Field),
    }
}

#[cfg(test)]
mod tests {
    use super::*;

    #[test]
    fn bytes_and_back() {
        let record = Record::start(3, 0x0304, 0x0102);
        assert_eq!(record.bytes(), [1, 3, 0, 0, 4, 3, 2, 1]);
        assert_eq!(Record::read(&record.bytes()), Ok(record));
        assert_eq!(Record::read(&[4, 1, 0, 0, 0, 0, 0]), Err(Refusal::Length));
        assert_eq!(Record::read(&[0; 9]), Err(Refusal::Length));
    }

    fn refused(kind: u8, a: u8, b: u8, r: u8, value: u32) -> u8 {
        Record::new(kind, a, b, r, Value::from_word(value)).event(3, 1).err().map_or(0, Refusal::number)
    }

    #[test]
    fn kinds() {
        assert_eq!(refused(0, 1, 0, 0, 0), 4);
        assert_eq!(refused(7, 1, 0, 0, 0), 4);
        assert_eq!(refused(255, 9, 9, 9, 9), 4);
    }

    #[test]
    fn unused_fields() {
        let good = [(1, 0, 0, 7), (2, 2, 0, 0), (3, 2, 2, 0), (4, 0, 0, 0), (5, 0, 0, 0), (6, 2, 0, 0)];
        for (kind, b, r, value) in good {
            assert_eq!(refused(kind, 1, b, r, value), 0);
            assert_eq!(refused(kind, 0, b, r, value), 5);
            assert_eq!(refused(kind, 4, b, r, value), 5);
            let uses_b = matches!(kind, 2 | 3 | 6);
            assert_eq!(refused(kind, 1, 3, r, value), if uses_b { 0 } else { 5 });
            assert_eq!(refused(kind, 1, 4, r, value), 5);
            assert_eq!(refused(kind, 1, 1, r, value), 5);
            if uses_b {
                assert_eq!(refused(kind, 1, 0, r, value), 5);
            }
            assert_eq!(refused(kind, 1, b, 1, value), if kind == 3 { 0 } else { 5 });
            assert_eq!(refused(kind, 1, b, 3, value), 5);
            assert_eq!(refused(kind, 1, b, r, 1 << 15), if kind == 1 { 0 } else { 5 });
            assert_eq!(refused(kind, 1, b, r, 1 << 31), if kind == 1 { 15 } else { 5 });
        }
    }
}
