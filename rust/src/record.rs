//! Records: 8 bytes, kind, a, b, r, then the word of a value, low byte first. Unused bytes are 0.

use crate::{Value, RECORD_BYTES};

/// A record by its meaning. Its numbers may be any: whether it is accepted is for the bench to say.
#[derive(Clone, Copy, PartialEq, Eq, Hash, Debug)]
pub enum Record {
    /// The opening record of a schedule file. `Bench::open` opens; a bench refuses this record by `Kind`.
    Open {
        /// Processes.
        n: u8,
        /// How many may crash.
        t: u8,
    },
    /// A process starts.
    Start {
        /// The process.
        process: u8,
        /// What it starts with.
        value: Value,
    },
    /// A process sends what it owes another.
    Send {
        /// The sender.
        from: u8,
        /// The receiver.
        to: u8,
    },
    /// A message arrives.
    Arrive {
        /// The sender.
        from: u8,
        /// The receiver, which acts.
        to: u8,
        /// The round of the estimate; 0 for the decision.
        round: u8,
    },
    /// A process closes its round.
    Close {
        /// The process.
        process: u8,
    },
    /// A process crashes.
    Crash {
        /// The process.
        process: u8,
    },
    /// The failure detector tells a process of a crash.
    Suspect {
        /// The process that is told.
        process: u8,
        /// The one that has crashed.
        other: u8,
    },
}

impl Record {
    /// The bytes of the record.
    pub fn bytes(self) -> [u8; RECORD_BYTES] {
        match self {
            Record::Open { n, t } => [0, n, t, 0, 0, 0, 0, 0],
            Record::Start { process, value } => {
                let [v0, v1, v2, v3] = value.0.to_le_bytes();
                [1, process, 0, 0, v0, v1, v2, v3]
            }
            Record::Send { from, to } => [2, from, to, 0, 0, 0, 0, 0],
            Record::Arrive { from, to, round } => [3, from, to, round, 0, 0, 0, 0],
            Record::Close { process } => [4, process, 0, 0, 0, 0, 0, 0],
            Record::Crash { process } => [5, process, 0, 0, 0, 0, 0, 0],
            Record::Suspect { process, other } => [6, process, other, 0, 0, 0, 0, 0],
        }
    }

    /// The record of these bytes; `None` where they are not 8, the kind is not 0 to 6 or an unused byte is not 0.
    pub fn read(bytes: &[u8]) -> Option<Record> {
        let &[kind, a, b, r, v0, v1, v2, v3] = bytes else { return None };
        let value = Value(u32::from_le_bytes([v0, v1, v2, v3]));
        let record = match kind {
            0 => Record::Open { n: a, t: b },
            1 => Record::Start { process: a, value },
            2 => Record::Send { from: a, to: b },
            3 => Record::Arrive { from: a, to: b, round: r },
            4 => Record::Close { process: a },
            5 => Record::Crash { process: a },
            6 => Record::Suspect { process: a, other: b },
            _ => return None,
        };
        // What the record does not use comes back as 0.
        (record.bytes() == bytes).then_some(record)
    }
}
