//! What a schedule did: each record as an event on the line of one process, and each message from its send to its
//! arrival. The library says what is accepted and what it does.

use crate::input;
use gerzulan::{Bench, Counters, GlobalData, Process, Record, Refusal, Value, RECORD_BYTES};
use std::collections::BTreeMap;

/// Where more records are refused than these, they are counted and not drawn.
pub const DRAWN_REFUSALS: u32 = 60;

/// What happened. Processes are numbered from 1.
#[derive(Debug)]
pub enum Kind {
    Start(Value),
    Send,
    Arrive,
    /// The arrival of a decision that decides its receiver.
    Learn,
    Close {
        decides: bool,
        held: GlobalData,
    },
    /// With the set of those to whom it still owed its message.
    Crash(u16),
    Suspect(u8),
    Refused(Refusal),
}

#[derive(Debug)]
pub struct Event {
    /// From 1, without the opening record, as the program numbers them.
    pub record: usize,
    /// The process on whose line it stands; 0 for a refused record that is about none.
    pub line: u8,
    pub kind: Kind,
}

/// A message, with the events that sent it and brought it by their places in the story.
#[derive(Debug)]
pub struct Message {
    pub to: u8,
    /// 0 for a decision.
    pub round: u8,
    pub sent: usize,
    pub arrived: Option<usize>,
}

#[derive(Debug)]
pub struct Story {
    /// As the schedule leaves it.
    pub bench: Bench,
    pub events: Vec<Event>,
    pub messages: Vec<Message>,
    pub accepted: usize,
    pub refused: usize,
    /// Each message by sender, receiver and round: none is sent twice.
    known: BTreeMap<(u8, u8, u8), usize>,
}

impl Story {
    pub fn read(bytes: &[u8]) -> Result<Story, String> {
        let (bench, records) = input::open(bytes)?;
        let draw_refusals = refusals(bench.clone(), records) <= DRAWN_REFUSALS;
        let (events, messages, known) = (Vec::new(), Vec::new(), BTreeMap::new());
        let mut story = Story { bench, events, messages, accepted: 0, refused: 0, known };
        for (i, bytes) in records.chunks(RECORD_BYTES).enumerate() {
            story.step(i + 1, bytes, draw_refusals)?;
        }
        Ok(story)
    }

    pub fn n(&self) -> u8 {
        self.bench.n
    }

    fn step(&mut self, record: usize, bytes: &[u8], draw_refusals: bool) -> Result<(), String> {
        let before = Record::read(bytes).and_then(|record| self.bench.process(actor(record)).copied());
        let (line, kind) = match self.bench.step(bytes, &mut Counters::default()) {
            Ok(_) => self.accept(bytes, &before.unwrap_or_default()).ok_or_else(|| unknown(record))?,
            Err(refusal) => {
                self.refused += 1;
                (subject(bytes, self.bench.n), Kind::Refused(refusal))
            }
        };
        if draw_refusals || !matches!(kind, Kind::Refused(_)) {
            self.events.push(Event { record, line, kind });
        }
        Ok(())
    }

    /// The event of an accepted record; `before` is the process that acted as it was.
    fn accept(&mut self, bytes: &[u8], before: &Process) -> Option<(u8, Kind)> {
        self.accepted += 1;
        let record = Record::read(bytes)?;
        let line = actor(record);
        let after = *self.bench.process(line)?;
        let decides = before.decided == 0 && after.decided != 0;
        let kind = match record {
            Record::Open { .. } => return None,
            Record::Start { value, .. } => Kind::Start(value),
            Record::Send { from, to } if before.decided != 0 => self.send(from, to, 0),
            Record::Send { from, to } => self.send(from, to, before.round),
            Record::Arrive { from, to, round } => self.arrive(from, to, round, decides)?,
            Record::Close { .. } => Kind::Close { decides, held: after.estimate },
            Record::Crash { .. } => Kind::Crash(before.outbox),
            Record::Suspect { other, .. } => Kind::Suspect(other),
        };
        Some((line, kind))
    }

    fn send(&mut self, from: u8, to: u8, round: u8) -> Kind {
        self.known.insert((from, to, round), self.messages.len());
        self.messages.push(Message { to, round, sent: self.events.len(), arrived: None });
        Kind::Send
    }

    fn arrive(&mut self, from: u8, to: u8, round: u8, decides: bool) -> Option<Kind> {
        let message = *self.known.get(&(from, to, round))?;
        self.messages[message].arrived = Some(self.events.len());
        Some(if decides { Kind::Learn } else { Kind::Arrive })
    }

    /// Whether some process started with diet portions. Where none did, values show their portions alone.
    pub fn has_diet(&self) -> bool {
        self.events.iter().any(|event| matches!(event.kind, Kind::Start(value) if value.diet() != 0))
    }
}

fn unknown(record: usize) -> String {
    format!("record {record} was accepted, but the picture does not know its form")
}

/// How many records are refused.
fn refusals(mut bench: Bench, records: &[u8]) -> u32 {
    let mut tally = Counters::default();
    for record in records.chunks(RECORD_BYTES) {
        // The tally has the answer.
        let _ = bench.step(record, &mut tally);
    }
    tally.refused
}

/// The process that acts: of an arrival the receiver.
fn actor(record: Record) -> u8 {
    match record {
        Record::Open { .. } => 0,
        Record::Start { process, .. } | Record::Close { process } | Record::Crash { process } => process,
        Record::Send { from, .. } => from,
        Record::Arrive { to, .. } => to,
        Record::Suspect { process, .. } => process,
    }
}

/// The process that a refused record is about, whatever else is wrong with it; 0 for none.
fn subject(bytes: &[u8], n: u8) -> u8 {
    let number = match bytes.first() {
        Some(3) => bytes.get(2),
        Some(1..=6) => bytes.get(1),
        _ => None,
    };
    number.copied().filter(|number| (1..=n).contains(number)).unwrap_or(0)
}
