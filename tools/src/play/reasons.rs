//! Why a record was refused, in words, from the record and the bench that refused it. The library gives the number.

use super::forms::{bit, list};
use super::words::received;
use crate::input;
use gerzulan::{Bench, Process, Record, Refusal};

/// What is wrong with the record; the refusal's own text where there is no more to say.
pub fn why(bench: &Bench, record: &[u8], refusal: Refusal) -> String {
    let reason = match refusal {
        Refusal::Length => Some(input::length(record)),
        Refusal::Kind => record.first().map(|&kind| no_kind(kind)),
        Refusal::Field => field(bench, record),
        Refusal::Diet => diet(record),
        Refusal::Crashed => crashed(record),
        Refusal::NotDue => not_due(bench, record),
        Refusal::Waiting => waiting(bench, record),
        Refusal::CrashLimit => Some(crash_limit(bench)),
        _ => None,
    };
    reason.unwrap_or_else(|| refusal.text().into())
}

fn no_kind(kind: u8) -> String {
    match kind {
        0 => "kind 0 opens a schedule: only the first record may have it".into(),
        _ => format!("its kind is {kind}, and kinds are 1 to 6"),
    }
}

/// What a record of a kind has.
struct Shape {
    /// With its article.
    name: &'static str,
    /// The names of a and, where the kind has one, b.
    first: &'static str,
    second: Option<&'static str>,
    round: bool,
    value: bool,
}

fn shape(kind: u8) -> Option<Shape> {
    let of = |name, first, second| Shape { name, first, second, round: kind == 3, value: kind == 1 };
    Some(match kind {
        1 => of("a start", "process", None),
        2 => of("a send", "sender", Some("receiver")),
        3 => of("an arrival", "sender", Some("receiver")),
        4 => of("a close", "process", None),
        5 => of("a crash", "process", None),
        6 => of("a suspicion", "process", Some("suspected process")),
        _ => return None,
    })
}

/// The first field that is at fault.
fn field(bench: &Bench, record: &[u8]) -> Option<String> {
    let &[kind, a, b, r, ref value @ ..] = record else { return None };
    let shape = shape(kind)?;
    let out_of_range = |name: &str, number: u8| {
        let fault = !(1..=bench.n).contains(&number);
        fault.then(|| format!("its {name} is {number}, and processes are 1 to {}", bench.n))
    };
    let unused = |place: &str, fault: bool| {
        fault.then(|| format!("{} does not use {place}, which must be 0", shape.name))
    };
    out_of_range(shape.first, a)
        .or_else(|| match shape.second {
            Some(name) => out_of_range(name, b).or_else(|| (a == b).then(|| alone(kind, a))),
            None => unused("b", b != 0),
        })
        .or_else(|| match shape.round {
            true => {
                (r > bench.t + 1).then(|| format!("its round is {r}, and the last one is {}", bench.t + 1))
            }
            false => unused("r", r != 0),
        })
        .or_else(|| unused("the value", !shape.value && value.iter().any(|&byte| byte != 0)))
}

/// One process where two are due.
fn alone(kind: u8, number: u8) -> String {
    match kind {
        6 => format!("process {number} cannot suspect itself"),
        _ => format!("sender and receiver are both {number}"),
    }
}

fn diet(record: &[u8]) -> Option<String> {
    let Record::Start { value, .. } = Record::read(record)? else { return None };
    Some(format!("{} diet portions cannot be among {} portions", value.diet(), value.portions()))
}

fn crashed(record: &[u8]) -> Option<String> {
    Some(match Record::read(record)? {
        Record::Arrive { to, .. } => format!("process {to}, at which it is to arrive, has crashed"),
        Record::Start { process, .. }
        | Record::Send { from: process, .. }
        | Record::Close { process }
        | Record::Crash { process }
        | Record::Suspect { process, .. } => format!("process {process} has crashed"),
        Record::Open { .. } => return None,
    })
}

fn not_due(bench: &Bench, record: &[u8]) -> Option<String> {
    match Record::read(record)? {
        Record::Start { process, .. } => Some(format!("process {process} has started already")),
        Record::Send { from, to } => not_owed(bench.process(from)?, from, to),
        Record::Arrive { from, to, round } => not_in_transit(bench, from, to, round),
        Record::Close { process } => not_closable(bench.process(process)?, process),
        Record::Suspect { process, other } if bench.has_crashed(other) => {
            Some(format!("process {process} suspects {other} already"))
        }
        Record::Suspect { other, .. } => {
            Some(format!("process {other} has not crashed, and may not be suspected"))
        }
        Record::Open { .. } | Record::Crash { .. } => None,
    }
}

fn not_owed(sender: &Process, from: u8, to: u8) -> Option<String> {
    Some(match (sender.round, sender.outbox) {
        (0, _) => format!("process {from} has not started, and owes nothing"),
        (_, 0) => format!("process {from} owes nothing to {to}, nor to anybody else"),
        (_, outbox) => format!("process {from} owes nothing to {to}, only to {}", list(outbox)),
    })
}

/// A message is not in transit: it was never sent or has arrived. Which of them, the bench does not always tell.
fn not_in_transit(bench: &Bench, from: u8, to: u8, round: u8) -> Option<String> {
    let (sender, receiver) = (bench.process(from)?, bench.process(to)?);
    let of_now = if sender.decided == 0 { sender.round } else { 0 };
    let reason = if round == 0 && sender.decided == 0 {
        format!("{from} has not decided")
    } else if round > sender.round {
        format!("{from} has not opened round {round}")
    } else if round == of_now && sender.outbox & bit(to) != 0 {
        format!("{from} has not sent it")
    } else if received(receiver, round) & bit(from) != 0 {
        "it has arrived already".into()
    } else {
        "it arrived before or was never sent".into()
    };
    let message = if round == 0 { "the decision" } else { "the estimate" };
    Some(format!("{message} is not in transit: {reason}"))
}

fn not_closable(process: &Process, number: u8) -> Option<String> {
    Some(if process.round == 0 {
        format!("process {number} has not started")
    } else if process.decided != 0 {
        format!("process {number} has decided, and has no round to close")
    } else {
        format!("process {number} still owes its estimate to {}", list(process.outbox))
    })
}

fn waiting(bench: &Bench, record: &[u8]) -> Option<String> {
    let Record::Close { process: number } = Record::read(record)? else { return None };
    let process = bench.process(number)?;
    let round = process.round;
    let missing = process.current & !(received(process, round) | process.suspected | bit(number));
    Some(format!("process {number} waits for {}: no estimate of round {round}, no suspicion", list(missing)))
}

fn crash_limit(bench: &Bench) -> String {
    match (bench.t, bench.crashed.count_ones()) {
        (0, _) => "no process may crash here: t is 0".into(),
        (_, 1) => format!("process {} has crashed, and no other may", list(bench.crashed)),
        _ => format!("processes {} have crashed, and no other may", list(bench.crashed)),
    }
}
