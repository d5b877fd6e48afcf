//! What an accepted record did, in words, from the bench before and after it.

use super::forms::{bit, entries, list, numbers};
use gerzulan::{Bench, Closing, GlobalData, Process, Record, Value, MAX_PROCESSES};

/// What is played, and how to read the lines below it.
pub fn heading(bench: &Bench) -> String {
    let Bench { n, t, .. } = bench;
    let processes = match (n, t) {
        (1, _) => "1 process, which may not crash".into(),
        (_, 0) => format!("{n} processes, of which none may crash"),
        _ => format!("{n} processes, of which at most {t} may crash"),
    };
    format!(
        "{processes}; the last round is {}\n\
         40/3 is 40 portions, 3 of them diet; - is an absent entry, or nobody; round 0 is before the start\n\n",
        t + 1
    )
}

/// The others whose estimate of a round, from 1, a process has kept.
/// At the close of that round those of them count whom it expects in it.
pub fn received(process: &Process, round: u8) -> u16 {
    let place = usize::from(round).checked_sub(1);
    place.and_then(|place| process.received.get(place)).copied().unwrap_or(0)
}

/// What the record did that took the bench from before to after.
pub fn did(before: &Bench, after: &Bench, record: &[u8], closing: Option<Closing>) -> String {
    let words = match Record::read(record) {
        Some(Record::Start { process, value }) => started(after, process, value),
        Some(Record::Send { from, to }) => sent(before, from, to),
        Some(Record::Arrive { from, to, round: 0 }) => decision_arrived(before, after, from, to),
        Some(Record::Arrive { from, to, round }) => estimate_arrived(before, after, from, to, round),
        Some(Record::Close { process }) => {
            closing.and_then(|closing| closed(before, after, process, closing))
        }
        Some(Record::Crash { process }) => crashed(before, process),
        Some(Record::Suspect { process, other }) => {
            Some(format!("process {process} is told that {other} has crashed, and suspects it"))
        }
        Some(Record::Open { .. }) | None => None,
    };
    words.unwrap_or_else(|| "accepted".into())
}

fn started(after: &Bench, number: u8, value: Value) -> Option<String> {
    let with = match (value.portions(), value.diet()) {
        (0, _) => "0 portions".into(),
        (1, 0) => "1 portion, not a diet one".into(),
        (1, _) => "1 portion, a diet one".into(),
        (portions, 0) => format!("{portions} portions, none of them diet"),
        (portions, diet) => format!("{portions} portions, {diet} of them diet"),
    };
    let without = match after.process(number)?.suspected {
        0 => String::new(),
        suspected => format!(" without {}, suspected", list(suspected)),
    };
    Some(format!("process {number} starts with {with}, and opens round 1{without}"))
}

fn sent(before: &Bench, from: u8, to: u8) -> Option<String> {
    let sender = before.process(from)?;
    let message = match sender.decided {
        0 => format!("the estimate of {from} for round {}", sender.round),
        _ => format!("the decision of {from}"),
    };
    let crashed = if before.has_crashed(to) { ", which has crashed" } else { "" };
    Some(format!("{message} is in transit to {to}{crashed}"))
}

fn decision_arrived(before: &Bench, after: &Bench, from: u8, to: u8) -> Option<String> {
    let (old, new) = (before.process(to)?, after.process(to)?);
    Some(if old.decided != 0 {
        format!("the decision of {from} changes nothing: {to} has decided already")
    } else if new.decided != 0 {
        format!("the decision of {from} arrives, and process {to} decides on the same in round {}", new.round)
    } else {
        format!("the decision of {from} changes nothing: {to} has not started")
    })
}

fn estimate_arrived(before: &Bench, after: &Bench, from: u8, to: u8, round: u8) -> Option<String> {
    let old = before.process(to)?;
    let estimate = format!("the estimate of {from} for round {round}");
    let counts = received(after.process(to)?, round) & bit(from) != 0;
    let held = || estimate_sent(before, from, round).map(|data| entries(data, before.n));
    Some(if old.decided != 0 {
        format!("{estimate} does not count: {to} has decided")
    } else if old.round > round {
        format!("{estimate} comes too late to count: {to} has closed round {round}")
    } else if !counts {
        format!("{estimate} does not count: {to} does not expect {from} in round {round}")
    } else if old.round == 0 {
        format!("process {to} has not started, and keeps {estimate}: {}", held()?)
    } else if old.round < round {
        format!("process {to} is in round {}, and keeps {estimate}: {}", old.round, held()?)
    } else {
        format!("process {to} receives {estimate}: {}", held()?)
    })
}

/// The estimate with which a process opened a round, both from 1.
fn estimate_sent(bench: &Bench, number: u8, round: u8) -> Option<&GlobalData> {
    let (process, round) = (usize::from(number).checked_sub(1)?, usize::from(round).checked_sub(1)?);
    bench.sent.get(process * MAX_PROCESSES + round)
}

fn closed(before: &Bench, after: &Bench, number: u8, closing: Closing) -> Option<String> {
    let (old, new) = (before.process(number)?, after.process(number)?);
    // Those whose estimates arrived, itself among them.
    let heard = old.current & (received(old, old.round) | bit(number));
    Some(match closing {
        Closing::NextRound => {
            let sets = sets_differ(old, heard);
            let estimates = estimates_differ(before, number, heard, &new.estimate);
            let grounds: Vec<String> = [sets, estimates].into_iter().flatten().collect();
            format!("process {number} goes on to round {}: {}", new.round, grounds.join(", and "))
        }
        Closing::Agreed => {
            let before = before_of(old.round);
            format!("process {number} decides: round {} brought equal estimates from all{before}", old.round)
        }
        Closing::LastRound => format!("process {number} decides: round {} is the last one, t + 1", old.round),
    })
}

/// Of whom `previous` is, in a round: of all in the first one.
fn before_of(round: u8) -> String {
    match round {
        0 | 1 => String::new(),
        _ => format!(" expected in round {}", round - 1),
    }
}

/// The ground that others were heard than were expected in the round before.
fn sets_differ(process: &Process, heard: u16) -> Option<String> {
    if process.previous == heard {
        return None;
    }
    let heard = list(heard);
    Some(match process.round {
        0 | 1 => format!("it heard from {heard}, and not from all"),
        round => {
            format!("it heard from {heard}, and in round {} expected {}", round - 1, list(process.previous))
        }
    })
}

/// The ground that some estimate, its own old one too, is not the new one.
fn estimates_differ(before: &Bench, number: u8, heard: u16, new: &GlobalData) -> Option<String> {
    let process = before.process(number)?;
    let estimate = |other: u8| match other {
        _ if other == number => Some(&process.estimate),
        _ => estimate_sent(before, other, process.round),
    };
    let differs = |other: &u8| estimate(*other).is_some_and(|data| !same(data, new, before.n));
    let different = numbers(heard).filter(differs).fold(0, |set, other| set | bit(other));
    match different.count_ones() {
        0 => None,
        1 => Some(format!("the estimate of {} differs from its new one", list(different))),
        _ => Some(format!("the estimates of {} differ from its new one", list(different))),
    }
}

/// Equal entry by entry; what stands under an absent one does not count.
fn same(one: &GlobalData, other: &GlobalData, n: u8) -> bool {
    (1..=n).all(|number| one.entry(number) == other.entry(number))
}

fn crashed(before: &Bench, number: u8) -> Option<String> {
    let process = before.process(number)?;
    let (when, message) = match (process.round, process.decided) {
        (0, _) => ("before its start".into(), "message"),
        (round, 0) => (format!("in round {round}"), "estimate"),
        _ => ("after its decision".into(), "decision"),
    };
    let unsent = match process.outbox {
        0 => String::new(),
        outbox => format!(", before its {message} is sent to {}", list(outbox)),
    };
    Some(format!("process {number} crashes {when}{unsent}"))
}
