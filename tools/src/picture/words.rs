//! What the picture says in words: values, what each process then holds, the caption.

use super::story::{Story, DRAWN_REFUSALS};
use gerzulan::{Bench, GlobalData, Value};

/// `40/3`; `40` where no process has diet portions.
pub fn value(value: Value, diet: bool) -> String {
    if diet {
        format!("{}/{}", value.portions(), value.diet())
    } else {
        value.portions().to_string()
    }
}

/// The entries of all n processes, `-` where one is absent.
pub fn entries(data: &GlobalData, n: u8, diet: bool) -> Vec<String> {
    let entry = |process| data.entry(process).map_or_else(|| "-".into(), |entry| value(entry, diet));
    (1..=n).map(entry).collect()
}

/// The data of a process as it is held, decided on or not.
pub fn held(bench: &Bench, process: u8) -> GlobalData {
    bench.process(process).map(|process| process.estimate).unwrap_or_default()
}

pub fn has_decided(bench: &Bench, process: u8) -> bool {
    bench.process(process).is_some_and(|process| process.decided != 0)
}

pub fn status(bench: &Bench, process: u8) -> String {
    let round = bench.process(process).map_or(0, |process| process.round);
    match (round, has_decided(bench, process), bench.has_crashed(process)) {
        (0, _, false) => "not started".into(),
        (0, _, true) => "crashed, not started".into(),
        (_, false, false) => format!("in round {round}"),
        (_, false, true) => format!("crashed in round {round}"),
        (_, true, false) => format!("decided in round {round}"),
        (_, true, true) => format!("decided in round {round}, then crashed"),
    }
}

/// The title where none is given.
pub fn size(bench: &Bench) -> String {
    match (bench.n, bench.t) {
        (1, _) => "1 process, which may not crash".into(),
        (n, 0) => format!("{n} processes, of which none may crash"),
        (n, t) => format!("{n} processes, of which at most {t} may crash"),
    }
}

/// What came of the schedule, in a few sentences.
pub fn caption(story: &Story) -> String {
    let mut sentences = vec![records(story)];
    let crashed: Vec<u8> = processes(&story.bench).filter(|&p| story.bench.has_crashed(p)).collect();
    if !crashed.is_empty() {
        sentences.push(format!("Crashed: {}.", list(&crashed)));
    }
    sentences.push(decisions(&story.bench));
    match story.messages.iter().filter(|message| message.arrived.is_none()).count() {
        0 => {}
        1 => sentences.push("Not arrived: 1 message.".into()),
        many => sentences.push(format!("Not arrived: {many} messages.")),
    }
    sentences.join(" ")
}

fn records(story: &Story) -> String {
    let (accepted, refused) = (story.accepted, story.refused);
    let drawn = if refused > DRAWN_REFUSALS as usize { ", too many to draw" } else { "" };
    match (accepted + refused, refused) {
        (0, _) => "No records.".into(),
        (1, 0) => "1 record, accepted.".into(),
        (all, 0) => format!("{all} records, all accepted."),
        (1, _) => "1 record, refused.".into(),
        (all, _) => format!("{all} records: {accepted} accepted, {refused} refused{drawn}."),
    }
}

fn decisions(bench: &Bench) -> String {
    let decided: Vec<u8> = processes(bench).filter(|&p| has_decided(bench, p)).collect();
    let groups = groups(bench).into_iter().flatten().max();
    match (decided.len(), groups) {
        (0, _) | (_, None) => "None has decided.".into(),
        (1, _) => format!("Decided: {}.", list(&decided)),
        (_, Some(0)) => format!("Decided: {}, on the same entries.", list(&decided)),
        (_, Some(_)) => format!("Decided: {}, on different entries.", list(&decided)),
    }
}

/// For each process that has decided, from 1, which of the different decisions it has, from 0 in order.
pub fn groups(bench: &Bench) -> Vec<Option<usize>> {
    let mut different: Vec<Vec<String>> = Vec::new();
    let mut group = |process: u8| {
        let entries = entries(&held(bench, process), bench.n, true);
        different.iter().position(|other| *other == entries).unwrap_or_else(|| {
            different.push(entries);
            different.len() - 1
        })
    };
    processes(bench).map(|process| has_decided(bench, process).then(|| group(process))).collect()
}

pub fn processes(bench: &Bench) -> impl Iterator<Item = u8> {
    1..=bench.n
}

/// `1 to 4, 6 and 9`.
fn list(numbers: &[u8]) -> String {
    let mut runs: Vec<(u8, u8)> = Vec::new();
    for &number in numbers {
        match runs.last_mut() {
            Some((_, last)) if *last + 1 == number => *last = number,
            _ => runs.push((number, number)),
        }
    }
    let parts: Vec<String> = runs.iter().flat_map(|&(first, last)| part(first, last)).collect();
    match parts.split_last() {
        Some((last, [])) => last.clone(),
        Some((last, others)) => format!("{} and {last}", others.join(", ")),
        None => String::new(),
    }
}

/// A run of numbers; two are just listed.
fn part(first: u8, last: u8) -> Vec<String> {
    match last - first {
        0 => vec![first.to_string()],
        1 => vec![first.to_string(), last.to_string()],
        _ => vec![format!("{first} to {last}")],
    }
}

/// The picture for who does not see it.
pub fn description(story: &Story) -> String {
    let (bench, diet) = (&story.bench, story.has_diet());
    let mut words = format!("{}. {} At the end", size(bench), caption(story));
    for process in processes(bench) {
        let entries = entries(&held(bench, process), bench.n, diet).join(" ");
        let stop = if process == bench.n { "." } else { ";" };
        words += &format!(" process {process}: {}, holds {entries}{stop}", status(bench, process));
    }
    words
}
