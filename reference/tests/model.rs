//! The bench against a slow, plain model, where each message carries its own data.

use reference::check::Broken;
use reference::gen::{records, schedule, sizes, Rng};
use reference::listed::{check_list, InTransit, Listed};
use reference::refusal::number;
use reference::{values, Bench, Cause, Closing, Ended, Record};
use std::collections::{BTreeMap, BTreeSet};

/// Portions and diet portions of each entry that is present.
type Data = Vec<Option<(u32, u32)>>;
type Set = BTreeSet<u8>;
/// How often a closing was met, by its number.
type Met = [u64; 4];

#[derive(Clone, Default)]
struct Node {
    round: u8,
    decided: bool,
    estimate: Data,
    /// The estimate held when the round opened.
    opened_with: Data,
    previous: Set,
    current: Set,
    suspected: Set,
    outbox: Set,
    /// Estimates kept, by round and sender.
    kept: BTreeMap<(u8, u8), Data>,
}

struct Model {
    n: u8,
    t: u8,
    /// By process number; place 0 is empty.
    nodes: Vec<Node>,
    crashed: Set,
    /// (r, a, b) with the data carried; 0 is the decision.
    network: BTreeMap<(u8, u8, u8), Data>,
    /// Of the last record.
    closing: Closing,
}

impl Model {
    fn new(n: u8, t: u8) -> Model {
        let unstarted = Node { estimate: vec![None; n as usize], ..Node::default() };
        let nodes = vec![unstarted; n as usize + 1];
        let network = BTreeMap::new();
        Model { n, t, nodes, crashed: Set::new(), network, closing: Closing::None }
    }

    fn everyone(&self) -> Set {
        (1..=self.n).collect()
    }

    fn good_fields(&self, record: &[u8; 8]) -> bool {
        let &[kind, a, b, r, ref value @ ..] = record;
        let unused = *value == [0; 4];
        let process = |p| p >= 1 && p <= self.n;
        let two = process(b) && a != b;
        process(a)
            && match kind {
                1 => b == 0 && r == 0,
                2 | 6 => two && r == 0 && unused,
                3 => two && r <= self.t + 1 && unused,
                _ => b == 0 && r == 0 && unused,
            }
    }

    fn step(&mut self, bytes: &[u8]) -> u8 {
        self.closing = Closing::None;
        let Ok(record) = <&[u8; 8]>::try_from(bytes) else { return 3 };
        let &[kind, a, b, r, ref value @ ..] = record;
        if !(1..=6).contains(&kind) {
            return 4;
        }
        if !self.good_fields(record) {
            return 5;
        }
        let [p0, p1, d0, d1] = value.map(u32::from);
        let (portions, diet) = (p0 + 256 * p1, d0 + 256 * d1);
        if kind == 1 && diet > portions {
            return 15;
        }
        if self.crashed.contains(if kind == 3 { &b } else { &a }) {
            return 6;
        }
        match kind {
            1 => self.start(a, (portions, diet)),
            2 => self.send(a, b),
            3 => self.arrive(a, b, r),
            4 => self.close(a),
            5 => self.crash(a),
            _ => self.suspect(a, b),
        }
    }

    fn start(&mut self, a: u8, value: (u32, u32)) -> u8 {
        let everyone = self.everyone();
        let node = &mut self.nodes[a as usize];
        if node.round > 0 {
            return 7;
        }
        node.estimate[a as usize - 1] = Some(value);
        node.current = &everyone - &node.suspected;
        node.previous = everyone;
        self.open_next(a);
        0
    }

    fn open_next(&mut self, a: u8) {
        let node = &mut self.nodes[a as usize];
        node.round += 1;
        node.opened_with = node.estimate.clone();
        node.kept.insert((node.round, a), node.estimate.clone());
        node.outbox = node.current.clone();
        node.outbox.remove(&a);
    }

    fn send(&mut self, a: u8, b: u8) -> u8 {
        let node = &mut self.nodes[a as usize];
        if !node.outbox.remove(&b) {
            return 7;
        }
        let (r, data) = if node.decided { (0, &node.estimate) } else { (node.round, &node.opened_with) };
        self.network.insert((r, a, b), data.clone());
        0
    }

    fn arrive(&mut self, a: u8, b: u8, r: u8) -> u8 {
        let Some(data) = self.network.remove(&(r, a, b)) else { return 7 };
        let node = &mut self.nodes[b as usize];
        if node.decided {
            return 0;
        }
        if r == 0 {
            if node.round > 0 {
                self.decide(b, data, Some(a));
            }
            return 0;
        }
        let late = node.round > 0 && r < node.round;
        let unexpected = node.round > 0 && r == node.round && !node.current.contains(&a);
        if !late && !unexpected {
            node.kept.insert((r, a), data);
        }
        0
    }

    fn close(&mut self, a: u8) -> u8 {
        let node = self.nodes[a as usize].clone();
        if node.round == 0 || node.decided || !node.outbox.is_empty() {
            return 7;
        }
        let arrived = |m: &u8| node.kept.contains_key(&(node.round, *m));
        if node.current.iter().any(|m| !arrived(m) && !node.suspected.contains(m)) {
            return 8;
        }
        let next: Set = node.current.iter().copied().filter(arrived).collect();
        let estimates: Vec<&Data> = next.iter().map(|m| &node.kept[&(node.round, *m)]).collect();
        let entry = |i: usize| node.estimate[i].or_else(|| estimates.iter().find_map(|data| data[i]));
        let merged: Data = (0..self.n as usize).map(entry).collect();
        let settled = node.previous == next && estimates.iter().all(|data| **data == merged);
        self.closing = match (node.round == self.t + 1, settled) {
            (true, _) => Closing::LastRound,
            (false, true) => Closing::Agreed,
            (false, false) => Closing::NextRound,
        };
        if self.closing != Closing::NextRound {
            self.decide(a, merged, None);
        } else {
            let node = &mut self.nodes[a as usize];
            node.estimate = merged;
            node.previous = std::mem::replace(&mut node.current, next);
            self.open_next(a);
        }
        0
    }

    /// A run by single records: of all closings the last that is one.
    fn run<'a>(&mut self, schedule: &'a [u8], budget: u32) -> Ended<'a> {
        let mut closings = Vec::new();
        let mut cause = Cause::Done;
        for record in schedule.chunks(8) {
            if closings.len() == budget as usize {
                cause = Cause::Spent;
                break;
            }
            let answer = self.step(record);
            if answer != 0 {
                cause = Cause::Refused(answer);
                break;
            }
            closings.push(self.closing);
        }
        let (accepted, rest) = (closings.len() as u32, &schedule[8 * closings.len()..]);
        closings.retain(|&closing| closing != Closing::None);
        Ended { accepted, cause, closing: closings.pop().unwrap_or(Closing::None), rest }
    }

    fn decide(&mut self, a: u8, data: Data, by: Option<u8>) {
        let everyone = self.everyone();
        let node = &mut self.nodes[a as usize];
        node.decided = true;
        node.estimate = data;
        let told = |b: &u8| *b == a || node.suspected.contains(b) || Some(*b) == by;
        node.outbox = everyone.into_iter().filter(|b| !told(b)).collect();
    }

    fn crash(&mut self, a: u8) -> u8 {
        if self.crashed.len() >= self.t as usize {
            return 9;
        }
        self.crashed.insert(a);
        0
    }

    fn suspect(&mut self, a: u8, b: u8) -> u8 {
        if !self.crashed.contains(&b) || !self.nodes[a as usize].suspected.insert(b) {
            return 7;
        }
        0
    }
}

fn set(bits: u16) -> Set {
    (1..=16).filter(|i| bits >> (i - 1) & 1 == 1).collect()
}

/// Portions and diet portions of a word.
fn parts(word: u32) -> (u32, u32) {
    (word % 65_536, word / 65_536)
}

fn same_process(model: &Model, bench: &Bench, number: u8) {
    let node = &model.nodes[number as usize];
    let p = &bench.processes[number as usize - 1];
    let entry = |i| set(p.estimate.present).contains(&(i as u8 + 1)).then(|| parts(p.estimate.values[i]));
    let estimate: Data = (0..model.n as usize).map(entry).collect();
    let shown = |i| p.estimate.entry(i).map(|value| (value.portions.into(), value.diet.into()));
    assert_eq!((0..model.n as usize).map(shown).collect::<Data>(), estimate);
    assert_eq!((p.round, p.has_decided(), &estimate), (node.round, node.decided, &node.estimate));
    assert_eq!((set(p.previous), set(p.current)), (node.previous.clone(), node.current.clone()));
    assert_eq!((set(p.suspected), set(p.outbox)), (node.suspected.clone(), node.outbox.clone()));
    assert_eq!(bench.decision(number).is_ok(), node.decided);
}

/// The list in transit is that of what was sent in the model and has not arrived.
fn same_list(model: &Model, bench: &Bench, turn: usize, listed: &mut Listed) -> Result<(), Broken> {
    let messages: Vec<InTransit> = model.network.keys().map(|&(r, a, b)| InTransit { r, a, b }).collect();
    check_list(bench, &messages, turn, listed)
}

/// A schedule with 20 in 100 records doubtful.
fn compare(n: u8, t: u8, seed: u64, listed: &mut Listed) -> Met {
    compare_records(n, t, seed, &records(n, t, seed, 20), listed)
}

/// Answers, closings, lists in transit and states are the same at each record. Gives how often each closing was met.
fn compare_records(n: u8, t: u8, seed: u64, records: &[Vec<u8>], listed: &mut Listed) -> Met {
    let mut met = Met::default();
    let mut model = Model::new(n, t);
    let mut bench = Bench::open(n, t).unwrap();
    for (i, record) in records.iter().enumerate() {
        let told = format!("n {n}, t {t}, seed {seed}, record {}: {record:?}", i + 1);
        let before = bench;
        let answer = bench.step(record);
        assert_eq!(number(&answer), model.step(record), "{told}");
        let Ok(closing) = answer else {
            assert!(bench == before, "{told}");
            continue;
        };
        let event = Record::read(record).unwrap();
        let actor = if event.kind == 3 { event.b } else { event.a };
        let same = std::panic::catch_unwind(|| same_process(&model, &bench, actor));
        assert!(same.is_ok(), "{told}");
        assert!(closing == model.closing, "{told}: {closing:?}, by the model {:?}", model.closing);
        met[closing.number() as usize] += 1;
        same_list(&model, &bench, i, listed).unwrap_or_else(|broken| panic!("{told}: {broken}"));
    }
    println!("n {n}, t {t}, seed {seed}");
    same_state(&model, &bench);
    met
}

fn same_state(model: &Model, bench: &Bench) {
    (1..=model.n).for_each(|number| same_process(model, bench, number));
    assert_eq!(set(bench.crashed), model.crashed);
}

/// The same of a schedule by runs of any budget, where a refused record is passed over. Counts the closings of runs that
/// end refused apart from the others'.
fn compare_runs(n: u8, t: u8, seed: u64) -> [Met; 2] {
    let mut met = [Met::default(); 2];
    let mut rng = Rng::new(seed);
    let (mut model, mut bench) = (Model::new(n, t), Bench::open(n, t).unwrap());
    let bytes = schedule(n, t, seed, 20);
    let mut rest = &bytes[..];
    while !rest.is_empty() {
        let budget = rng.pick(&[0, 1, 2, 7, 30, u32::MAX]);
        let (ended, expected) = (bench.run(rest, budget), model.run(rest, budget));
        let told = format!("n {n}, t {t}, seed {seed}: run at byte {}", bytes.len() - rest.len());
        assert!(ended == expected, "{told}: {ended:?}, by the model {expected:?}");
        let refused = matches!(ended.cause, Cause::Refused(_));
        met[usize::from(refused)][ended.closing.number() as usize] += 1;
        rest = &ended.rest[if refused { ended.rest.len().min(8) } else { 0 }..];
    }
    println!("n {n}, t {t}, seed {seed}, by runs");
    same_state(&model, &bench);
    let ended = same_list(&model, &bench, 0, &mut Listed::default());
    ended.unwrap_or_else(|broken| panic!("n {n}, t {t}, seed {seed}: {broken}"));
    met
}

/// Every kind of list that schedules of up to n processes can meet.
fn every_list(n: u8, listed: &Listed) {
    println!("lists: {}", listed.report());
    assert!(listed.missing(n).is_empty(), "lists not met: {:?}", listed.missing(n));
}

#[test]
fn bench_and_model_agree_on_every_size() {
    let mut listed = Listed::default();
    for (n, t) in sizes() {
        for seed in 100..105 {
            compare(n, t, seed, &mut listed);
        }
    }
    every_list(16, &listed);
}

#[test]
fn bench_and_model_agree_on_small_sizes() {
    let mut seeds = Rng::new(2);
    let mut met = Met::default();
    let mut listed = Listed::default();
    for (n, t) in sizes().filter(|&(n, _)| n <= 6) {
        (0..200).for_each(|_| add(&mut met, compare(n, t, seeds.draw() >> 32, &mut listed)));
    }
    println!("closings of records: {met:?}");
    assert!(!met.contains(&0), "{met:?}");
    every_list(6, &listed);
}

/// With starts of any value, every size: half of the records, and most of them with too many diet portions.
#[test]
fn bench_and_model_agree_on_values() {
    let mut listed = Listed::default();
    let mut seeds = Rng::new(4);
    for (n, t) in sizes() {
        for _ in 0..if n <= 6 { 40 } else { 2 } {
            let seed = seeds.draw() >> 32;
            compare_records(n, t, seed, &values::records(n, t, seed), &mut listed);
        }
    }
}

#[test]
fn runs_and_model_agree() {
    let mut seeds = Rng::new(3);
    let mut met = [Met::default(); 2];
    for (n, t) in sizes() {
        for _ in 0..if n <= 6 { 100 } else { 2 } {
            let more = compare_runs(n, t, seeds.draw() >> 32);
            met.iter_mut().zip(more).for_each(|(sums, more)| add(sums, more));
        }
    }
    println!("closings of runs: {met:?}, the second of those that ended refused");
    assert!(!met.as_flattened().contains(&0), "{met:?}");
}

fn add(sums: &mut Met, more: Met) {
    sums.iter_mut().zip(more).for_each(|(sum, more)| *sum += more);
}
