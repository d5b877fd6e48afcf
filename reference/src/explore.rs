//! Every schedule of a small bench: a walk of the whole state graph, with the properties checked
//! at each state and the longest schedule found.
//!
//! Each process starts with one fixed value. A state carries who had crashed before the first
//! decision; what else the properties ask for can be read from the bench.

use crate::check::{absent_only_if_crashed, check_closing, record_bound, valid, Broken};
use crate::gen::well_formed;
use crate::layout::{bit, members};
use crate::listed::{check_list, held, Listed};
use crate::{Bench, GlobalData, Process, Record, Value};

/// The most processes that a packed state holds.
pub const MOST: u8 = 3;

/// The values started with; 0 is among them, and a diet of all portions.
pub const VALUES: [Value; MOST as usize] = [Value::new(40, 3), Value::ZERO, Value::new(25, 25)];

/// What a walk found.
#[derive(Clone, Copy, PartialEq, Eq, Debug, Default)]
pub struct Found {
    pub states: usize,
    pub steps: u64,
    pub quiet_ends: usize,
    /// Records of the longest schedule.
    pub longest: usize,
    /// The last round opened by any process.
    pub last_round: u8,
    /// Steps by the number of their closing.
    pub closings: [u64; 4],
    /// Those of them that decide on both grounds.
    pub both_grounds: u64,
    /// Lists in transit of the states.
    pub listed: Listed,
}

/// Walks every schedule of n and t.
pub fn explore(n: u8, t: u8) -> Result<Found, Broken> {
    assert!(n <= MOST, "a packed state holds at most {MOST} processes");
    let mut walk = Walk::new(n, t);
    let longest = walk.visit()? as usize;
    if longest > record_bound(n, t) {
        return Err(format!("n {n}, t {t}: a schedule of {longest} records"));
    }
    walk.found.states = walk.seen.length;
    walk.found.longest = longest;
    Ok(walk.found)
}

struct Walk {
    bench: Bench,
    /// Set at the first decision: who had crashed.
    first: Option<u16>,
    records: Vec<Record>,
    path: Vec<Record>,
    seen: Seen,
    found: Found,
}

impl Walk {
    fn new(n: u8, t: u8) -> Walk {
        let mut records = well_formed(n, t);
        for record in records.iter_mut().filter(|record| record.kind == 1) {
            record.value = VALUES[record.a as usize - 1];
        }
        Walk {
            bench: Bench::open(n, t).expect("a good size"),
            first: None,
            records,
            path: Vec::new(),
            seen: Seen::new(),
            found: Found::default(),
        }
    }

    /// The records of the longest schedule from here. A state met while open would be a cycle.
    fn visit(&mut self) -> Result<u8, Broken> {
        let key = pack(&self.bench, self.first).map_err(|broken| self.named(broken))?;
        match self.seen.get(key) {
            Some(Seen::OPEN) => return Err(self.named("a schedule without end".into())),
            Some(longest) => return Ok(longest),
            None => self.seen.set(key, Seen::OPEN),
        }
        self.check().map_err(|broken| self.named(broken))?;
        let longest = self.visit_next()?;
        self.seen.set(key, longest);
        Ok(longest)
    }

    /// Tries every record.
    fn visit_next(&mut self) -> Result<u8, Broken> {
        let mut longest = 0;
        let mut quiet = true;
        for i in 0..self.records.len() {
            let record = self.records[i];
            let saved = Saved::before(record, self);
            let both_grounds = record.kind == 4 && self.bench.both_grounds(saved.actor);
            let Ok(closing) = self.bench.step_sound(&record.bytes()) else { continue };
            self.found.closings[closing.number() as usize] += 1;
            self.found.both_grounds += u64::from(both_grounds);
            quiet &= record.kind == 5;
            if self.first.is_none() && self.bench.processes[saved.actor].has_decided() {
                self.first = Some(self.bench.crashed);
            }
            self.path.push(record);
            let round = saved.process.round;
            check_closing(record, round, closing, &self.bench).map_err(|broken| self.named(broken))?;
            self.found.steps += 1;
            longest = longest.max(1 + self.visit()?);
            self.path.pop();
            saved.restore(self);
        }
        if quiet {
            self.found.quiet_ends += 1;
            self.check_quiet_end().map_err(|broken| self.named(broken))?;
        }
        Ok(longest)
    }

    /// The properties of one state.
    fn check(&mut self) -> Result<(), Broken> {
        let (n, t) = (self.bench.n, self.bench.t);
        let f = self.bench.crashed.count_ones() as u8;
        for (i, p) in self.bench.processes[..n as usize].iter().enumerate() {
            if p.round > t + 1 || p.round > 3 * f + 2 {
                return Err(format!("process {} opened round {}, f {f}", i + 1, p.round));
            }
            self.found.last_round = self.found.last_round.max(p.round);
        }
        check_list(&self.bench, &held(&self.bench), self.seen.length, &mut self.found.listed)?;
        self.check_decisions()
    }

    fn check_decisions(&self) -> Result<(), Broken> {
        let mut agreed: Option<&GlobalData> = None;
        for (i, p) in self.bench.processes.iter().enumerate().filter(|(_, p)| p.has_decided()) {
            let number = i as u8 + 1;
            let before = self.first.ok_or("a decision before the first")?;
            valid(number, &p.estimate, &self.started())?;
            absent_only_if_crashed(number, &p.estimate, self.bench.n, before)?;
            if !agreed.get_or_insert(&p.estimate).same(&p.estimate) {
                return Err(format!("agreement: process {number}"));
            }
        }
        Ok(())
    }

    /// The values started with, of those that started.
    fn started(&self) -> GlobalData {
        let mut started = GlobalData::ABSENT;
        for i in (0..self.bench.n as usize).filter(|&i| self.bench.processes[i].round > 0) {
            started.set(i, VALUES[i]);
        }
        started
    }

    fn check_quiet_end(&self) -> Result<(), Broken> {
        let mut running = members(self.bench.everyone() & !self.bench.crashed);
        match running.find(|&i| !self.bench.processes[i].has_decided()) {
            Some(i) => Err(format!("quiet end: process {} is running and undecided", i + 1)),
            None => Ok(()),
        }
    }

    fn named(&self, broken: Broken) -> Broken {
        let bytes: Vec<u8> = self.path.iter().flat_map(|record| record.bytes()).collect();
        let (n, t) = (self.bench.n, self.bench.t);
        format!("n {n}, t {t}: {broken}, after\n{}", crate::text::decode(&bytes))
    }
}

/// All that one record can change.
struct Saved {
    actor: usize,
    process: Process,
    row: usize,
    sent: GlobalData,
    slot: usize,
    in_transit: u16,
    crashed: u16,
    first: Option<u16>,
}

impl Saved {
    fn before(record: Record, walk: &Walk) -> Saved {
        let bench = &walk.bench;
        let actor = if record.kind == 3 { record.b } else { record.a } as usize - 1;
        let process = bench.processes[actor];
        let row = actor * Bench::MAX + process.round as usize;
        let message = match record.kind {
            3 => record.r,
            _ if process.has_decided() => 0,
            _ => process.round,
        };
        let slot = (record.a as usize - 1) * Bench::SLOTS + message as usize;
        Saved {
            actor,
            process,
            row,
            sent: bench.sent[row],
            slot,
            in_transit: bench.in_transit[slot],
            crashed: bench.crashed,
            first: walk.first,
        }
    }

    fn restore(&self, walk: &mut Walk) {
        walk.bench.processes[self.actor] = self.process;
        walk.bench.sent[self.row] = self.sent;
        walk.bench.in_transit[self.slot] = self.in_transit;
        walk.bench.crashed = self.crashed;
        walk.first = self.first;
    }
}

/// Bits put one after another.
struct Bits(u128);

impl Bits {
    fn put(&mut self, bits: u16, width: u32) {
        debug_assert!(bits >> width == 0);
        self.0 = self.0 << width | bits as u128;
    }

    /// A set of n processes that never holds process i.
    fn put_without(&mut self, set: u16, n: u32, i: usize) -> Result<(), Broken> {
        if set & bit(i) != 0 {
            return Err(format!("a set of process {} holds itself", i + 1));
        }
        let below = set & (bit(i) - 1);
        self.put(below | set >> 1 & !(bit(i) - 1), n - 1);
        Ok(())
    }

    /// Marks; the values must be those started with, so that the marks tell all.
    fn put_data(&mut self, data: &GlobalData, n: u32) -> Result<(), Broken> {
        if members(data.present).any(|i| data.value(i) != VALUES[i]) {
            return Err("validity: a value that none started with".into());
        }
        self.put(data.present, n);
        Ok(())
    }
}

/// The whole state in at most 115 bits, without loss: what is left out is fixed by the rest.
fn pack(bench: &Bench, first: Option<u16>) -> Result<u128, Broken> {
    let (n, last) = (bench.n as u32, bench.t as usize + 1);
    let mut bits = Bits(1);
    bits.put(bench.crashed, n);
    bits.put(first.unwrap_or(0), n);
    for (i, p) in bench.processes[..n as usize].iter().enumerate() {
        bits.put(p.round as u16, 2);
        bits.put(p.has_decided() as u16, 1);
        bits.put(p.previous, n);
        bits.put(p.current, n);
        bits.put_without(p.suspected, n, i)?;
        bits.put_without(p.outbox, n, i)?;
        bits.put_data(&p.estimate, n)?;
        for set in &p.received[..last] {
            bits.put_without(*set, n, i)?;
        }
        // The row of round 1 is the own value alone.
        for row in &bench.sent[i * Bench::MAX + 1..i * Bench::MAX + last] {
            bits.put_data(row, n)?;
        }
        for set in &bench.in_transit[i * Bench::SLOTS..][..last + 1] {
            bits.put_without(*set, n, i)?;
        }
    }
    Ok(bits.0)
}

/// A map from packed states (never 0) to small numbers, by open addressing.
struct Seen {
    keys: Vec<u128>,
    values: Vec<u8>,
    length: usize,
}

impl Seen {
    /// The state is on the path now walked.
    const OPEN: u8 = u8::MAX;

    fn new() -> Seen {
        Seen::with_places(1 << 12)
    }

    fn with_places(places: usize) -> Seen {
        Seen { keys: vec![0; places], values: vec![0; places], length: 0 }
    }

    /// The place of the key, or the empty one where it belongs.
    fn place(&self, key: u128) -> usize {
        let mixed = (key as u64 ^ (key >> 64) as u64 ^ (key >> 91) as u64)
            .wrapping_mul(0x9e37_79b9_7f4a_7c15)
            ^ ((key >> 64) as u64).wrapping_mul(0xbf58_476d_1ce4_e5b9);
        let mask = self.keys.len() - 1;
        let mut place = (mixed ^ mixed >> 29) as usize & mask;
        while self.keys[place] != 0 && self.keys[place] != key {
            place = (place + 1) & mask;
        }
        place
    }

    fn get(&self, key: u128) -> Option<u8> {
        let place = self.place(key);
        (self.keys[place] == key).then(|| self.values[place])
    }

    fn set(&mut self, key: u128, value: u8) {
        if self.length * 4 >= self.keys.len() * 3 {
            self.grow();
        }
        let place = self.place(key);
        self.length += usize::from(self.keys[place] == 0);
        self.keys[place] = key;
        self.values[place] = value;
    }

    fn grow(&mut self) {
        let larger = Seen::with_places(self.keys.len() * 2);
        let old = std::mem::replace(self, larger);
        for (key, value) in old.keys.into_iter().zip(old.values).filter(|(key, _)| *key != 0) {
            self.set(key, value);
        }
    }
}

#[cfg(test)]
mod tests {
    use super::*;
    use std::collections::HashMap;
    use std::hash::{DefaultHasher, Hash, Hasher};

    fn fingerprint(bench: &Bench, first: Option<u16>) -> u64 {
        let mut hasher = DefaultHasher::new();
        (bench, first).hash(&mut hasher);
        hasher.finish()
    }

    /// Steps copies of whole benches: no packed state stands for two, and the count is the same.
    #[test]
    fn packing_loses_nothing() {
        for (n, t) in [(1, 0), (2, 0), (2, 1), (3, 0)] {
            let records = Walk::new(n, t).records;
            let mut states: HashMap<u128, u64> = HashMap::new();
            let mut open = vec![(Bench::open(n, t).unwrap(), None)];
            while let Some((bench, first)) = open.pop() {
                let print = fingerprint(&bench, first);
                if let Some(known) = states.insert(pack(&bench, first).unwrap(), print) {
                    assert_eq!(known, print);
                    continue;
                }
                for record in &records {
                    let mut after = bench;
                    if after.step_sound(&record.bytes()).is_ok() {
                        let decided = after.processes.iter().any(|p| p.has_decided());
                        open.push((after, first.or(decided.then_some(after.crashed))));
                    }
                }
            }
            assert_eq!(states.len(), explore(n, t).unwrap().states);
        }
    }

    #[test]
    fn seen_keeps_what_is_set() {
        let mut seen = Seen::new();
        for i in 1..20_000u128 {
            seen.set(i << 60, (i % 200) as u8);
        }
        assert_eq!(seen.length, 19_999);
        assert!((1..20_000u128).all(|i| seen.get(i << 60) == Some((i % 200) as u8)));
        assert_eq!(seen.get(20_000 << 60), None);
    }
}
