//! Random schedules, states and standing values, each from one seed.

use crate::layout::{all, bit, members};
use crate::{Bench, GlobalData, Process, Record, Value};

/// SplitMix64.
#[derive(Clone, Debug)]
pub struct Rng(u64);

impl Rng {
    pub fn new(seed: u64) -> Rng {
        Rng(seed)
    }

    pub fn draw(&mut self) -> u64 {
        self.0 = self.0.wrapping_add(0x9e37_79b9_7f4a_7c15);
        let mut z = self.0;
        z = (z ^ (z >> 30)).wrapping_mul(0xbf58_476d_1ce4_e5b9);
        z = (z ^ (z >> 27)).wrapping_mul(0x94d0_49bb_1331_11eb);
        z ^ (z >> 31)
    }

    /// From 0 to `limit` - 1; `limit` is not 0.
    pub fn below(&mut self, limit: usize) -> usize {
        (self.draw() % limit as u64) as usize
    }

    pub fn pick<T: Copy>(&mut self, choices: &[T]) -> T {
        choices[self.below(choices.len())]
    }

    /// True in `part` of 100 draws.
    pub fn percent(&mut self, part: usize) -> bool {
        self.below(100) < part
    }

    /// A random subset of `set`, thin or thick.
    pub fn subset(&mut self, set: u16) -> u16 {
        let draw = self.draw();
        let (x, y) = (draw as u16, (draw >> 16) as u16);
        set & match (draw >> 32) % 4 {
            0 => x & y,
            1 => x | y,
            2 => x | y | (draw >> 48) as u16,
            _ => x,
        }
    }

    /// A number of 32 bits, often at an end.
    pub fn number(&mut self) -> u32 {
        let any = self.draw() as u32;
        self.pick(&[0, 0, 1, 40, u32::MAX, any])
    }

    /// A value that a start may have, often at an end. It takes as many draws as a number.
    pub fn value(&mut self) -> Value {
        let any = self.draw();
        let of = |portions: u16| Value::new(portions, ((any >> 16) % (portions as u64 + 1)) as u16);
        let most = Value::new(u16::MAX, if any & 1 == 0 { 0 } else { u16::MAX });
        self.pick(&[of(0), of(0), of(1), of(40), most, of(any as u16)])
    }
}

/// Every n and t.
pub fn sizes() -> impl Iterator<Item = (u8, u8)> {
    (1..=16).flat_map(|n| (0..n).map(move |t| (n, t)))
}

/// The records that a bench accepts, by kind; the value of a start stands as 0 and may be any that is not refused.
pub struct Accepted {
    pub of_kind: [Vec<Record>; 7],
}

impl Accepted {
    pub fn of(bench: &Bench) -> Accepted {
        let mut of_kind: [Vec<Record>; 7] = Default::default();
        let limit_reached = bench.crashed.count_ones() >= bench.t as u32;
        for a in members(bench.everyone() & !bench.crashed) {
            let p = &bench.processes[a];
            let (i, me) = (a as u8 + 1, bit(a));
            if p.round == 0 {
                of_kind[1].push(Record::start(i, 0, 0));
            }
            of_kind[2].extend(members(p.outbox & !me).map(|b| Record::send(i, b as u8 + 1)));
            if due(p, a) {
                of_kind[4].push(Record::close(i));
            }
            if !limit_reached {
                of_kind[5].push(Record::crash(i));
            }
            let new = bench.crashed & !p.suspected;
            of_kind[6].extend(members(new).map(|b| Record::suspect(i, b as u8 + 1)));
        }
        arrivals(bench, &mut of_kind[3]);
        Accepted { of_kind }
    }

    /// Nothing but a crash is accepted.
    pub fn quiet(&self) -> bool {
        self.of_kind.iter().enumerate().all(|(kind, records)| kind == 5 || records.is_empty())
    }

    pub fn all(&self) -> impl Iterator<Item = Record> + '_ {
        self.of_kind.iter().flatten().copied()
    }
}

/// A close of a is accepted.
fn due(p: &Process, a: usize) -> bool {
    let open = p.round != 0 && !p.has_decided() && p.outbox == 0;
    open && {
        let missing = p.current & !p.received[p.round as usize - 1] & !p.suspected;
        missing & !bit(a) == 0
    }
}

fn arrivals(bench: &Bench, records: &mut Vec<Record>) {
    for a in 0..bench.n as usize {
        for r in 0..=bench.t + 1 {
            let receivers = bench.in_transit[a * Bench::SLOTS + r as usize];
            for b in members(receivers & !bench.crashed & !bit(a)) {
                records.push(Record::arrive(a as u8 + 1, b as u8 + 1, r));
            }
        }
    }
}

/// Every record of kinds 1 to 6 with good fields; starts carry 0.
pub fn well_formed(n: u8, t: u8) -> Vec<Record> {
    let mut records = Vec::new();
    for a in 1..=n {
        records.extend([Record::start(a, 0, 0), Record::close(a), Record::crash(a)]);
        for b in (1..=n).filter(|&b| b != a) {
            records.extend([Record::send(a, b), Record::suspect(a, b)]);
            records.extend((0..=t + 1).map(|r| Record::arrive(a, b, r)));
        }
    }
    records
}

/// An adversary: how it weighs the kinds, whom it favours, and when it crashes a process.
pub struct Adversary {
    pub rng: Rng,
    weights: [usize; 7],
    favoured: u16,
    favour: usize,
    crash_after_send: usize,
    crash_after_deciding: usize,
    /// The last record chosen.
    last: Option<Record>,
}

impl Adversary {
    pub fn new(seed: u64) -> Adversary {
        let mut rng = Rng::new(seed);
        let mut weights = [0; 7];
        for kind in [1, 2, 3, 4, 6] {
            weights[kind] = rng.pick(&[1, 10, 100]);
        }
        weights[5] = rng.pick(&[0, 0, 1, 5]);
        let favoured = rng.subset(u16::MAX);
        let favour = rng.pick(&[0, 50, 90, 100]);
        let crash_after_send = rng.pick(&[0, 2, 10, 40, 70]);
        let crash_after_deciding = rng.pick(&[0, 10, 80]);
        Adversary { rng, weights, favoured, favour, crash_after_send, crash_after_deciding, last: None }
    }

    /// One that crashes nobody.
    pub fn without_crashes(seed: u64) -> Adversary {
        let mut adversary = Adversary::new(seed);
        adversary.weights[5] = 0;
        (adversary.crash_after_send, adversary.crash_after_deciding) = (0, 0);
        adversary
    }

    /// A record that the bench accepts, if there is one but a crash.
    pub fn accepted(&mut self, bench: &Bench) -> Option<Record> {
        let choices = Accepted::of(bench);
        if choices.quiet() {
            return None;
        }
        if let Some(record) = self.crash_of_last(bench, &choices) {
            return Some(record);
        }
        let kind = self.kind(&choices);
        let mut record = self.among(&choices.of_kind[kind]);
        if kind == 1 {
            record.value = self.rng.value();
        }
        self.last = Some(record);
        Some(record)
    }

    /// Sometimes a process crashes between its sends, or when it has just decided.
    fn crash_of_last(&mut self, bench: &Bench, choices: &Accepted) -> Option<Record> {
        let last = self.last.take()?;
        let part = match last.kind {
            2 => self.crash_after_send,
            4 if bench.processes[last.a as usize - 1].has_decided() => self.crash_after_deciding,
            _ => 0,
        };
        let crash = choices.of_kind[5].iter().copied().find(|record| record.a == last.a);
        crash.filter(|_| self.rng.percent(part))
    }

    fn kind(&mut self, choices: &Accepted) -> usize {
        let mut weights = self.weights;
        for (weight, records) in weights.iter_mut().zip(&choices.of_kind) {
            *weight *= usize::from(!records.is_empty());
        }
        let mut draw = self.rng.below(weights.iter().sum());
        let mut kind = 0;
        while draw >= weights[kind] {
            draw -= weights[kind];
            kind += 1;
        }
        kind
    }

    /// One of the records, rather one whose first process is favoured.
    fn among(&mut self, records: &[Record]) -> Record {
        let preferred: Vec<Record> =
            records.iter().copied().filter(|r| self.favoured & bit(r.a as usize - 1) != 0).collect();
        if !preferred.is_empty() && self.rng.percent(self.favour) {
            return self.rng.pick(&preferred);
        }
        self.rng.pick(records)
    }
}

/// A record of 8 bytes, mostly refused: well formed or with a bad kind or field. No start is refused for its value.
pub fn doubtful(rng: &mut Rng, n: u8, t: u8) -> Record {
    let number = |rng: &mut Rng| 1 + rng.below(n as usize) as u8;
    let (a, b) = (number(rng), number(rng));
    let kind = 1 + rng.below(6) as u8;
    let mut record = match kind {
        1 => start(a, rng.value()),
        2 => Record::send(a, b),
        3 => Record::arrive(a, b, rng.below(t as usize + 2) as u8),
        4 => Record::close(a),
        5 => Record::crash(a),
        _ => Record::suspect(a, b),
    };
    match rng.below(8) {
        0 => record.kind = rng.pick(&[0, 7, 8, 255]),
        1 => record.a = rng.pick(&[0, n + 1, 17, 255]),
        2 => record.b = rng.pick(&[0, n + 1, 17, 255]),
        3 => record.r = rng.pick(&[1, t + 1, t + 2, 17, 255]),
        4 => {
            let word = rng.pick(&[1, 256, 1 << 16, 1 << 24, 1 << 31]);
            if kind != 1 {
                record.value = Value::from_word(word);
            }
        }
        _ => {}
    }
    record
}

/// A start with this value.
pub fn start(a: u8, value: Value) -> Record {
    Record::start(a, value.portions, value.diet)
}

/// A record of the wrong length.
pub fn wrong_length(rng: &mut Rng) -> Vec<u8> {
    let length = rng.pick(&[0, 1, 4, 7, 9, 16]);
    (0..length).map(|_| rng.below(7) as u8).collect()
}

/// Records to give one by one: mostly accepted, `noise` in 100 doubtful or of a wrong length.
pub fn records(n: u8, t: u8, seed: u64, noise: usize) -> Vec<Vec<u8>> {
    records_by(Adversary::new(seed), n, t, noise, noisy)
}

/// More records than any schedule has, with its noise: past this the rules are wrong.
const ENDLESS: usize = 100_000;

/// A record that need not be accepted, on a bench of n and t.
pub type Noisy = fn(&mut Rng, u8, u8) -> Vec<u8>;

pub fn records_by(adversary: Adversary, n: u8, t: u8, noise: usize, noisy: Noisy) -> Vec<Vec<u8>> {
    records_from(Bench::open(n, t).expect("a good size"), adversary, noise, noisy)
}

/// The same from a bench that a schedule has reached.
pub fn records_from(mut bench: Bench, mut adversary: Adversary, noise: usize, noisy: Noisy) -> Vec<Vec<u8>> {
    let (n, t) = (bench.n, bench.t);
    let mut records = Vec::new();
    loop {
        assert!(records.len() < ENDLESS, "n {n}, t {t}: a schedule without end");
        let record = if adversary.rng.percent(noise) {
            noisy(&mut adversary.rng, n, t)
        } else {
            match adversary.accepted(&bench) {
                Some(record) => record.bytes().to_vec(),
                None => return records,
            }
        };
        // A refused record stays in, and the bench as it is.
        let _ = bench.step_sound(&record);
        records.push(record);
    }
}

fn noisy(rng: &mut Rng, n: u8, t: u8) -> Vec<u8> {
    if rng.percent(20) {
        wrong_length(rng)
    } else {
        doubtful(rng, n, t).bytes().to_vec()
    }
}

/// The same as one slice, without an opening record; sometimes the last record is short.
pub fn schedule(n: u8, t: u8, seed: u64, noise: usize) -> Vec<u8> {
    let whole = |record: &Vec<u8>| record.len() == Bench::RECORD;
    let mut bytes = records(n, t, seed, noise).into_iter().filter(whole).flatten().collect::<Vec<u8>>();
    let mut rng = Rng::new(!seed);
    if noise > 0 && rng.percent(30) {
        bytes.extend((0..1 + rng.below(7)).map(|_| rng.below(7) as u8));
    }
    bytes
}

/// A whole schedule in which nobody crashes, as one slice.
pub fn schedule_without_crashes(n: u8, t: u8, seed: u64) -> Vec<u8> {
    records_by(Adversary::without_crashes(seed), n, t, 0, noisy).concat()
}

/// A state somewhere along a random schedule.
pub fn reached_state(rng: &mut Rng, n: u8, t: u8) -> Bench {
    let records = records(n, t, rng.draw(), 0);
    let taken = rng.below(records.len() + 1);
    let mut bench = Bench::open(n, t).expect("a good size");
    for record in &records[..taken] {
        bench.step_sound(record).expect("it was accepted");
    }
    bench
}

/// A sound state that mostly no schedule reaches. With `junk`, also rows of no process of the
/// bench and rounds past t+1 hold bits.
pub fn random_state(rng: &mut Rng, n: u8, t: u8, junk: bool) -> Bench {
    let mut bench = Bench::open(n, t).expect("a good size");
    let everyone = all(n);
    let thin = rng.subset(everyone);
    bench.crashed = rng.subset(thin);
    for a in 0..if junk { Bench::MAX } else { n as usize } {
        bench.processes[a] = random_process(rng, everyone, t, junk);
        for round in 0..if junk { Bench::MAX } else { t as usize + 1 } {
            bench.sent[a * Bench::MAX + round] = random_data(rng, everyone);
        }
        for slot in 0..if junk { Bench::SLOTS } else { t as usize + 2 } {
            bench.in_transit[a * Bench::SLOTS + slot] = rng.subset(everyone);
        }
    }
    bench
}

/// Takes most of what is in transit away, so that lists are short.
pub fn thin_out(rng: &mut Rng, bench: &mut Bench) {
    bench.in_transit.iter_mut().filter(|_| rng.percent(90)).for_each(|set| *set = 0);
}

/// A new bench but with everything in transit that n and t allow, to the senders themselves too.
pub fn everything_in_transit(n: u8, t: u8) -> Bench {
    let mut bench = Bench::open(n, t).expect("a good size");
    for slots in bench.in_transit.chunks_mut(Bench::SLOTS).take(n as usize) {
        slots[..t as usize + 2].fill(all(n));
    }
    bench
}

fn random_process(rng: &mut Rng, everyone: u16, t: u8, junk: bool) -> Process {
    let current = rng.subset(everyone);
    let mut received = [0; Bench::MAX];
    for set in received.iter_mut().take(if junk { Bench::MAX } else { t as usize + 1 }) {
        *set = if rng.percent(50) { current } else { rng.subset(everyone) };
    }
    Process {
        round: rng.below(t as usize + 2) as u8,
        decided: decided_byte(rng),
        previous: if rng.percent(50) { current } else { rng.subset(everyone) },
        current,
        suspected: rng.subset(everyone),
        outbox: if rng.percent(50) { 0 } else { rng.subset(everyone) },
        estimate: random_data(rng, everyone),
        received,
    }
}

/// 0 in three of four; else 1, or any byte that is not 0.
fn decided_byte(rng: &mut Rng) -> u8 {
    let draw = rng.draw();
    match draw % 100 {
        0..=12 => 1,
        13..=24 => 1 + ((draw >> 32) % 255) as u8,
        _ => 0,
    }
}

/// Few marks and values, so that equal data are not rare; words under absent entries are not 0. In any word the diet
/// may exceed the portions.
pub fn random_data(rng: &mut Rng, everyone: u16) -> GlobalData {
    let mut data = GlobalData { present: everyone, values: [3; Bench::MAX] };
    if rng.percent(40) {
        data.present = rng.subset(everyone);
    }
    if rng.percent(30) {
        data.values = std::array::from_fn(|_| rng.number());
    }
    data
}

/// Standing values for n processes: mostly n of them, sometimes one less, one more, none or another number; in half of
/// the lists no two are equal.
pub fn standing(rng: &mut Rng, n: u8) -> Vec<u32> {
    let n = n as usize;
    let any = rng.below(20);
    let length = rng.pick(&[n, n, n, n, n, n.saturating_sub(1), n + 1, 0, any]);
    if rng.percent(50) {
        return (0..length).map(|_| rng.number()).collect();
    }
    // An odd step does not come round; a step of 1 from near the end has the largest value and 0 side by side.
    let draw = rng.draw();
    let (first, step) =
        rng.pick(&[(u32::MAX - (draw % 16) as u32, 1), (draw as u32, (draw >> 32) as u32 | 1)]);
    (0..length as u32).map(|i| first.wrapping_add(step.wrapping_mul(i))).collect()
}

/// Makes a sound state unsound in one place.
pub fn damage(rng: &mut Rng, bench: &mut Bench) {
    let past = if bench.n < 16 { bit(bench.n as usize + rng.below(16 - bench.n as usize)) } else { 0 };
    let process = rng.below(Bench::MAX);
    let p = &mut bench.processes[process];
    let place = if past == 0 { rng.below(3) } else { rng.below(12) };
    match place {
        0 => bench.n = rng.pick(&[0, 17, 255]),
        1 => bench.t = rng.pick(&[bench.n, bench.n + 1, 255]),
        2 => p.round = rng.pick(&[bench.t + 2, 255]),
        3 => bench.crashed |= past,
        4 => p.previous |= past,
        5 => p.current |= past,
        6 => p.suspected |= past,
        7 => p.outbox |= past,
        8 => p.estimate.present |= past,
        9 => p.received[rng.below(Bench::MAX)] |= past,
        10 => bench.sent[rng.below(Bench::MAX * Bench::MAX)].present |= past,
        _ => bench.in_transit[rng.below(Bench::MAX * Bench::SLOTS)] |= past,
    }
}

#[cfg(test)]
mod tests {
    use super::*;

    #[test]
    fn every_size() {
        assert_eq!(sizes().count(), 136);
    }

    #[test]
    fn the_same_seed_gives_the_same_schedule() {
        assert_eq!(records(4, 2, 7, 20), records(4, 2, 7, 20));
        assert_ne!(records(4, 2, 7, 20), records(4, 2, 8, 20));
    }

    #[test]
    fn states_are_sound_until_damaged() {
        let mut rng = Rng::new(5);
        for (n, t) in sizes() {
            for junk in [false, true] {
                let mut bench = random_state(&mut rng, n, t, junk);
                assert!(bench.is_sound());
                damage(&mut rng, &mut bench);
                assert!(!bench.is_sound());
            }
        }
    }

    #[test]
    fn any_byte_in_decided() {
        let mut rng = Rng::new(7);
        let mut drawn = [false; 256];
        for _ in 0..2000 {
            let state = random_state(&mut rng, 3, 2, true);
            state.processes.iter().for_each(|p| drawn[p.decided as usize] = true);
        }
        assert!(drawn.iter().all(|drawn| *drawn));
    }

    #[test]
    fn standing_lists() {
        let mut rng = Rng::new(10);
        let lists: Vec<Vec<u32>> = (0..2000).map(|_| standing(&mut rng, 12)).collect();
        for length in [0, 11, 12, 13, 19] {
            assert!(lists.iter().any(|list| list.len() == length), "{length}");
        }
        let different = |list: &&Vec<u32>| (1..list.len()).all(|i| !list[..i].contains(&list[i]));
        let both_ends = |list: &Vec<u32>| list.contains(&0) && list.contains(&u32::MAX);
        assert!(lists.iter().filter(|list| list.len() == 12).filter(different).any(both_ends));
        assert!(lists.iter().filter(different).count() >= lists.len() / 2 - 100);
    }

    /// `Accepted` names exactly what `step` accepts, on reached states and on others.
    fn check_accepted(bench: &Bench) {
        let named: Vec<[u8; 8]> = Accepted::of(bench).all().map(Record::bytes).collect();
        for record in well_formed(bench.n, bench.t) {
            let bytes = record.bytes();
            let mut after = *bench;
            let accepted = after.step_sound(&bytes).is_ok();
            assert_eq!(accepted, named.contains(&bytes), "{record:?} on {bench:?}");
            assert!(after.is_sound());
            if !accepted {
                assert!(after == *bench);
            }
        }
    }

    #[test]
    fn accepted_is_what_step_accepts() {
        let mut rng = Rng::new(6);
        for (n, t) in sizes().filter(|&(n, _)| n <= 5) {
            for seed in 0..4 {
                check_accepted(&random_state(&mut rng, n, t, false));
                check_accepted(&random_state(&mut rng, n, t, true));
                let mut bench = Bench::open(n, t).unwrap();
                for record in records(n, t, seed, 0) {
                    check_accepted(&bench);
                    assert!(bench.step(&record).is_ok());
                }
                check_accepted(&bench);
            }
        }
    }
}
