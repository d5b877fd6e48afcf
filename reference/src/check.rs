//! The properties of every schedule, checked along one schedule.

use crate::gen::{well_formed, Adversary};
use crate::layout::{bit, members};
use crate::{Bench, Closing, GlobalData, Record, Refusal};

/// What has been broken, in words.
pub type Broken = String;

/// The most records a schedule may have accepted.
pub fn record_bound(n: u8, t: u8) -> usize {
    let (n, t) = (n as usize, t as usize);
    2 * n * (t + 1) + 2 * n * (n - 1) * (t + 2)
}

/// The accepted records so far, as far as the properties speak of them.
#[derive(Clone, Debug)]
pub struct History {
    n: u8,
    t: u8,
    length: usize,
    crashed: u16,
    started: GlobalData,
    opened: [u8; Bench::MAX],
    /// Set at the first decision: who had crashed, and the data decided.
    first: Option<(u16, GlobalData)>,
}

impl History {
    pub fn new(n: u8, t: u8) -> History {
        let started = GlobalData::ABSENT;
        History { n, t, length: 0, crashed: 0, started, opened: [0; Bench::MAX], first: None }
    }

    pub fn length(&self) -> usize {
        self.length
    }

    /// Adds an accepted record, with the bench after it, and checks what it may have broken.
    pub fn add(&mut self, record: Record, after: &Bench) -> Result<(), Broken> {
        self.length += 1;
        let a = record.a as usize - 1;
        match record.kind {
            1 => {
                self.started.set(a, record.value);
                self.opened[a] = 1;
            }
            4 if !after.processes[a].has_decided() => self.opened[a] += 1,
            5 => self.crashed |= bit(a),
            _ => {}
        }
        let actor = if record.kind == 3 { record.b } else { record.a };
        self.check_bounds(actor, after)?;
        self.check_decision(actor, after)
    }

    fn check_bounds(&self, number: u8, bench: &Bench) -> Result<(), Broken> {
        let round = self.opened[number as usize - 1];
        let f = self.crashed.count_ones() as u8;
        if bench.processes[number as usize - 1].round != round {
            return Err(format!("process {number} is not in its round {round}"));
        }
        if round > self.t + 1 || round > 3 * f + 2 {
            return Err(format!("process {number} opened round {round}, f {f}"));
        }
        if self.length > record_bound(self.n, self.t) {
            return Err(format!("{} records", self.length));
        }
        Ok(())
    }

    /// Agreement, validity and absence, for one process.
    fn check_decision(&mut self, number: u8, bench: &Bench) -> Result<(), Broken> {
        let Ok(data) = bench.decision(number) else { return Ok(()) };
        let (crashed_before, agreed) = *self.first.get_or_insert((self.crashed, data));
        if !data.same(&agreed) {
            return Err(format!("agreement: process {number} decided {data:?}, another {agreed:?}"));
        }
        valid(number, &data, &self.started)?;
        absent_only_if_crashed(number, &data, self.n, crashed_before)
    }

    /// All of it again at the end, and that every running process has decided.
    pub fn check_quiet_end(&mut self, bench: &Bench) -> Result<(), Broken> {
        for number in 1..=self.n {
            self.check_bounds(number, bench)?;
            self.check_decision(number, bench)?;
            let running = self.crashed & bit(number as usize - 1) == 0;
            if running && bench.decision(number).is_err() {
                return Err(format!("quiet end: process {number} is running and undecided"));
            }
        }
        Ok(())
    }
}

/// Each entry present is the value that its process started with.
pub fn valid(number: u8, data: &GlobalData, started: &GlobalData) -> Result<(), Broken> {
    match members(data.present).find(|&i| data.entry(i) != started.entry(i)) {
        Some(i) => Err(format!("validity: entry {} of process {number}", i + 1)),
        None => Ok(()),
    }
}

/// An entry is absent only if its process crashed before the first decision.
pub fn absent_only_if_crashed(number: u8, data: &GlobalData, n: u8, before: u16) -> Result<(), Broken> {
    let wrong = crate::layout::all(n) & !data.present & !before;
    match members(wrong).next() {
        Some(i) => Err(format!("absence: entry {} of process {number}", i + 1)),
        None => Ok(()),
    }
}

/// The closing of an accepted record of a, whose round was `round`: of a close, next round exactly where a is then
/// undecided, last round exactly where that was round t+1, else agreed; of all else none.
pub fn check_closing(record: Record, round: u8, closing: Closing, after: &Bench) -> Result<(), Broken> {
    let decided = after.processes[record.a as usize - 1].has_decided();
    let fits = match (record.kind, round == after.t + 1) {
        (4, true) => closing == Closing::LastRound && decided,
        (4, false) => closing == if decided { Closing::Agreed } else { Closing::NextRound },
        _ => closing == Closing::None,
    };
    if fits {
        Ok(())
    } else {
        Err(format!("closing: {closing:?} of {record:?} in round {round}, decided {decided}"))
    }
}

/// Nothing but a crash is accepted, by trying every record.
pub fn is_quiet(bench: &Bench) -> bool {
    let mut copy = *bench;
    let others = well_formed(bench.n, bench.t).into_iter().filter(|record| record.kind != 5);
    others.into_iter().all(|record| copy.step_sound(&record.bytes()).is_err())
}

/// One random schedule to its quiet end, with every check; gives the records accepted.
pub fn random_schedule(n: u8, t: u8, seed: u64) -> Result<usize, Broken> {
    random_schedule_by(n, t, seed, |bench, record| bench.step(&record.bytes()))
}

/// The same, where `step` takes each record and may first give a start another value.
pub fn random_schedule_by(
    n: u8,
    t: u8,
    seed: u64,
    mut step: impl FnMut(&mut Bench, &mut Record) -> Result<Closing, Refusal>,
) -> Result<usize, Broken> {
    let mut bench = Bench::open(n, t).expect("a good size");
    let mut history = History::new(n, t);
    let mut adversary = Adversary::new(seed);
    let named = |broken| format!("n {n}, t {t}, seed {seed}: {broken}");
    while let Some(mut record) = adversary.accepted(&bench) {
        let round = bench.processes[record.a as usize - 1].round;
        let closing = step(&mut bench, &mut record)
            .map_err(|refusal| named(format!("{record:?} refused with {}", refusal.number())))?;
        check_closing(record, round, closing, &bench).map_err(named)?;
        history.add(record, &bench).map_err(named)?;
    }
    if !is_quiet(&bench) {
        return Err(named("the end is not quiet".into()));
    }
    history.check_quiet_end(&bench).map_err(named)?;
    Ok(history.length())
}
