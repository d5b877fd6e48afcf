//! The calls on a bench.

use crate::{
    raw, Bench, Counters, GlobalData, Record, Refusal, Value, LIST_BYTES, MAX_PROCESSES, RECORD_BYTES,
};

/// How a round ended that was closed. Where both grounds to decide hold, it is the last round.
#[derive(Clone, Copy, PartialEq, Eq, Hash, Debug)]
pub enum Closing {
    /// The next round opened.
    NextRound = 1,
    /// Decided because the estimates agree.
    Agreed = 2,
    /// Decided because it was round t + 1.
    LastRound = 3,
}

/// Why a run ended.
#[derive(Clone, Copy, PartialEq, Eq, Hash, Debug)]
pub enum Cause {
    /// The schedule is empty.
    Empty,
    /// The budget is spent.
    Spent,
    /// The record at `taken` was refused, or the bench is damaged.
    Refused(Refusal),
}

/// How a run ended, and how far it came.
#[must_use]
#[derive(Clone, Copy, PartialEq, Eq, Hash, Debug)]
pub struct Run {
    /// Why it ended.
    pub cause: Cause,
    /// Records accepted.
    pub accepted: u32,
    /// How the last round ended that it closed, also where a record was refused after that.
    pub closing: Option<Closing>,
    /// Bytes of the schedule taken: 8 for each record accepted.
    pub taken: usize,
}

impl Run {
    /// What is left of the schedule that was run, beginning with the refused record if one was.
    pub fn rest<'a>(&self, schedule: &'a [u8]) -> &'a [u8] {
        schedule.get(self.taken..).unwrap_or_default()
    }

    /// What is left after the next record, which is the refused one if one was.
    pub fn past<'a>(&self, schedule: &'a [u8]) -> &'a [u8] {
        self.rest(schedule).get(RECORD_BYTES..).unwrap_or_default()
    }
}

/// A message in transit. Its processes count from 1.
#[derive(Clone, Copy, PartialEq, Eq, Hash, Debug)]
pub struct InTransit {
    /// The sender.
    pub from: u8,
    /// The receiver.
    pub to: u8,
    /// The round of the estimate; 0 for the decision.
    pub round: u8,
}

impl InTransit {
    /// The record by which it arrives.
    pub fn arrival(self) -> Record {
        Record::Arrive { from: self.from, to: self.to, round: self.round }
    }
}

impl Closing {
    /// The number that the library gives.
    pub fn number(self) -> u8 {
        self as u8
    }

    /// The closing of a number; `None` for 0, no close, and for any other.
    pub fn from_number(number: u8) -> Option<Closing> {
        match number {
            1 => Some(Closing::NextRound),
            2 => Some(Closing::Agreed),
            3 => Some(Closing::LastRound),
            _ => None,
        }
    }
}

impl Cause {
    /// The cause of a number that a run gives.
    fn from_number(number: u32) -> Cause {
        match number {
            raw::EMPTY => Cause::Empty,
            raw::SPENT => Cause::Spent,
            _ => {
                let refusal = number.checked_sub(raw::REFUSED).map(Refusal::from_number);
                Cause::Refused(refusal.unwrap_or(Refusal::Unknown(number)))
            }
        }
    }
}

impl Bench {
    /// A bench of n processes, of which t may crash. Refused: `Size`.
    ///
    /// It is given by value, and needs more stack than any other call: in a thread, 256 KiB will do.
    pub fn open(n: u8, t: u8) -> Result<Bench, Refusal> {
        let mut bench = Bench::ZERO;
        // SAFETY: the bench is initialised, has the library's layout and is lent to this call alone.
        let answer = unsafe { raw::gerzulan_bench_open(&mut bench, n, t) };
        Refusal::check(answer).map(|()| bench)
    }

    /// One record, with the tally: how the round ended that it closed, if it closed one. A decision that arrives closes
    /// no round: [`Process::has_decided`](crate::Process::has_decided) tells who has decided. Refused, the bench stays:
    /// `Damaged`, `Length`, `Kind`, `Field`, `Diet`, `Crashed`, `NotDue`, `Waiting`, `CrashLimit`, in this order.
    pub fn step(&mut self, record: &[u8], tally: &mut Counters) -> Result<Option<Closing>, Refusal> {
        let mut closing = 0;
        // SAFETY: the structs are initialised and have the library's layout, the slice is passed whole, and what is
        // written is borrowed for this call alone.
        let answer =
            unsafe { raw::gerzulan_bench_step(self, record.as_ptr(), record.len(), tally, &mut closing) };
        Refusal::check(answer).map(|()| Closing::from_number(closing))
    }

    /// One event, with the tally: [`step`](Bench::step) of its record.
    pub fn event(&mut self, record: Record, tally: &mut Counters) -> Result<Option<Closing>, Refusal> {
        self.step(&record.bytes(), tally)
    }

    /// Steps by the records of a schedule until it is empty, else until the budget is spent, of which each accepted
    /// record takes one, else until a record is refused, as by [`step`](Bench::step). What was accepted before a
    /// refusal stands; no tally is kept. A damaged bench is refused before all else.
    pub fn run(&mut self, schedule: &[u8], budget: u32) -> Run {
        let mut progress = raw::Progress::default();
        // SAFETY: as in `step`.
        let ended = unsafe {
            raw::gerzulan_bench_run(self, schedule.as_ptr(), schedule.len(), budget, &mut progress)
        };
        Run {
            cause: Cause::from_number(ended),
            accepted: progress.accepted,
            closing: Closing::from_number(progress.closing),
            taken: progress.taken,
        }
    }

    /// Carries over a bench that was begun before diet portions, once. No byte of it changes. Refused: `Damaged`,
    /// `LargeValue`; for the second it must not go on by the calls here. A bench of now that has diet portions is
    /// refused by the second, too: the library cannot tell the two apart.
    pub fn carry(&mut self) -> Result<(), Refusal> {
        // SAFETY: the bench is initialised, has the library's layout and is borrowed for this call alone.
        Refusal::check(unsafe { raw::gerzulan_bench_carry(self) })
    }

    /// Whether the bench is in range: refused, `Damaged`. A bench that is in range and wrong is not noticed.
    pub fn check(&self) -> Result<(), Refusal> {
        match self.global_data(1) {
            Err(Refusal::Damaged) => Err(Refusal::Damaged),
            _ => Ok(()),
        }
    }

    /// What a process, from 1, has decided on; words of absent entries, and past n, are 0. Refused: `Damaged`, `Field`,
    /// `Undecided`.
    pub fn global_data(&self, process: u8) -> Result<GlobalData, Refusal> {
        let mut values = [0; MAX_PROCESSES];
        // SAFETY: the bench is initialised and has the library's layout; the array is passed whole, and lent to this
        // call alone.
        let answer =
            unsafe { raw::gerzulan_bench_global_data(self, process, values.as_mut_ptr(), values.len()) };
        let present = Refusal::check_high(answer)? as u16;
        Ok(GlobalData { present, values: values.map(Value) })
    }

    /// The messages in transit: by round with decisions first as round 0, then by sender, then by receiver. Refused:
    /// `Damaged`.
    pub fn in_transit(&self) -> Result<Vec<InTransit>, Refusal> {
        let mut list = vec![0; LIST_BYTES];
        // SAFETY: as in `global_data`.
        let answer = unsafe { raw::gerzulan_bench_in_transit(self, list.as_mut_ptr(), list.len()) };
        let messages = Refusal::check_high(answer)? as usize;
        let read = |message: &[u8]| match *message {
            [from, to, round] => Some(InTransit { from, to, round }),
            _ => None,
        };
        Ok(list.chunks_exact(3).take(messages).filter_map(read).collect())
    }
}
