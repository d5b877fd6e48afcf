//! One record: the protocol steps, in place.

use crate::layout::{bit, members, row};
use crate::{Bench, Closing, Event, GlobalData, Message, Process, Record, Refusal, Value};

type Answer = Result<(), Refusal>;

impl Bench {
    /// Takes one record: its closing, or the refusal with the state unchanged.
    pub fn step(&mut self, record: &[u8]) -> Result<Closing, Refusal> {
        self.check_sound()?;
        self.step_sound(record)
    }

    /// `step` on a state known to be sound; it stays sound.
    pub fn step_sound(&mut self, record: &[u8]) -> Result<Closing, Refusal> {
        let event = Record::read(record)?.event(self.n, self.t)?;
        self.try_event(event)
    }

    fn try_event(&mut self, event: Event) -> Result<Closing, Refusal> {
        if self.crashed & bit(event.actor()) != 0 {
            return Err(Refusal::Crashed);
        }
        match event {
            Event::Start { a, value } => self.start(a, value)?,
            Event::Send { a, b } => self.send(a, b)?,
            Event::Arrive { a, b, message } => self.arrive(a, b, message)?,
            Event::Close { a } => return self.close(a),
            Event::Crash { a } => self.crash(a)?,
            Event::Suspect { a, b } => self.suspect(a, b)?,
        }
        Ok(Closing::None)
    }

    pub(crate) fn start(&mut self, a: usize, value: Value) -> Answer {
        let everyone = self.everyone();
        let p = &mut self.processes[a];
        if p.round != 0 {
            return Err(Refusal::NotDue);
        }
        p.estimate = GlobalData::ABSENT;
        p.estimate.set(a, value);
        p.previous = everyone;
        p.current = everyone & !p.suspected;
        self.open_round(a);
        Ok(())
    }

    /// The next round of a, with its sets and estimate in place.
    fn open_round(&mut self, a: usize) {
        let p = &mut self.processes[a];
        p.round += 1;
        p.outbox = p.current & !bit(a);
        self.sent[row(a, p.round)] = p.estimate;
    }

    fn send(&mut self, a: usize, b: usize) -> Answer {
        let p = &mut self.processes[a];
        if p.outbox & bit(b) == 0 {
            return Err(Refusal::NotDue);
        }
        p.outbox &= !bit(b);
        let slot = if p.has_decided() { 0 } else { p.round as usize };
        self.in_transit[a * Bench::SLOTS + slot] |= bit(b);
        Ok(())
    }

    fn arrive(&mut self, a: usize, b: usize, message: Message) -> Answer {
        let receivers = &mut self.in_transit[a * Bench::SLOTS + message.slot()];
        if *receivers & bit(b) == 0 {
            return Err(Refusal::NotDue);
        }
        *receivers &= !bit(b);
        match message {
            Message::Estimate { round } => self.receive_estimate(a, b, round),
            Message::Decision => self.receive_decision(a, b),
        }
        Ok(())
    }

    fn receive_estimate(&mut self, a: usize, b: usize, round: u8) {
        let p = &mut self.processes[b];
        let early = p.round == 0 || round > p.round;
        let expected = round == p.round && p.current & bit(a) != 0;
        if !p.has_decided() && (early || expected) {
            p.received[round as usize - 1] |= bit(a);
        }
    }

    fn receive_decision(&mut self, a: usize, b: usize) {
        if self.processes[b].round != 0 && !self.processes[b].has_decided() {
            self.processes[b].estimate = self.processes[a].estimate;
            self.decide(b, bit(a));
        }
    }

    /// a decides on its estimate; all but those in `told`, itself and its suspects are to hear of it.
    fn decide(&mut self, a: usize, told: u16) {
        let everyone = self.everyone();
        let p = &mut self.processes[a];
        p.decided = 1;
        p.outbox = everyone & !(bit(a) | p.suspected | told);
    }

    fn close(&mut self, a: usize) -> Result<Closing, Refusal> {
        let next = self.next_of(a)?;
        let settled = self.merge(a, next);
        let closing = self.closing(a, settled);
        match closing {
            Closing::NextRound => self.advance(a, next),
            _ => self.decide(a, 0),
        }
        Ok(closing)
    }

    /// The paper's after-set of a close that is due, or why it is not.
    fn next_of(&self, a: usize) -> Result<u16, Refusal> {
        let p = &self.processes[a];
        if p.round == 0 || p.has_decided() || p.outbox != 0 {
            return Err(Refusal::NotDue);
        }
        let arrived = p.received[p.round as usize - 1] | bit(a);
        if p.current & !(arrived | p.suspected) != 0 {
            return Err(Refusal::Waiting);
        }
        Ok(p.current & arrived)
    }

    /// One pass over the estimates received from `next`, lowest member first: the absent entries of a take theirs.
    /// Gives whether there is a ground to decide before the last round. The new estimate equals them all and the old
    /// one just where none differs from the old one; until one does, nothing is filled, so the old one is still there.
    fn merge(&mut self, a: usize, next: u16) -> bool {
        let Process { round, previous, .. } = self.processes[a];
        let mut settled = previous == next;
        for m in members(next & !bit(a)) {
            let received = &self.sent[row(m, round)];
            let estimate = &mut self.processes[a].estimate;
            settled = settled && received.same(estimate);
            estimate.fill(received);
        }
        settled
    }

    /// How the round of a ends: the last one is told as such, also where the estimates agree.
    fn closing(&self, a: usize, settled: bool) -> Closing {
        if self.in_last_round(a) {
            Closing::LastRound
        } else if settled {
            Closing::Agreed
        } else {
            Closing::NextRound
        }
    }

    fn in_last_round(&self, a: usize) -> bool {
        self.processes[a].round == self.t + 1
    }

    /// A close of a is due that decides on both grounds. No step asks for it: the tests tell by it what they met.
    pub fn both_grounds(&self, a: usize) -> bool {
        self.in_last_round(a) && self.next_of(a).is_ok_and(|next| { *self }.merge(a, next))
    }

    fn advance(&mut self, a: usize, next: u16) {
        let p = &mut self.processes[a];
        p.previous = p.current;
        p.current = next;
        self.open_round(a);
    }

    fn crash(&mut self, a: usize) -> Answer {
        if self.crashed.count_ones() >= self.t as u32 {
            return Err(Refusal::CrashLimit);
        }
        self.crashed |= bit(a);
        Ok(())
    }

    fn suspect(&mut self, a: usize, b: usize) -> Answer {
        let p = &mut self.processes[a];
        if self.crashed & bit(b) == 0 || p.suspected & bit(b) != 0 {
            return Err(Refusal::NotDue);
        }
        p.suspected |= bit(b);
        Ok(())
    }
}
