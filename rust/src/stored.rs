//! A bench as bytes, to be stored: the layout of `docs/FORMATS.md`, numbers low byte first, and 0 between the fields.

use crate::{Bench, GlobalData, Process, Refusal, Value};
use std::mem::size_of;

/// Bytes of a stored bench.
pub const BENCH_BYTES: usize = size_of::<Bench>();

impl Bench {
    /// The bench as bytes. The same fields give the same bytes.
    pub fn to_bytes(&self) -> Vec<u8> {
        let mut out = Vec::with_capacity(BENCH_BYTES);
        out.extend([self.n, self.t]);
        put(&mut out, &[self.crashed]);
        for process in &self.processes {
            out.extend([process.round, process.decided]);
            put(&mut out, &[process.previous, process.current, process.suspected, process.outbox, 0]);
            put_data(&mut out, &process.estimate);
            put(&mut out, &process.received);
        }
        self.sent.iter().for_each(|data| put_data(&mut out, data));
        put(&mut out, &self.in_transit);
        out
    }

    /// The bench of stored bytes. Refused: `Slice` for another length, `Damaged` where it is out of range. Bytes that
    /// are wrong and in range are not noticed: keep a checksum with them.
    pub fn from_bytes(bytes: &[u8]) -> Result<Bench, Refusal> {
        let mut taken = Taken(bytes);
        if bytes.len() != BENCH_BYTES {
            return Err(Refusal::Slice);
        }
        let mut bench = Bench::ZERO;
        (bench.n, bench.t, bench.crashed) = (taken.byte(), taken.byte(), taken.set());
        bench.processes.iter_mut().for_each(|process| *process = taken.process());
        bench.sent.iter_mut().for_each(|data| *data = taken.data());
        bench.in_transit.iter_mut().for_each(|set| *set = taken.set());
        bench.check().map(|()| bench)
    }
}

fn put(out: &mut Vec<u8>, sets: &[u16]) {
    sets.iter().for_each(|set| out.extend(set.to_le_bytes()));
}

fn put_data(out: &mut Vec<u8>, data: &GlobalData) {
    put(out, &[data.present, 0]);
    data.values.iter().for_each(|value| out.extend(value.0.to_le_bytes()));
}

/// Bytes that are taken from the front; 0 where there are no more.
struct Taken<'a>(&'a [u8]);

impl Taken<'_> {
    fn byte(&mut self) -> u8 {
        let (first, rest) = self.0.split_first().unwrap_or((&0, &[]));
        self.0 = rest;
        *first
    }

    fn set(&mut self) -> u16 {
        u16::from_le_bytes([self.byte(), self.byte()])
    }

    fn value(&mut self) -> Value {
        Value(u32::from_le_bytes([self.byte(), self.byte(), self.byte(), self.byte()]))
    }

    fn data(&mut self) -> GlobalData {
        let (present, _padding) = (self.set(), self.set());
        GlobalData { present, values: std::array::from_fn(|_| self.value()) }
    }

    fn process(&mut self) -> Process {
        let (round, decided) = (self.byte(), self.byte());
        let [previous, current, suspected, outbox, _padding] = std::array::from_fn(|_| self.set());
        let estimate = self.data();
        let received = std::array::from_fn(|_| self.set());
        Process { round, decided, previous, current, suspected, outbox, estimate, received }
    }
}
