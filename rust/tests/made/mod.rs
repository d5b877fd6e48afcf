//! Values, benches and records made of random numbers.
#![allow(dead_code)] // each test uses some of them

use crate::common::Random;
use gerzulan::{Bench, Counters, GlobalData, Value};

impl Random {
    /// Two random words joined by `and`, so that about a quarter of the bits are set.
    pub fn set(&mut self) -> u16 {
        (self.next() >> 48) as u16 & (self.next() >> 48) as u16
    }

    /// Few different values, with more diet portions than portions now and then.
    pub fn value(&mut self) -> Value {
        let (portions, diet) = (self.below(4) as u16, self.below(3) as u16);
        if self.below(8) == 0 {
            Value((self.next() >> 32) as u32)
        } else {
            Value::new(portions, diet.min(portions))
        }
    }

    pub fn values(&mut self, length: usize) -> Vec<Value> {
        (0..length).map(|_| self.value()).collect()
    }

    fn global_data(&mut self, mask: u16) -> GlobalData {
        GlobalData { present: self.set() & mask, values: std::array::from_fn(|_| self.value()) }
    }

    pub fn tally(&mut self) -> Counters {
        let mut number = || u32::MAX - self.below(3) as u32;
        Counters { accepted: number(), refused: number(), crashes: number() }
    }
}

/// Writes every field anew: sets and marks within the mask, rounds below a bound that is not 0.
fn scatter(bench: &mut Bench, random: &mut Random, mask: u16, rounds: u64) {
    bench.crashed = random.set() & mask;
    for process in bench.processes.iter_mut() {
        process.round = random.below(rounds) as u8;
        process.decided = if random.below(3) == 0 { random.byte() } else { 0 };
        process.previous = random.set() & mask;
        process.current = random.set() & mask;
        process.suspected = random.set() & mask;
        process.outbox = random.set() & random.set() & mask;
        process.estimate = random.global_data(mask);
        process.received.iter_mut().for_each(|set| *set = random.set() & mask);
    }
    bench.sent.iter_mut().for_each(|data| *data = random.global_data(mask));
    bench.in_transit.iter_mut().for_each(|set| *set = random.set() & mask);
}

/// A bench of any bytes, nearly always damaged.
pub fn any_bench(random: &mut Random) -> Bench {
    let mut bench = Bench::open(1, 0).expect("1 and 0 are in range");
    scatter(&mut bench, random, u16::MAX, 256);
    (bench.n, bench.t) = (random.byte() % 20, random.byte() % 20);
    bench
}

/// A bench with every number in range, which mostly no schedule reaches.
pub fn sound_bench(random: &mut Random) -> Bench {
    let n = 1 + random.below(16) as u8;
    let t = random.below(n.into()) as u8;
    let mut bench = Bench::open(n, t).expect("n and t are in range");
    scatter(&mut bench, random, u16::MAX >> (16 - n), u64::from(t) + 2);
    bench
}

/// A slice of 0 to 40 bytes; one of 8 mostly has a kind and processes that exist.
pub fn record(random: &mut Random, n: u8, length: usize) -> Vec<u8> {
    let mut bytes = random.bytes(length);
    if length < 8 || random.below(8) == 0 {
        return bytes;
    }
    for record in bytes.chunks_exact_mut(8) {
        let process = |random: &mut Random| 1 + random.below(u64::from(n).max(1)) as u8;
        let kind = 1 + random.below(6) as u8;
        let (a, b) = (process(random), process(random));
        let word = if kind == 1 { random.value().0 } else { 0 };
        let other = if matches!(kind, 2 | 3 | 6) { b } else { 0 };
        let round = if kind == 3 { random.below(4) as u8 } else { 0 };
        record[..4].copy_from_slice(&[kind, a, other, round]);
        record[4..].copy_from_slice(&word.to_le_bytes());
    }
    bytes
}
