//! A host in Rust: twelve processes, their network and their failure detector in one program. 5 crashes between two
//! sends, 9 before its first; the others agree on one list of values all the same. After `make library`:
//!     cd rust && cargo run --release --offline --example host

use gerzulan::{members, total, Bench, Counters, Record, Refusal, Value};

const N: u8 = 12;
const T: u8 = 3;

/// The host holds the bench and lends it: the library keeps nothing.
struct Host {
    bench: Bench,
    tally: Counters,
}

impl Host {
    /// One event of one process: a record of 8 bytes. How a round ended that it closed is not needed here.
    fn event(&mut self, record: Record) -> Result<(), Refusal> {
        self.bench.event(record, &mut self.tally).map(|_closing| ())
    }

    /// Each process that runs sends what it owes, what is on its way to one arrives, each is told of the crashes, and
    /// each closes its round if it can. Gives whether all have decided.
    fn turn(&mut self) -> Result<bool, Refusal> {
        for from in self.bench.running() {
            for to in members(self.bench.processes[from as usize - 1].outbox) {
                self.event(Record::Send { from, to })?;
            }
        }
        for message in self.bench.in_transit()? {
            if !self.bench.has_crashed(message.to) {
                self.event(message.arrival())?;
            }
        }
        let mut all_decided = true;
        for process in self.bench.running() {
            let before = self.bench.processes[process as usize - 1];
            if !before.has_decided() {
                for other in members(self.bench.crashed & !before.suspected) {
                    self.event(Record::Suspect { process, other })?;
                }
                match self.event(Record::Close { process }) {
                    Ok(()) | Err(Refusal::Waiting) => {} // one that waits is tried again
                    Err(refusal) => return Err(refusal),
                }
                all_decided &= self.bench.processes[process as usize - 1].has_decided();
            }
        }
        Ok(all_decided)
    }
}

fn main() -> Result<(), Refusal> {
    let mut host = Host { bench: Bench::open(N, T)?, tally: Counters::default() };
    for process in 1..=N {
        let value = Value::new(10 * u16::from(process), u16::from(process));
        host.event(Record::Start { process, value })?;
    }
    for to in 1..=4 {
        host.event(Record::Send { from: 5, to })?;
    }
    host.event(Record::Crash { process: 5 })?;
    host.event(Record::Crash { process: 9 })?;
    while !host.turn()? {} // ends: it is proved that a system at rest has decided
    let decided = host.bench.global_data(1)?;
    for p in host.bench.running() {
        assert_eq!(host.bench.global_data(p)?, decided, "the decisions differ");
        let entry = |q| decided.entry(q).map_or("-".to_string(), |value| value.to_string());
        let entries: Vec<String> = (1..=N).map(entry).collect();
        let round = host.bench.processes[p as usize - 1].round;
        println!("process {p} decided in round {round}: {}", entries.join(" "));
    }
    let standing: Vec<u32> = (1..=N).map(|p| 8 * u32::from(p)).collect(); // counts where an entry is absent
    let sum = total(N, decided.entries(N), decided.present, &standing)?;
    println!("{} records, {} crashes, total {sum}", host.tally.accepted, host.tally.crashes);
    Ok(())
}
