//! Global data computation: n processes agree on one vector of values, an entry a process, in spite of crashes.
//!
//! The library below, `libgerzulan.a`, is proved: what each call does on every input, and that all who decide have the
//! same vector. This package is not. It only passes memory on and gives names to numbers: the calls stand in [`raw`],
//! and the safe functions here lend them structs and slices of the right layout. No function here panics, whatever it
//! is given.
//!
//! A [`Bench`] has n processes, the network between them and the failure detector, and is stepped by records of 8
//! bytes, which a [`Record`] writes and reads. What is refused is a [`Refusal`], and leaves the bench as it was.
//!
//! ```
//! use gerzulan::{Bench, Closing, Counters, Record, Refusal, Value};
//!
//! let mut bench = Bench::open(1, 0)?;
//! let mut tally = Counters::default();
//! let start = Record::Start { process: 1, value: Value::new(40, 3) };
//! let close = Record::Close { process: 1 };
//! assert_eq!(bench.step(&close.bytes(), &mut tally), Err(Refusal::NotDue)); // it has not started
//! assert_eq!(bench.step(&start.bytes(), &mut tally), Ok(None));
//! assert_eq!(bench.step(&close.bytes(), &mut tally), Ok(Some(Closing::LastRound)));
//! let decided = bench.global_data(1)?;
//! assert_eq!(decided.entry(1), Some(Value::new(40, 3)));
//! assert_eq!((tally.accepted, tally.refused), (2, 1));
//! # Ok::<(), Refusal>(())
//! ```
//!
//! Processes and sites are numbered from 1; a set is 16 bits, with process p at bit p - 1 ([`members`], [`contains`]),
//! and process p is at p - 1 of an array. The functions on entries ([`total`], [`go`], [`lead`], [`change`]) take n words
//! and their marks, as [`GlobalData::entries`] and `present` are.
//!
//! A process that has crashed must be reported crashed, and no other: the detector is taken to be perfect.
#![warn(missing_docs)]

mod aggregates;
mod bench;
mod calendar;
mod layout;
pub mod raw;
mod record;
mod refusal;
mod stored;

pub use aggregates::{change, go, lead, total, Lead};
pub use bench::{Cause, Closing, InTransit, Run};
pub use calendar::{closed, term, week};
pub use layout::{contains, members, Bench, Counters, GlobalData, Process, Value, Week};
pub use layout::{LIST_BYTES, MAX_PROCESSES, RECORD_BYTES};
pub use record::Record;
pub use refusal::Refusal;
pub use stored::BENCH_BYTES;
