//! The calls of `include/gerzulan.h`, as they are. The functions at the crate's root are these, made safe.
//!
//! No call asks anything of the values. But each pointer is to initialised memory of its type, a length is that of the
//! slice before it (an empty slice's pointer is not followed), and what is lent to be written overlaps nothing else
//! that is given. A call gives 0 or the number of its refusal; what is lent is untouched where it refuses, but for the
//! tally, a closing and a run's progress; and in a run the steps before the refused record stand.

use crate::{Bench, Counters, Week};
use std::mem::{offset_of, size_of};

/// How far a run came. Each field is written each time.
#[repr(C)]
#[derive(Clone, Copy, PartialEq, Eq, Debug, Default)]
pub struct Progress {
    /// Records accepted.
    pub accepted: u32,
    /// How the last round ended that the run closed: the number of a `Closing`, or 0 for none.
    pub closing: u8,
    /// Bytes of the schedule taken.
    pub taken: usize,
}

const _: () = assert!(offset_of!(Progress, accepted) == 0 && offset_of!(Progress, closing) == 4);
const _: () = assert!(offset_of!(Progress, taken) == 8 && size_of::<Progress>() == 16);

/// A run that ended because the schedule is empty.
pub const EMPTY: u32 = 0;
/// A run that ended because the budget is spent.
pub const SPENT: u32 = 1;
/// A run that ended by a refusal: this, and the refusal's number.
pub const REFUSED: u32 = 16;

extern "C" {
    /// Opens a bench in place of `*bench`.
    pub fn gerzulan_bench_open(bench: *mut Bench, n: u8, t: u8) -> u32;

    /// Carries over a bench that was begun before diet portions. No byte of it changes.
    pub fn gerzulan_bench_carry(bench: *mut Bench) -> u32;

    /// One record, with the tally. `*closing` is written each time.
    pub fn gerzulan_bench_step(
        bench: *mut Bench,
        record: *const u8,
        length: usize,
        tally: *mut Counters,
        closing: *mut u8,
    ) -> u32;

    /// A run of a schedule: [`EMPTY`], [`SPENT`], or [`REFUSED`] and the number of the refusal.
    pub fn gerzulan_bench_run(
        bench: *mut Bench,
        schedule: *const u8,
        length: usize,
        budget: u32,
        progress: *mut Progress,
    ) -> u32;

    /// Writes the n values that a process, from 1, has decided on, and gives their marks, or a refusal in the high
    /// half.
    pub fn gerzulan_bench_global_data(bench: *const Bench, process: u8, out: *mut u32, length: usize) -> u64;

    /// Writes sender, receiver and round of each message in transit, a byte each, and gives how many there are, or a
    /// refusal in the high half.
    pub fn gerzulan_bench_in_transit(bench: *const Bench, out: *mut u8, length: usize) -> u64;

    /// The sum of the portions, of an absent entry the standing value of its process.
    pub fn gerzulan_total(
        n: u8,
        entries: *const u32,
        length: usize,
        marks: u16,
        standing: *const u32,
        standing_length: usize,
        sum: *mut u64,
    ) -> u32;

    /// 1 where no entry is absent and each has at least 1 portion, else 0.
    pub fn gerzulan_go(n: u8, entries: *const u32, length: usize, marks: u16, go: *mut u8) -> u32;

    /// The process with the most portions, from 1, and its portions.
    pub fn gerzulan_lead(
        n: u8,
        entries: *const u32,
        length: usize,
        marks: u16,
        process: *mut u8,
        value: *mut u32,
    ) -> u32;

    /// The portions of a process, from 1, less a standing value.
    pub fn gerzulan_change(
        n: u8,
        entries: *const u32,
        length: usize,
        marks: u16,
        process: u8,
        standing: u32,
        difference: *mut i64,
    ) -> u32;

    /// The sites that take part in a week, by a calendar.
    pub fn gerzulan_calendar_week(calendar: *const u8, length: usize, week: u16, out: *mut Week) -> u32;
}
