//! The proved library, over the structs of `layout`. Its declarations are those of the package in `../rust`, which also
//! links it; `include/gerzulan.h` has the same for C.
//!
//! No call asks anything of its input but that it is what its type says. A call gives 0 or the number of its refusal;
//! what is lent is untouched where it refuses, but for the tally, a closing and a run's progress; and in a run the
//! steps before the refused record stand.

use crate::calendar::Week;
use crate::{Bench, Cause, Counters};
use gerzulan::raw;
use std::mem::{align_of, offset_of, size_of};

pub use gerzulan::raw::Progress;

/// Whether memory of one type will do for the other.
const fn agree<Ours, Theirs>() -> bool {
    size_of::<Ours>() == size_of::<Theirs>() && align_of::<Ours>() == align_of::<Theirs>()
}

// The reference keeps its own structs, and lends them to the library as the package's.
const _: () = assert!(agree::<crate::GlobalData, gerzulan::GlobalData>());
const _: () = assert!(agree::<crate::Process, gerzulan::Process>());
const _: () = assert!(agree::<Bench, gerzulan::Bench>());
const _: () = assert!(agree::<Counters, gerzulan::Counters>());
const _: () = assert!(agree::<Week, gerzulan::Week>());
const _: () = assert!(offset_of!(Week, process_of) == 1 && offset_of!(Week, site_of) == 17);
const _: () = assert!(size_of::<Week>() == Week::BYTES);

/// No closing has this number: where it comes back, the call has not written.
const UNWRITTEN: u8 = 0xa5;
const UNWRITTEN_PROGRESS: Progress =
    Progress { accepted: 0xa5a5_a5a5, closing: UNWRITTEN, taken: 0xa5a5_a5a5_a5a5_a5a5 };

/// A bench, for a call that may write it.
fn lent(bench: &mut Bench) -> *mut gerzulan::Bench {
    (bench as *mut Bench).cast()
}

/// A bench, for a call that reads it.
fn shown(bench: &Bench) -> *const gerzulan::Bench {
    (bench as *const Bench).cast()
}

/// Opens a bench in place of `bench`; refused, `bench` stays.
pub fn open(bench: &mut Bench, n: u8, t: u8) -> u32 {
    // SAFETY: the bench has the library's layout.
    unsafe { raw::gerzulan_bench_open(lent(bench), n, t) }
}

/// The call for one record: its answer, and the number of its closing.
pub fn step(bench: &mut Bench, record: &[u8], tally: &mut Counters) -> (u32, u8) {
    let mut closing = UNWRITTEN;
    let tally = (tally as *mut Counters).cast();
    // SAFETY: the structs have the library's layout; the slice is passed whole.
    let answer =
        unsafe { raw::gerzulan_bench_step(lent(bench), record.as_ptr(), record.len(), tally, &mut closing) };
    (answer, closing)
}

/// Why a run ended, and how far it came.
pub fn run(bench: &mut Bench, schedule: &[u8], budget: u32) -> (Cause, Progress) {
    let mut progress = UNWRITTEN_PROGRESS;
    // SAFETY: as in `step`.
    let ended = unsafe {
        raw::gerzulan_bench_run(lent(bench), schedule.as_ptr(), schedule.len(), budget, &mut progress)
    };
    // A refusal is 16 and its number, so that 15 is 31. No run refuses with 16.
    let cause = match ended {
        0 => Cause::Done,
        1 => Cause::Spent,
        17..=31 => Cause::Refused((ended - 16) as u8),
        _ => panic!("a run that ended by {ended}"),
    };
    (cause, progress)
}

/// Carries a bench from before diet portions over, in place; refused, it stays.
pub fn carry(bench: &mut Bench) -> u32 {
    // SAFETY: the bench has the library's layout, as it had before.
    unsafe { raw::gerzulan_bench_carry(lent(bench)) }
}

/// What is given, or the number of the refusal in the high half.
fn given(answer: u64) -> Result<u64, u32> {
    match answer >> 32 {
        0 => Ok(answer),
        number => Err(number as u32),
    }
}

/// Writes what a process, from 1, has decided on, and gives its marks.
pub fn global_data(bench: &Bench, process: u8, out: &mut [u32]) -> Result<u16, u32> {
    // SAFETY: as in `step`.
    let answer =
        unsafe { raw::gerzulan_bench_global_data(shown(bench), process, out.as_mut_ptr(), out.len()) };
    given(answer).map(|marks| marks as u16)
}

/// Writes (a, b, r) for each message in transit, by r, then a, then b, and gives how many there are.
pub fn in_transit(bench: &Bench, out: &mut [u8]) -> Result<usize, u32> {
    // SAFETY: as in `step`.
    let answer = unsafe { raw::gerzulan_bench_in_transit(shown(bench), out.as_mut_ptr(), out.len()) };
    given(answer).map(|messages| messages as usize)
}

pub fn total(n: u8, entries: &[u32], marks: u16, standing: &[u32], sum: &mut u64) -> u32 {
    let (length, standing_length) = (entries.len(), standing.len());
    // SAFETY: the slices are passed whole.
    unsafe {
        raw::gerzulan_total(n, entries.as_ptr(), length, marks, standing.as_ptr(), standing_length, sum)
    }
}

/// 1 for go, else 0.
pub fn go(n: u8, entries: &[u32], marks: u16, go: &mut u8) -> u32 {
    // SAFETY: the slice is passed whole.
    unsafe { raw::gerzulan_go(n, entries.as_ptr(), entries.len(), marks, go) }
}

pub fn lead(n: u8, entries: &[u32], marks: u16, process: &mut u8, value: &mut u32) -> u32 {
    // SAFETY: the slice is passed whole.
    unsafe { raw::gerzulan_lead(n, entries.as_ptr(), entries.len(), marks, process, value) }
}

pub fn change(n: u8, entries: &[u32], marks: u16, process: u8, standing: u32, difference: &mut i64) -> u32 {
    // SAFETY: the slice is passed whole.
    unsafe { raw::gerzulan_change(n, entries.as_ptr(), entries.len(), marks, process, standing, difference) }
}

/// Writes the bench of a week; refused, `out` stays.
pub fn calendar_week(calendar: &[u8], week: u16, out: &mut Week) -> u32 {
    let out = (out as *mut Week).cast();
    // SAFETY: the struct has the library's layout; the slice is passed whole.
    unsafe { raw::gerzulan_calendar_week(calendar.as_ptr(), calendar.len(), week, out) }
}
