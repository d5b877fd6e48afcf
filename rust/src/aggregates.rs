//! Aggregates of n entries with their marks: bit p - 1 of `marks` is set where the entry of process p is present.
//! There must be n entries, or `Slice` is refused. All are of portions. No word under an absent entry is read.

use crate::{raw, Refusal, Value};

/// The process with the most portions.
#[derive(Clone, Copy, PartialEq, Eq, Hash, Debug)]
pub struct Lead {
    /// The process, from 1.
    pub process: u8,
    /// Its portions.
    pub portions: u32,
}

/// The words of entries, for the library.
fn words(entries: &[Value]) -> *const u32 {
    // A value is its word: it is `repr(transparent)`.
    entries.as_ptr().cast()
}

/// The sum of the portions of n entries; an absent one counts as the standing value of its process. `marks` is the set
/// of those present. Refused: `Size`; `Field`, a mark past n; `Slice`, not n entries or not n standing values; `Diet`; in
/// this order.
pub fn total(n: u8, entries: &[Value], marks: u16, standing: &[u32]) -> Result<u64, Refusal> {
    let (length, standing_length) = (entries.len(), standing.len());
    let mut sum = 0;
    // SAFETY: both slices are passed whole, and the sum is lent to this call alone.
    let answer = unsafe {
        raw::gerzulan_total(n, words(entries), length, marks, standing.as_ptr(), standing_length, &mut sum)
    };
    Refusal::check(answer).map(|()| sum)
}

/// Whether no entry is absent and each has at least 1 portion. Refused: as [`total`].
pub fn go(n: u8, entries: &[Value], marks: u16) -> Result<bool, Refusal> {
    let mut go = 0;
    // SAFETY: the slice is passed whole, and the byte is lent to this call alone.
    let answer = unsafe { raw::gerzulan_go(n, words(entries), entries.len(), marks, &mut go) };
    Refusal::check(answer).map(|()| go != 0)
}

/// The process whose present entry has the most portions; of equal portions the one with more diet portions, of those
/// equal too the one with the highest number. Refused: as [`total`], and `Absent` where all are.
pub fn lead(n: u8, entries: &[Value], marks: u16) -> Result<Lead, Refusal> {
    let (mut process, mut portions) = (0, 0);
    // SAFETY: the slice is passed whole, and what is written is lent to this call alone.
    let answer =
        unsafe { raw::gerzulan_lead(n, words(entries), entries.len(), marks, &mut process, &mut portions) };
    Refusal::check(answer).map(|()| Lead { process, portions })
}

/// The portions of a process, from 1, less a standing value. Refused: as [`total`], and `Field` where there is no such
/// process, `Absent` where its entry is.
pub fn change(n: u8, entries: &[Value], marks: u16, process: u8, standing: u32) -> Result<i64, Refusal> {
    let mut difference = 0;
    // SAFETY: the slice is passed whole, and the difference is lent to this call alone.
    let answer = unsafe {
        raw::gerzulan_change(n, words(entries), entries.len(), marks, process, standing, &mut difference)
    };
    Refusal::check(answer).map(|()| difference)
}
