//! Aggregates of global data (paper: sums): n entries, each a word with portions and diet portions, and their marks.
//! They read portions, and lead also diet portions where portions are equal. No word under an absent entry is read.

use crate::layout::{all, bit, check_n, members};
use crate::record::index;
use crate::{Refusal, Value};

/// Checks 1, 5 and 10 of the entries.
fn check(n: u8, entries: &[u32], present: u16) -> Result<(), Refusal> {
    check_n(n)?;
    if present & !all(n) != 0 {
        return Err(Refusal::Field);
    }
    if entries.len() != n as usize {
        return Err(Refusal::Slice);
    }
    Ok(())
}

/// Check 15, of each present entry.
fn check_diet(entries: &[u32], present: u16) -> Result<(), Refusal> {
    members(present).try_for_each(|i| Value::from_word(entries[i]).check())
}

fn portions(entry: u32) -> u16 {
    Value::from_word(entry).portions
}

/// The sum of portions, where an absent entry counts as the standing value of its own process. Other standing values
/// are not read, but a list not of n is refused with 10, also where no entry is absent.
pub fn total(n: u8, entries: &[u32], present: u16, standing: &[u32]) -> Result<u64, Refusal> {
    check(n, entries, present)?;
    if standing.len() != n as usize {
        return Err(Refusal::Slice);
    }
    check_diet(entries, present)?;
    let value = |i: usize| if present & bit(i) != 0 { portions(entries[i]) as u32 } else { standing[i] };
    Ok((0..n as usize).map(|i| value(i) as u64).sum())
}

/// No entry is absent and each has at least 1 portion.
pub fn go(n: u8, entries: &[u32], present: u16) -> Result<bool, Refusal> {
    check(n, entries, present)?;
    check_diet(entries, present)?;
    Ok(present == all(n) && entries.iter().all(|&entry| portions(entry) >= 1))
}

/// What counts for the lead, in this order: portions, diet portions, number. The entry at i with the greatest leads;
/// no two are equal in it, as numbers differ.
fn rank(entry: u32, i: usize) -> impl Ord {
    let Value { portions, diet } = Value::from_word(entry);
    (portions, diet, i)
}

/// The process (from 1) with the most portions, and how many: of equal ones that with the most diet portions, of those
/// equal too the highest.
pub fn lead(n: u8, entries: &[u32], present: u16) -> Result<(u8, u16), Refusal> {
    check(n, entries, present)?;
    check_diet(entries, present)?;
    let best = members(present).max_by_key(|&i| rank(entries[i], i));
    let i = best.ok_or(Refusal::Absent)?;
    Ok((i as u8 + 1, portions(entries[i])))
}

/// The portions of entry `number` (from 1) less the standing value.
pub fn change(n: u8, entries: &[u32], present: u16, number: u8, standing: u32) -> Result<i64, Refusal> {
    check_n(n)?;
    let i = index(number, n)?;
    check(n, entries, present)?;
    check_diet(entries, present)?;
    if present & bit(i) == 0 {
        return Err(Refusal::Absent);
    }
    Ok(portions(entries[i]) as i64 - standing as i64)
}

#[cfg(test)]
mod tests {
    use super::*;

    const MAX: u32 = u32::MAX;

    /// The word of an entry.
    fn word(portions: u16, diet: u16) -> u32 {
        Value::new(portions, diet).word()
    }

    /// Each standing value is a power of 2, so that the sum tells which were read.
    #[test]
    fn an_absent_entry_is_its_standing_value() {
        let standing: [u32; 16] = std::array::from_fn(|i| 1 << i);
        for present in 0..=u16::MAX {
            assert_eq!(total(16, &[0; 16], present, &standing), Ok(!present as u64));
        }
        assert_eq!(total(3, &[100, 0, 300], 0b101, &[1, 20, 3]), Ok(420));
        assert_eq!(total(3, &[0, 200, 0], 0b010, &[1, 20, 3]), Ok(204));
        assert_eq!(total(1, &[0], 0, &[7]), Ok(7));
    }

    /// Also an entry of 0, and whatever the diet.
    #[test]
    fn a_present_entry_is_its_portions() {
        let portions: [u16; 16] = std::array::from_fn(|i| 1 << i);
        for diet in [|_| 0, |portions: u16| portions / 2, |portions| portions] {
            let entries = portions.map(|portions| word(portions, diet(portions)));
            for present in 0..=u16::MAX {
                assert_eq!(total(16, &entries, present, &[0; 16]), Ok(present as u64));
            }
        }
        assert_eq!(total(3, &[100, 0, 300], 0b111, &[1, 20, 3]), Ok(400));
        assert_eq!(total(3, &[word(100, 3), 0, word(300, 300)], 0b111, &[1, 20, 3]), Ok(400));
    }

    /// Other words under absent entries, and other standing values of present ones.
    #[test]
    fn total_reads_one_word_for_each_process() {
        for word in [0, 1, 1 << 16, 0xa5a5_a5a5, MAX] {
            assert_eq!(total(4, &[100, word, 300, word], 0b0101, &[word, 20, word, 40]), Ok(460));
            assert_eq!(total(2, &[word; 2], 0, &[1, 2]), Ok(3));
            assert_eq!(total(2, &[1, 2], 0b11, &[word; 2]), Ok(3));
        }
    }

    /// Standing values are of 32 bits, portions of 16.
    #[test]
    fn the_greatest_total() {
        for present in [0xffff, 0, 0x0ff0, 0x5555, 1, 0x8000u16] {
            let greatest = present.count_ones() as u64 * 65_535 + present.count_zeros() as u64 * MAX as u64;
            for most in [word(65_535, 0), word(65_535, 65_535)] {
                let entries = std::array::from_fn::<u32, 16, _>(|i| most * (present >> i & 1) as u32);
                let standing = entries.map(|entry| if entry == 0 { MAX } else { 0 });
                assert_eq!(total(16, &entries, present, &standing), Ok(greatest), "{present:x}");
                assert_eq!(total(16, &[most; 16], present, &[MAX; 16]), Ok(greatest), "{present:x}");
            }
        }
    }

    #[test]
    fn go_needs_every_entry() {
        assert_eq!(go(2, &[1, 1], 0b11), Ok(true));
        assert_eq!(go(2, &[1, 1], 0b01), Ok(false));
        assert_eq!(go(2, &[1, 0], 0b11), Ok(false));
        assert_eq!(go(2, &[word(1, 1), word(1, 0)], 0b11), Ok(true));
        assert_eq!(go(2, &[word(2, 2), word(0, 0)], 0b11), Ok(false));
        assert_eq!(go(16, &[1; 16], 0xffff), Ok(true));
    }

    /// Portions come first, whatever the diet and the number.
    #[test]
    fn lead_takes_the_most_portions() {
        assert_eq!(lead(4, &[9, 5, 8, 7], 0b1110), Ok((3, 8)));
        assert_eq!(lead(2, &[word(9, 0), word(8, 8)], 3), Ok((1, 9)));
        assert_eq!(lead(2, &[word(8, 8), word(9, 0)], 3), Ok((2, 9)));
        assert_eq!(lead(3, &[word(254, 254), word(256, 0), word(255, 255)], 7), Ok((2, 256)));
        assert_eq!(lead(3, &[word(32_767, 9), word(65_535, 0), word(32_768, 9)], 7), Ok((2, 65_535)));
        assert_eq!(lead(2, &[5, 6], 0), Err(Refusal::Absent));
    }

    /// Of equal portions, with the lead first, between and last; then whatever the number.
    #[test]
    fn lead_takes_the_most_diet_of_these() {
        assert_eq!(lead(3, &[word(9, 9), word(9, 1), word(9, 0)], 7), Ok((1, 9)));
        assert_eq!(lead(3, &[word(9, 1), word(9, 9), word(9, 2)], 7), Ok((2, 9)));
        assert_eq!(lead(3, &[word(9, 0), word(9, 1), word(9, 9)], 7), Ok((3, 9)));
        assert_eq!(lead(2, &[word(65_535, 65_535), word(65_535, 65_534)], 3), Ok((1, 65_535)));
        assert_eq!(lead(2, &[word(300, 256), word(300, 255)], 3), Ok((1, 300)));
        assert_eq!(lead(2, &[word(40_000, 32_768), word(40_000, 32_767)], 3), Ok((1, 40_000)));
        // Neither a former lead's diet portions nor those of one that was passed count on.
        assert_eq!(lead(3, &[word(8, 8), word(9, 0), word(9, 1)], 7), Ok((3, 9)));
        assert_eq!(lead(4, &[word(9, 0), word(9, 2), word(9, 1), word(8, 8)], 15), Ok((2, 9)));
    }

    #[test]
    fn lead_takes_the_highest_of_those_equal_too() {
        assert_eq!(lead(4, &[9, 5, 7, 7], 0b1110), Ok((4, 7)));
        assert_eq!(lead(2, &[0, 0], 0b11), Ok((2, 0)));
        assert_eq!(lead(2, &[0, 0], 0b01), Ok((1, 0)));
        assert_eq!(lead(4, &[word(9, 2), word(9, 2), word(9, 1), word(8, 2)], 15), Ok((2, 9)));
        for (portions, diet) in [(0, 0), (1, 0), (1, 1), (40, 3), (65_535, 0), (65_535, 65_535)] {
            for n in 1..=16 {
                let entries = [word(portions, diet); 16];
                assert_eq!(lead(n, &entries[..n as usize], all(n)), Ok((n, portions)), "{portions}/{diet}");
            }
        }
    }

    /// One that would lead by each of the three, were it present, before and after.
    #[test]
    fn lead_passes_the_absent_over() {
        for better in [word(10, 0), word(9, 4), word(9, 3), word(0, 1), MAX] {
            assert_eq!(lead(4, &[better, word(9, 3), word(9, 2), better], 0b0110), Ok((2, 9)), "{better:x}");
            assert_eq!(lead(4, &[better, word(9, 3), word(9, 3), better], 0b0110), Ok((3, 9)), "{better:x}");
            assert_eq!(lead(3, &[better, word(0, 0), better], 0b010), Ok((2, 0)), "{better:x}");
        }
    }

    #[test]
    fn change_is_exact_at_both_ends() {
        for diet in [0, 1, 65_535] {
            assert_eq!(change(2, &[word(65_535, diet), 0], 3, 1, 0), Ok(65_535));
            assert_eq!(change(2, &[word(65_535, diet), 0], 3, 2, MAX), Ok(-4_294_967_295));
            assert_eq!(change(2, &[word(65_535, diet), 0], 3, 1, MAX), Ok(-4_294_901_760));
        }
        assert_eq!(change(2, &[word(7, 7), 0], 3, 1, 7), Ok(0));
        assert_eq!(change(2, &[7, 0], 1, 2, 7), Err(Refusal::Absent));
    }

    #[test]
    fn total_needs_n_of_each() {
        for present in 0..4 {
            for wrong in [0, 1, 3, 16, 17, 255, 256 + 2] {
                let list = vec![9; wrong];
                assert_eq!(total(2, &[9; 2], present, &list), Err(Refusal::Slice), "standing {wrong}");
                assert_eq!(total(2, &list, present, &[9; 2]), Err(Refusal::Slice), "entries {wrong}");
                assert_eq!(total(2, &list, present, &list), Err(Refusal::Slice), "both {wrong}");
            }
            // Four words in all, but not two of each.
            assert_eq!(total(2, &[9; 1], present, &[9; 3]), Err(Refusal::Slice));
            assert_eq!(total(2, &[9; 3], present, &[9; 1]), Err(Refusal::Slice));
        }
    }

    /// A bad n, then bad marks, is told before a list of the wrong length.
    #[test]
    fn total_refuses_in_order() {
        for lists in [[0, 0], [2, 2], [2, 1], [2, 3], [2, 0], [1, 2], [3, 2], [1, 1], [1, 3], [17, 17]] {
            let [entries, standing] = lists.map(|length| vec![9; length]);
            for n in [0, 17, 255] {
                assert_eq!(total(n, &entries, 0, &standing), Err(Refusal::Size), "{n} {lists:?}");
                assert_eq!(total(n, &entries, 0xffff, &standing), Err(Refusal::Size), "{n} {lists:?}");
            }
            for present in [4, 7, 0x8000] {
                assert_eq!(total(2, &entries, present, &standing), Err(Refusal::Field), "{lists:?}");
            }
        }
    }

    #[test]
    fn refusals_in_order() {
        assert_eq!(go(2, &[0; 1], 3), Err(Refusal::Slice));
        assert_eq!(lead(2, &[0; 1], 0), Err(Refusal::Slice));
        assert_eq!(change(2, &[0; 1], 0, 3, 0), Err(Refusal::Field));
        assert_eq!(change(2, &[0; 1], 0, 0, 0), Err(Refusal::Field));
        assert_eq!(change(2, &[0; 1], 0, 1, 0), Err(Refusal::Slice));
        assert_eq!(change(0, &[], 0, 1, 0), Err(Refusal::Size));
    }
}
