//! The lead where portions are equal: every small case, random ties with all that can break them, words that must not
//! count, and what the request has not changed.

use reference::aggregates::{change, go, lead, total};
use reference::gen::Rng;
use reference::summed::{aggregates_of, by_rule, Asked, Lists};
use reference::ties::{any_ties, Leads};
use reference::{Refusal, Value};

const STANDING: [u32; 4] = [1, 20, u32::MAX, 4000];

/// Every list of n entries with up to 2 portions and up to 2 diet portions, also too many; and all marks.
fn small_cases(n: u8, mut each: impl FnMut(&[u32], u16)) {
    let words: Vec<u32> = (0..9).map(|i| Value::new(i / 3, i % 3).word()).collect();
    for case in 0..9usize.pow(n as u32) {
        let entries: Vec<u32> = (0..n as u32).map(|i| words[case / 9usize.pow(i) % 9]).collect();
        (0..1 << n).for_each(|marks| each(&entries, marks));
    }
}

/// Of 9 words 6 are good, and an absent entry may have any: so many lists are refused with 15, with 12, and not.
#[test]
fn every_small_case_is_by_the_rule() {
    for n in 1..=4u8 {
        let mut met = [0usize; 16];
        small_cases(n, |entries, marks| {
            let lists = Lists { n, entries, marks, standing: &STANDING[..n as usize] };
            let asked = Asked { process: 1 + marks as u8 % n, standing: 1, old: 0xa5a5_a5a5_a5a5_a5a5 };
            let given = aggregates_of(lists, asked);
            assert_eq!(given, by_rule(lists, asked), "{lists:?}, {asked:?}");
            met[given.answers[2] as usize] += 1;
        });
        let power = |number: usize| number.pow(n as u32);
        assert_eq!([met[15], met[12], met[0]], [power(18) - power(15), power(9), power(15) - power(9)]);
    }
}

/// Of random lists, all kinds of leads met.
#[test]
fn leads_by_the_rule() {
    let mut rng = Rng::new(18);
    let mut met = Leads::default();
    for turn in 0..20_000 {
        let (n, entries, marks, standing) = any_ties(&mut rng);
        let asked = Asked::any(&mut rng, n);
        let lists = Lists { n, entries: &entries, marks, standing: &standing };
        let given = aggregates_of(lists, asked);
        assert_eq!(given, by_rule(lists, asked), "seed 18, turn {turn}: {lists:?}, {asked:?}");
        met.count(lists, &given);
    }
    println!("leads: {}", met.report());
    assert!(met.missing().is_empty(), "leads not met: {:?}", met.missing());
}

/// These entries with another word under each absent one.
fn under_absent(entries: &[u32], marks: u16, word: impl Fn(u32) -> u32) -> Vec<u32> {
    let present = |i| marks >> i & 1 == 1;
    entries.iter().enumerate().map(|(i, &old)| if present(i) { old } else { word(old) }).collect()
}

/// Also such as would lead by portions, by diet portions or by their number, and such as would be refused.
#[test]
fn words_under_absent_entries_do_not_count() {
    let check = |n: u8, entries: &[u32], marks: u16| {
        let given = lead(n, entries, marks);
        let leads = given.map_or(Value::ZERO, |(process, _)| Value::from_word(entries[process as usize - 1]));
        let Value { portions, diet } = leads;
        let (more_portions, more_diet) = (portions.saturating_add(1), portions.min(diet.saturating_add(1)));
        for word in [
            0,
            u32::MAX,
            leads.word(),
            Value::new(more_portions, diet).word(),
            Value::new(portions, more_diet).word(),
            Value::new(portions, u16::MAX).word(),
        ] {
            let others = under_absent(entries, marks, |_| word);
            assert_eq!(lead(n, &others, marks), given, "{entries:x?}, {marks:b}, {word:x}");
        }
        let others = under_absent(entries, marks, |word| !word);
        assert_eq!(lead(n, &others, marks), given, "{entries:x?}, {marks:b}");
    };
    (1..=3).for_each(|n| small_cases(n, |entries, marks| check(n, entries, marks)));
    let mut rng = Rng::new(1802);
    for _ in 0..5000 {
        let (n, entries, marks, _) = any_ties(&mut rng);
        check(n, &entries, marks);
    }
}

/// The lead before this request: of the most portions the lowest number.
fn former_lead(n: u8, entries: &[u32], marks: u16) -> (u8, u16) {
    let portions = |number: &u8| Value::from_word(entries[*number as usize - 1]).portions;
    let present: Vec<u8> = (1..=n).filter(|number| marks >> (number - 1) & 1 == 1).collect();
    let most = present.iter().map(portions).max().expect("one is present");
    (present.into_iter().find(|number| portions(number) == most).expect("it has the most"), most)
}

/// The portions that lead gives are as before, and who leads too where portions are not equal.
#[test]
fn only_ties_have_another_lead() {
    let mut moved = 0;
    let mut check = |n: u8, entries: &[u32], marks: u16| {
        let Ok((process, portions)) = lead(n, entries, marks) else { return };
        let (former, most) = former_lead(n, entries, marks);
        assert_eq!(portions, most, "{entries:x?}, {marks:b}");
        if process != former {
            let of = |number: u8| Value::from_word(entries[number as usize - 1]);
            assert_eq!(of(process).portions, of(former).portions, "{entries:x?}, {marks:b}");
            moved += 1;
        }
    };
    (1..=4).for_each(|n| small_cases(n, |entries, marks| check(n, entries, marks)));
    let mut rng = Rng::new(1803);
    for _ in 0..5000 {
        let (n, entries, marks, _) = any_ties(&mut rng);
        check(n, &entries, marks);
    }
    assert!(moved > 10_000, "{moved}");
}

/// Total, go and change are what they were: they read portions, and no other diet portions among these show in them.
#[test]
fn the_other_aggregates_are_as_before() {
    let check = |n: u8, entries: &[u32], marks: u16| {
        let standing: Vec<u32> = STANDING.iter().copied().cycle().take(n as usize).collect();
        let present = |i: usize| marks >> i & 1 == 1;
        let portions = |i: usize| entries[i] % 65_536;
        let places = || 0..n as usize;
        let refused = places().any(|i| present(i) && entries[i] / 65_536 > portions(i));
        let summed: u64 = places().map(|i| if present(i) { portions(i) } else { standing[i] } as u64).sum();
        let all_some = places().all(|i| present(i) && portions(i) > 0);
        let expected = |given| if refused { Err(Refusal::Diet) } else { Ok(given) };
        for diet in [None, Some(0), Some(u16::MAX)] {
            // Where diet portions are good, others that are good do as well.
            let of = |word: u32| {
                let value = Value::from_word(word);
                diet.map_or(word, |diet| Value { diet: diet.min(value.portions), ..value }.word())
            };
            let others: Vec<u32> =
                entries.iter().map(|&word| if refused { word } else { of(word) }).collect();
            assert_eq!(total(n, &others, marks, &standing), expected(summed as i64).map(|sum| sum as u64));
            assert_eq!(go(n, &others, marks), expected(all_some as i64).map(|so| so == 1));
            for i in places().filter(|&i| present(i)) {
                let less = |standing: u32| expected(portions(i) as i64 - standing as i64);
                for standing in [0, 1, 40, u32::MAX] {
                    assert_eq!(change(n, &others, marks, i as u8 + 1, standing), less(standing));
                }
            }
        }
    };
    (1..=3).for_each(|n| small_cases(n, |entries, marks| check(n, entries, marks)));
    let mut rng = Rng::new(1804);
    for _ in 0..5000 {
        let (n, entries, marks, _) = any_ties(&mut rng);
        check(n, &entries, marks);
    }
}
