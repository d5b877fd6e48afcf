//! The close, which fills and compares in one pass, against steps 4 and 5 of the paper in two: on every small case, on
//! random states, and along schedules.

use reference::gen::{random_state, records, sizes, Accepted, Rng};
use reference::received::{nearly_equal, Closed, Closes};
use reference::{Bench, Closing, GlobalData, Process, Record};

/// The paper's sheet: for each entry a count, as its word, or blank.
type Sheet = [Option<u32>; 16];

fn sheet(data: &GlobalData) -> Sheet {
    std::array::from_fn(|i| (data.present >> i & 1 == 1).then_some(data.values[i]))
}

/// Each blank entry takes the count that an arrived estimate shows, that of the lowest-numbered member showing one.
fn new_estimate(old: &Sheet, arrived: &[Sheet]) -> Sheet {
    std::array::from_fn(|i| old[i].or_else(|| arrived.iter().find_map(|sheet| sheet[i])))
}

/// The new estimate equals every arrived estimate, its own old one included.
fn all_equal(new: &Sheet, old: &Sheet, arrived: &[Sheet]) -> bool {
    arrived.iter().chain([old]).all(|sheet| sheet == new)
}

/// What a close comes to: how it ends, the process after it, and whether the sets and all estimates are equal.
struct Defined {
    closing: Closing,
    process: Process,
    settled: bool,
}

/// A close of a that is due, by the definition. Words under entries that stay absent stay too.
fn defined(bench: &Bench, a: usize) -> Defined {
    let mut p = bench.processes[a];
    let round = p.round as usize;
    let after_set = p.current & (p.received[round - 1] | 1 << a);
    let members = (0..16).filter(|&m| m != a && after_set >> m & 1 == 1);
    let arrived: Vec<Sheet> = members.map(|m| sheet(&bench.sent[16 * m + round - 1])).collect();
    let old = sheet(&p.estimate);
    let new = new_estimate(&old, &arrived);
    let settled = p.previous == after_set && all_equal(&new, &old, &arrived);
    for (i, count) in new.into_iter().enumerate() {
        if let Some(count) = count {
            p.estimate.present |= 1 << i;
            p.estimate.values[i] = count;
        }
    }
    let closing = match (p.round == bench.t + 1, settled) {
        (true, _) => Closing::LastRound,
        (false, true) => Closing::Agreed,
        (false, false) => Closing::NextRound,
    };
    if closing == Closing::NextRound {
        (p.round, p.previous, p.current) = (p.round + 1, p.current, after_set);
        p.outbox = after_set & !(1 << a);
    } else {
        p.decided = 1;
        p.outbox = bench.everyone() & !(1 << a) & !p.suspected;
    }
    Defined { closing, process: p, settled }
}

fn close(a: usize) -> [u8; 8] {
    Record::close(a as u8 + 1).bytes()
}

/// The entries that vary in the small cases, and a word of each beside 0: of portions alone, of diet portions alone,
/// and the largest.
const WORDS: [u32; 3] = [5, 7 << 16, u32::MAX];

/// One of the 4 ^ k estimates in which each of k entries is absent or present, with 0 or its word there. Where these
/// words differ, so do those of all other entries, which are absent.
fn small(k: usize, choice: usize) -> GlobalData {
    let (marks, words) = (choice % (1 << k), choice >> k);
    let mut data = GlobalData { present: marks as u16, values: [words as u32; 16] };
    for (i, word) in data.values.iter_mut().take(k).enumerate() {
        *word = WORDS[i] * (words >> i & 1) as u32;
    }
    data
}

/// How a small case stands: before the last round with equal sets or not, or in it.
#[derive(Clone, Copy)]
enum Stands {
    Equal,
    Unequal,
    Last,
}

/// A bench of n and t = n - 1 where the close of a is due with this next set.
fn stand(n: u8, a: usize, next: u16, stands: Stands) -> Bench {
    let mut bench = Bench::open(n, n - 1).unwrap();
    let missing = bench.everyone() & !next & !(1 << a);
    let p = &mut bench.processes[a];
    (p.round, p.previous, p.current) = (1, next, next);
    match stands {
        Stands::Equal => {}
        Stands::Unequal if missing == 0 => p.previous = next ^ 1,
        Stands::Unequal => {
            (p.previous, p.current, p.suspected) = (next | missing, next | missing, missing);
        }
        Stands::Last => p.round = n,
    }
    p.received[p.round as usize - 1] = next & !(1 << a);
    bench
}

/// Every choice of estimates for a and for the members of its next set. The rows of the others, and that of a itself,
/// hold one or another.
fn every_choice(bench: &mut Bench, a: usize, k: usize, met: &mut Closes) {
    let (n, t, process, choices) = (bench.n, bench.t, bench.processes[a], 1 << (2 * k));
    let round = process.round as usize;
    let others = process.received[round - 1];
    for turn in 0..choices << (2 * k * others.count_ones() as usize) {
        let mut rest = turn;
        let mut chosen = || {
            let choice = rest % choices;
            rest /= choices;
            choice
        };
        bench.processes[a] = Process { estimate: small(k, chosen()), ..process };
        for m in 0..n as usize {
            let choice = if others >> m & 1 == 1 { chosen() } else { (turn + m) % choices };
            bench.sent[16 * m + round - 1] = small(k, choice);
        }
        let told = || format!("n {n}, t {t}: round {round}, others {others:#b}, turn {turn}: process {a}");
        check_in_place(bench, a, met).unwrap_or_else(|broken| panic!("{}: {broken}", told()));
    }
}

/// A close that is due changes the process, and the row of the round that it opens, by the definition. That it changes
/// nothing else is for `check` to see.
fn check_in_place(bench: &mut Bench, a: usize, met: &mut Closes) -> Result<(), String> {
    let Defined { closing, process, .. } = defined(bench, a);
    met.count(&Closed { bench, a, closing, new: &process.estimate });
    let given = bench.step_sound(&close(a));
    if given != Ok(closing) {
        return Err(format!("{given:?}, by the definition {closing:?}"));
    }
    let opened = &bench.sent[16 * a + process.round as usize - 1];
    if bench.processes[a] != process || closing == Closing::NextRound && *opened != process.estimate {
        return Err(format!("the state after {closing:?}"));
    }
    Ok(())
}

/// Of n processes, where k entries vary: each of them, in its next set or not, with any others in that set.
fn every_small_case(n: u8, k: usize, met: &mut Closes) {
    for a in 0..n as usize {
        for next in 0..1 << n {
            for stands in [Stands::Equal, Stands::Unequal, Stands::Last] {
                every_choice(&mut stand(n, a, next, stands), a, k, met);
            }
        }
    }
}

#[test]
fn every_small_case_is_by_the_definition() {
    let mut met = Closes::default();
    every_small_case(3, 3, &mut met);
    every_small_case(4, 2, &mut met);
    println!("closes: {}", met.report());
    assert!(met.missing().is_empty(), "closes not met: {:?}", met.missing());
}

/// A close of a that is due, on a copy: its answer, all of the state after it, and `both_grounds` before it.
fn check(bench: &Bench, a: usize, met: &mut Closes, told: &str) {
    let Defined { closing, process, settled } = defined(bench, a);
    let (mut after, mut expected) = (*bench, *bench);
    expected.processes[a] = process;
    if closing == Closing::NextRound {
        expected.sent[16 * a + process.round as usize - 1] = process.estimate;
    }
    let given = after.step(&close(a));
    assert!(given == Ok(closing), "{told}: process {a}: {given:?}, by the definition {closing:?}");
    assert!(after == expected, "{told}: process {a}: the state after {closing:?}");
    let both = closing == Closing::LastRound && settled;
    assert!(bench.both_grounds(a) == both, "{told}: process {a}: both grounds {both}");
    met.count(&Closed { bench, a, closing, new: &process.estimate });
}

/// Each close that is due. Where none is, there are not both grounds.
fn check_each(bench: &Bench, met: &mut Closes, told: &str) {
    let due: Vec<usize> = Accepted::of(bench).of_kind[4].iter().map(|close| close.a as usize - 1).collect();
    for a in (0..bench.n as usize).filter(|&a| !bench.has_crashed(a)) {
        if due.contains(&a) {
            check(bench, a, met, told);
        } else {
            assert!(!bench.both_grounds(a), "{told}: process {a}: both grounds, and not due");
        }
    }
}

/// Before the last round nobody agrees by a schedule where t is below 2.
fn larger_sizes() -> impl Iterator<Item = (u8, u8)> {
    sizes().filter(|&(_, t)| t >= 2)
}

#[test]
fn random_closes_are_by_the_definition() {
    let mut rng = Rng::new(19);
    let mut met = Closes::default();
    for (n, t) in larger_sizes() {
        for turn in 0..if n == 16 { 1000 } else { 100 } {
            let (bench, a) = nearly_equal(&mut rng, n, t);
            check(&bench, a, &mut met, &format!("n {n}, t {t}: turn {turn}"));
        }
    }
    println!("closes: {}", met.report());
    assert!(met.missing().is_empty(), "closes not met: {:?}", met.missing());
}

/// On states that mostly no schedule reaches; what schedules can meet, these do too.
#[test]
fn closes_of_other_states_are_by_the_definition() {
    let mut rng = Rng::new(20);
    let mut met = Closes::default();
    for (n, t) in larger_sizes() {
        for turn in 0..if n <= 6 { 400 } else { 20 } {
            let bench = random_state(&mut rng, n, t, turn % 2 == 0);
            check_each(&bench, &mut met, &format!("n {n}, t {t}: turn {turn}"));
        }
    }
    println!("closes: {}", met.report());
    let missing = met.missing_of_schedules();
    assert!(missing.is_empty(), "closes not met: {missing:?}");
}

/// Before each close that is accepted, each that is due.
#[test]
fn closes_along_schedules_are_by_the_definition() {
    let mut met = Closes::default();
    for (n, t) in larger_sizes() {
        for seed in 1600..if n <= 6 { 1900 } else { 1603 } {
            let mut bench = Bench::open(n, t).unwrap();
            for record in records(n, t, seed, 0) {
                if record[0] == 4 {
                    check_each(&bench, &mut met, &format!("n {n}, t {t}, seed {seed}"));
                }
                bench.step(&record).unwrap();
            }
        }
    }
    println!("closes: {}", met.report());
    let missing = met.missing_of_schedules();
    assert!(missing.is_empty(), "closes not met: {missing:?}");
}
