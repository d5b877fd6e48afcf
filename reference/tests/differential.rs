//! The proved library against the reference. SEED sets the seed, which a failure names; `soak` goes on for longer.

use reference::compare::{decided_bytes, everything};
use reference::compare_calendars::{calendars, every_week};
use reference::listed::OTHER;
use reference::tool::{Progress, Stage};

const SCHEDULES: usize = 2;
const RECORDS: u64 = 200_000;
const CALENDARS: u64 = 60_000;

fn seed() -> u64 {
    std::env::var("SEED").map_or(1, |seed| seed.parse().expect("a number"))
}

/// Compares, and says on standard error how far it has come; all parts are done at its end. Gives what was met, and
/// how much was counted.
fn told<T>(parts: &str, things: &str, compare: impl FnOnce(&mut dyn FnMut(Stage)) -> T) -> (T, u64) {
    let (mut progress, mut last) = (Progress::in_lines("differential"), Stage::default());
    let met = compare(&mut |stage| {
        last = stage;
        progress.tell(|since| stage.in_words(parts, things, since));
    });
    assert!(last.done > 0 && last.done == last.of, "{last:?}");
    (met, last.counted)
}

#[test]
fn proved_library_and_reference_agree() {
    let seed = seed();
    let (met, counted) = told("parts", "records", |tell| everything(seed, SCHEDULES, tell));
    assert_eq!(counted, met.records);
    println!("seed {seed}: {}", met.report());
    println!("seed {seed}, of diet portions: {}", met.report_values());
    println!("seed {seed}, of leads: {}", met.leads.report());
    println!("seed {seed}, of nearly equal estimates: {}", met.closes.report());
    println!("seed {seed}, of benches carried over: {}", met.report_carried());
    assert!(met.records >= RECORDS, "{} records", met.records);
    assert!(met.missing().is_empty(), "refusals not met: {:?}", met.missing());
    let missing = met.closings.missing();
    assert!(missing.is_empty(), "closings not met: {missing:?}");
    let missing = met.totals.missing();
    assert!(missing.is_empty(), "totals not met: {missing:?}");
    let missing = met.missing_values();
    assert!(missing.is_empty(), "values not met: {missing:?}");
    let missing = met.leads.missing();
    assert!(missing.is_empty(), "leads not met: {missing:?}");
    let missing = met.closes.missing();
    assert!(missing.is_empty(), "closes not met: {missing:?}");
    let missing = met.missing_carried();
    assert!(missing.is_empty(), "carryings not met: {missing:?}");
    let [others, reached] = met.listed;
    let missing = (reached.missing(16), others.missing(OTHER));
    assert!(missing == (vec![], vec![]), "lists not met: {missing:?}, the second of other states");
}

#[test]
fn they_agree_on_every_byte_in_decided() {
    let seed = seed();
    let (met, _) = told("sizes with every byte in decided", "records", |tell| decided_bytes(seed, tell));
    println!(
        "seed {seed}: {}; bytes in decided, accepted, refused and telling: {}",
        met.report(),
        met.bytes.report()
    );
    assert!(met.bytes.missing().is_empty(), "bytes not met: {:?}", met.bytes.missing());
}

#[test]
fn they_agree_on_calendars() {
    let seed = seed();
    let (met, _) = told("calendars", "answers", |tell| calendars(seed, CALENDARS, tell));
    println!("seed {seed}: {}", met.report());
    assert!(met.missing().is_empty(), "calendars not met: {:?}", met.missing());
    let (every, _) = told("weeks", "answers", |tell| every_week(seed, tell));
    let [accepted, faulty, shut] = every.answers;
    println!("seed {seed}: every week twice, {accepted} accepted; refusals 13: {faulty}, 14: {shut}");
    // Up to week 9,362; one record of each later week has its first day at 16 bits, and it is no day of that week.
    assert_eq!((accepted, faulty, shut), (2 * 9363, 0, 2 * (65_536 - 9363)));
}
