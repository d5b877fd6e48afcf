//! The proved library beside the reference on calendars: both get the same records and week, and must agree on the
//! answer and on every byte of what is lent. What differs panics with the seed and the place.

use crate::calendar::{self, Week};
use crate::calendars::{self, Case, Met};
use crate::gen::Rng;
use crate::proved;
use crate::refusal::number;
use crate::tool::{Stage, Tell};

/// A week with any bytes, as it is lent.
fn any_lent(rng: &mut Rng) -> Week {
    let mut bytes = || std::array::from_fn(|_| rng.draw() as u8);
    let ([n, ..], process_of, site_of): ([u8; 16], _, _) = (bytes(), bytes(), bytes());
    Week { n, process_of, site_of }
}

/// One call of each; what the proved library gives also by the rule, so that the two are not only the same.
fn compare(calendar: &[u8], week: u16, before: Week, met: &mut Met, place: &str) {
    let mut lent = before;
    let answer = proved::calendar_week(calendar, week, &mut lent);
    let plain = calendar::week(calendar, week);
    let expected = (number(&plain) as u32, plain.unwrap_or(before));
    if (answer, lent) != expected {
        panic!("{place}, week {week}: proved {:?}, reference {expected:?}, lent {before:?}", (answer, lent));
    }
    let given = if answer == 0 { Ok(lent.bytes()) } else { Err(answer as u8) };
    let case = Case::new(calendar, week);
    case.check(&given).unwrap_or_else(|broken| panic!("{place}, {broken}"));
    met.count(&case);
}

/// How many are asked before it is told again.
const TOGETHER: u64 = 100;

/// Tells of every so many that are done; what was counted is the answers.
fn told(done: u64, of: u64, met: &Met, tell: Tell) {
    if done.is_multiple_of(TOGETHER) || done == of {
        tell(Stage { done, of, counted: met.answers.iter().sum() });
    }
}

/// Random calendars, from one seed. Each is asked for the week that it was made for, and sometimes for another.
pub fn calendars(seed: u64, times: u64, tell: Tell) -> Met {
    let (mut rng, mut met) = (Rng::new(seed ^ 0xca1e_da45), Met::default());
    for i in 0..times {
        let week = calendars::any_week(&mut rng);
        let calendar = calendars::any(&mut rng, week);
        let place = format!("seed {seed}, calendar {i}");
        compare(&calendar, week, any_lent(&mut rng), &mut met, &place);
        if rng.percent(10) {
            let other = rng.draw() as u16;
            let week = rng.pick(&[week.wrapping_sub(1), week.wrapping_add(1), other]);
            compare(&calendar, week, any_lent(&mut rng), &mut met, &place);
        }
        told(i + 1, times, &met, tell);
    }
    met
}

/// A calendar of one record, and one of a term without end: every week there is.
pub fn every_week(seed: u64, tell: Tell) -> Met {
    let (mut rng, mut met) = (Rng::new(seed ^ 0x3ee4), Met::default());
    let ever = [16, 1, 0, 0, 255, 255, 0, 0];
    for week in 0..=u16::MAX {
        let mut record = ever;
        record[0] = 1 + (week % 16) as u8;
        record[2..4].copy_from_slice(&7u16.wrapping_mul(week).to_le_bytes());
        let place = format!("seed {seed}, every week");
        compare(&ever, week, any_lent(&mut rng), &mut met, &place);
        compare(&record, week, any_lent(&mut rng), &mut met, &place);
        told(week as u64 + 1, 1 << 16, &met, tell);
    }
    met
}
