//! The properties of every schedule: random ones of every size, all of the smallest.

use reference::check::{check_closing, random_schedule, record_bound};
use reference::explore::{explore, Found};
use reference::gen::{damage, everything_in_transit, random_state, sizes, thin_out, well_formed, Rng};
use reference::listed::{check_list, held, Listed, OTHER};
use reference::Bench;

#[test]
fn random_schedules() {
    for (n, t) in sizes() {
        for seed in 0..10 {
            random_schedule(n, t, seed).unwrap_or_else(|broken| panic!("{broken}"));
        }
    }
}

#[test]
fn random_schedules_of_few_processes() {
    for (n, t) in sizes().filter(|&(n, _)| n <= 6) {
        for seed in 1000..2000 {
            random_schedule(n, t, seed).unwrap_or_else(|broken| panic!("{broken}"));
        }
    }
}

/// The closing of each record that a state accepts, counted by its number.
fn closings(state: &Bench, met: &mut [u64; 4]) {
    for record in well_formed(state.n, state.t) {
        let mut after = *state;
        let Ok(closing) = after.step_sound(&record.bytes()) else { continue };
        let round = state.processes[record.a as usize - 1].round;
        check_closing(record, round, closing, &after).unwrap_or_else(|broken| panic!("{broken}"));
        met[closing.number() as usize] += 1;
    }
}

/// On states that mostly no schedule reaches.
#[test]
fn closings_on_other_states() {
    let mut rng = Rng::new(9);
    let mut met = [0; 4];
    for (n, t) in sizes() {
        for i in 0..if n <= 6 { 200 } else { 2 } {
            closings(&random_state(&mut rng, n, t, i % 2 == 0), &mut met);
        }
    }
    println!("closings: {met:?}");
    assert!(!met.contains(&0), "{met:?}");
}

fn list(state: &Bench, turn: usize, listed: &mut Listed) {
    let broken = |broken| panic!("n {}, t {}: {broken}", state.n, state.t);
    check_list(state, &held(state), turn, listed).unwrap_or_else(broken);
}

/// The list in transit on states that mostly no schedule reaches, sound and damaged, and with everything in transit.
#[test]
fn lists_on_other_states() {
    let mut rng = Rng::new(11);
    let mut listed = Listed::default();
    for (n, t) in sizes() {
        for turn in 0..20 {
            let mut state = random_state(&mut rng, n, t, turn % 2 == 0);
            if turn % 3 == 0 {
                thin_out(&mut rng, &mut state);
            }
            list(&state, turn, &mut listed);
            damage(&mut rng, &mut state);
            list(&state, turn, &mut listed);
        }
        (0..4).for_each(|turn| list(&everything_in_transit(n, t), turn, &mut listed));
    }
    println!("lists: {}", listed.report());
    assert!(listed.missing(OTHER).is_empty(), "lists not met: {:?}", listed.missing(OTHER));
}

/// Of each n and t the states and the longest schedule; the bound is met exactly up to t 1.
fn every_schedule(expected: &[(u8, u8, usize, usize)]) {
    let found: Vec<Found> = expected.iter().map(|&(n, t, ..)| found(n, t)).collect();
    for (&(n, t, states, longest), found) in expected.iter().zip(&found) {
        assert_eq!((found.states, found.longest), (states, longest), "n {n}, t {t}");
    }
    for (&(n, t, ..), found) in expected.iter().zip(&found) {
        every_closing(n, t, found);
        every_list(n, t, found);
    }
}

fn found(n: u8, t: u8) -> Found {
    let found = explore(n, t).unwrap_or_else(|broken| panic!("{broken}"));
    println!("n {n}, t {t}: {found:?}");
    assert!(found.longest <= record_bound(n, t));
    found
}

/// Which closings there are at all. In round 1 of two or more the estimates differ, so they agree from round 2 on.
fn every_closing(n: u8, t: u8, found: &Found) {
    let [_, next_round, agreed, last_round] = found.closings;
    assert_eq!((next_round > 0, agreed > 0, last_round > 0), (t > 0, t > 1, true), "n {n}, t {t}");
    assert_eq!(found.both_grounds > 0, n == 1 || t > 0, "n {n}, t {t}");
}

/// Where all but one may crash, every kind of list that schedules of n processes can meet.
fn every_list(n: u8, t: u8, found: &Found) {
    let missing = found.listed.missing(n);
    assert!(t + 1 < n || missing.is_empty(), "n {n}, t {t}: lists not met: {missing:?}");
}

#[test]
fn every_schedule_of_one_and_two() {
    every_schedule(&[(1, 0, 3, 2), (2, 0, 37, 12), (2, 1, 432, 20)]);
}

#[test]
fn every_schedule_of_three() {
    every_schedule(&[(3, 0, 12_697, 30), (3, 1, 331_315, 48), (3, 2, 2_004_658, 52)]);
}
