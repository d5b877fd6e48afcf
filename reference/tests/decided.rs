//! Every byte in `decided`: not 0 is decided, a step that decides writes 1, and no other step changes the byte.

use reference::gen::{random_state, reached_state, well_formed, Rng};
use reference::{Bench, Record, Refusal, Value};

const SIZES: [(u8, u8); 5] = [(1, 0), (2, 1), (3, 1), (3, 2), (4, 2)];

/// The same state with 1 for every byte that is not 0.
fn with_ones(bench: &Bench) -> Bench {
    let mut bench = *bench;
    bench.processes.iter_mut().for_each(|p| p.decided = p.decided.min(1));
    bench
}

fn bytes(bench: &Bench) -> [u8; 16] {
    bench.processes.map(|p| p.decided)
}

/// What the bytes are after a call that decides those for which `ones`, stepped with 1 for every such byte, has 1.
fn bytes_after(before: &Bench, ones: &Bench) -> [u8; 16] {
    std::array::from_fn(|i| match before.processes[i].decided {
        0 => ones.processes[i].decided,
        byte => byte,
    })
}

fn same_but_for_the_bytes(before: &Bench, after: &Bench, ones: &Bench) {
    assert_eq!(bytes(after), bytes_after(before, ones));
    assert!(with_ones(after) == *ones);
}

/// Each record, a run, and the reading calls: as with 1, the bytes as they were.
fn behaves_as_with_1(bench: &Bench, records: &[Record]) {
    let ones = with_ones(bench);
    for record in records {
        let (mut after, mut ones_after) = (*bench, ones);
        assert_eq!(after.step(&record.bytes()), ones_after.step(&record.bytes()), "{record:?}");
        same_but_for_the_bytes(bench, &after, &ones_after);
    }
    run_behaves_as_with_1(bench, records);
    for number in 0..=bench.n + 1 {
        assert_eq!(bench.decision(number), ones.decision(number));
    }
    let (mut list, mut ones_list) = (vec![7; 3 * 16 * 16 * 17], vec![7; 3 * 16 * 16 * 17]);
    assert_eq!(bench.list_in_transit(&mut list), ones.list_in_transit(&mut ones_list));
    assert_eq!(list, ones_list);
}

/// One run after another over all the records, each refused one passed over.
fn run_behaves_as_with_1(bench: &Bench, records: &[Record]) {
    let schedule: Vec<u8> = records.iter().flat_map(|record| record.bytes()).collect();
    let (mut after, mut ones) = (*bench, with_ones(bench));
    let mut rest = &schedule[..];
    while !rest.is_empty() {
        let before = after;
        let ended = after.run(rest, u32::MAX);
        assert_eq!(ended, ones.run(rest, u32::MAX));
        same_but_for_the_bytes(&before, &after, &ones);
        rest = &ended.rest[ended.rest.len().min(Bench::RECORD)..];
    }
}

#[test]
fn each_byte_but_0_behaves_as_1() {
    let mut rng = Rng::new(8);
    for (n, t) in SIZES {
        let records = well_formed(n, t);
        for i in 0..6 {
            let state = if i % 2 == 0 {
                reached_state(&mut rng, n, t)
            } else {
                random_state(&mut rng, n, t, i % 3 == 0)
            };
            let process = rng.below(n as usize);
            for byte in 1..=255 {
                let mut bench = state;
                bench.processes[process].decided = byte;
                behaves_as_with_1(&bench, &records);
            }
        }
    }
}

fn accept(bench: &mut Bench, record: Record) {
    assert!(bench.step(&record.bytes()).is_ok(), "{record:?}");
}

/// Opened with 0; a close and a decision that arrives write 1; nothing else writes.
#[test]
fn a_decision_writes_1() {
    let mut bench = Bench::open(2, 0).unwrap();
    assert_eq!(bytes(&bench), [0; 16]);
    let before = [
        Record::start(1, 5, 0),
        Record::start(2, 6, 1),
        Record::send(1, 2),
        Record::send(2, 1),
        Record::arrive(2, 1, 1),
    ];
    for record in before {
        accept(&mut bench, record);
        assert_eq!(bytes(&bench), [0; 16]);
    }
    accept(&mut bench, Record::close(1));
    assert_eq!(bytes(&bench)[..2], [1, 0]);
    accept(&mut bench, Record::send(1, 2));
    accept(&mut bench, Record::arrive(1, 2, 0));
    assert_eq!(bytes(&bench)[..2], [1, 1]);
}

/// A process with a byte that is not 0 starts and has decided.
#[test]
fn a_start_leaves_the_byte() {
    for byte in 1..=255 {
        let mut bench = Bench::open(2, 1).unwrap();
        bench.processes[0].decided = byte;
        accept(&mut bench, Record::start(1, 40, 3));
        assert_eq!(bytes(&bench)[..2], [byte, 0]);
        assert_eq!(bench.decision(1).map(|data| data.entry(0)), Ok(Some(Value::new(40, 3))));
        accept(&mut bench, Record::send(1, 2));
        assert_eq!((bench.in_transit[0], bench.in_transit[1]), (0b10, 0));
        assert_eq!(bench.step(&Record::close(1).bytes()), Err(Refusal::NotDue));
        accept(&mut bench, Record::start(2, 25, 0));
        accept(&mut bench, Record::arrive(1, 2, 0));
        assert_eq!(bytes(&bench)[..2], [byte, 1]);
    }
}
