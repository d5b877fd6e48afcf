//! Names, numbers and texts: the package, the header and the page of formats say the same.

mod common;

use common::Random;
use gerzulan::{Closing, Record, Refusal, Value, LIST_BYTES, MAX_PROCESSES, RECORD_BYTES};
use std::collections::{BTreeMap, BTreeSet};
use std::path::Path;

/// A file of the repository.
fn file(name: &str) -> String {
    let path = Path::new(env!("CARGO_MANIFEST_DIR")).join("..").join(name);
    std::fs::read_to_string(&path).unwrap_or_else(|error| panic!("{name}: {error}"))
}

#[test]
fn refusals_and_their_numbers() {
    let mut texts = BTreeSet::new();
    for number in 0..=300 {
        let refusal = Refusal::from_number(number);
        assert_eq!(refusal.number(), number);
        assert_eq!(Refusal::from_number(refusal.number()), refusal);
        let known = (1..=16).contains(&number);
        assert_eq!(refusal == Refusal::Unknown(number), !known);
        assert_eq!(refusal.to_string(), refusal.text());
        assert!(!refusal.text().is_empty());
        texts.insert(refusal.text());
    }
    // 16 texts, and one for all the others.
    assert_eq!(texts.len(), 17);
    assert_eq!(Refusal::Unknown(3).text(), Refusal::Unknown(0).text());
}

/// `case 7: return "text";` by number, and the text of `default:`. A line may break between the words.
fn header_texts(header: &str) -> (BTreeMap<u32, String>, Option<String>) {
    let header = header.split_whitespace().collect::<Vec<_>>().join(" ");
    let pieces: Vec<&str> = header.split(": return \"").collect();
    let (mut texts, mut default) = (BTreeMap::new(), None);
    for pair in pieces.windows(2) {
        let label = pair[0].rsplit(' ').next().expect("a label");
        let (text, _) = pair[1].split_once("\";").expect("the end of a text");
        match label.parse() {
            Ok(number) => assert!(texts.insert(number, text.to_string()).is_none(), "{label} twice"),
            Err(_) => default = (label == "default").then(|| text.to_string()),
        }
    }
    (texts, default)
}

#[test]
fn the_header_has_the_same_texts() {
    let (mut texts, default) = header_texts(&file("include/gerzulan.h"));
    texts.remove(&0); // accepted: no refusal
    let expected: BTreeMap<u32, String> =
        (1..=16).map(|number| (number, Refusal::from_number(number).text().to_string())).collect();
    assert_eq!(texts, expected);
    assert_eq!(default.as_deref(), Some(Refusal::Unknown(17).text()));
}

#[test]
fn the_page_of_formats_has_the_same_texts() {
    let page = file("docs/FORMATS.md");
    for number in 1..=16 {
        let text = Refusal::from_number(number).text();
        let begin = format!("| {number} |");
        let has_text = |line: &str| line.split('|').map(str::trim).skip(2).take(2).any(|cell| cell == text);
        let rows = page.lines().filter(|line| line.starts_with(&begin) && has_text(line)).count();
        assert_eq!(rows, 1, "rows of refusal {number} with the text `{text}`");
    }
}

/// The value of `#define NAME value`, without a suffix.
fn defined(header: &str, name: &str) -> usize {
    let value = header.lines().find_map(|line| {
        let mut words = line.strip_prefix("#define ")?.split_whitespace();
        (words.next() == Some(name)).then(|| words.next()).flatten()
    });
    let value = value.unwrap_or_else(|| panic!("no {name} in the header"));
    value.trim_end_matches('u').parse().unwrap_or_else(|_| panic!("{name} is {value}"))
}

#[test]
fn the_header_has_the_same_constants() {
    let header = file("include/gerzulan.h");
    assert_eq!(defined(&header, "GERZULAN_MAX_PROCESSES"), MAX_PROCESSES);
    assert_eq!(defined(&header, "GERZULAN_RECORD_BYTES"), RECORD_BYTES);
    assert_eq!(defined(&header, "GERZULAN_LIST_BYTES"), LIST_BYTES);
    let major = defined(&header, "GERZULAN_VERSION_MAJOR");
    let minor = defined(&header, "GERZULAN_VERSION_MINOR");
    let package = env!("CARGO_PKG_VERSION");
    assert!(
        package.starts_with(&format!("{major}.{minor}.")),
        "{package}, and {major}.{minor} in the header"
    );
}

#[test]
fn the_header_has_the_same_numbers() {
    let header = file("include/gerzulan.h");
    let value = Value::new(1, 0);
    let kinds = [
        ("OPEN", Record::Open { n: 1, t: 0 }),
        ("START", Record::Start { process: 1, value }),
        ("SEND", Record::Send { from: 1, to: 2 }),
        ("ARRIVE", Record::Arrive { from: 1, to: 2, round: 1 }),
        ("CLOSE", Record::Close { process: 1 }),
        ("CRASH", Record::Crash { process: 1 }),
        ("SUSPECT", Record::Suspect { process: 1, other: 2 }),
    ];
    for (name, record) in kinds {
        assert_eq!(defined(&header, &format!("GERZULAN_{name}")), usize::from(record.bytes()[0]), "{name}");
    }
    for closing in [Closing::NextRound, Closing::Agreed, Closing::LastRound] {
        let name = match closing {
            Closing::NextRound => "GERZULAN_NEXT_ROUND",
            Closing::Agreed => "GERZULAN_AGREED",
            Closing::LastRound => "GERZULAN_LAST_ROUND",
        };
        assert_eq!(defined(&header, name), usize::from(closing.number()));
        assert_eq!(Closing::from_number(closing.number()), Some(closing));
    }
    for (name, ended) in [("EMPTY", gerzulan::raw::EMPTY), ("SPENT", gerzulan::raw::SPENT)] {
        assert_eq!(defined(&header, &format!("GERZULAN_{name}")), ended as usize);
    }
    assert_eq!(defined(&header, "GERZULAN_REFUSED"), gerzulan::raw::REFUSED as usize);
}

#[test]
fn only_three_closings() {
    let closings = (0..=255).filter(|&number| Closing::from_number(number).is_some());
    assert_eq!(closings.collect::<Vec<u8>>(), [1, 2, 3]);
}

/// The names of the refusals, by what the header calls them: `NotDue` is GERZULAN_REFUSAL_NOT_DUE.
#[test]
fn the_header_has_the_same_names() {
    let header = file("include/gerzulan.h");
    for number in 1..=16 {
        let mut name = String::from("GERZULAN_REFUSAL");
        for letter in format!("{:?}", Refusal::from_number(number)).chars() {
            if letter.is_uppercase() {
                name.push('_');
            }
            name.push(letter.to_ascii_uppercase());
        }
        assert_eq!(defined(&header, &name), number as usize);
    }
}

/// Which bytes a record of this kind uses.
fn used(kind: u8) -> Option<[bool; 8]> {
    let (b, r, value) = match kind {
        0 | 2 | 6 => (true, false, false),
        1 => (false, false, true),
        3 => (true, true, false),
        4 | 5 => (false, false, false),
        _ => return None,
    };
    Some([true, true, b, r, value, value, value, value])
}

#[test]
fn records_are_read_and_written() {
    let mut random = Random::new(9);
    let (mut read, mut without_form) = (0, 0);
    for turn in 0..200_000 {
        let mut bytes = random.bytes(if turn % 4 == 0 { turn / 4 % 41 } else { 8 });
        if let Some(kind) = bytes.first_mut() {
            *kind %= 8;
        }
        for byte in bytes.iter_mut().skip(1) {
            *byte = if random.below(3) == 0 { *byte } else { 0 };
        }
        let fits = |used: [bool; 8]| bytes.iter().zip(used).all(|(&byte, used)| used || byte == 0);
        let has_form = bytes.len() == 8 && used(bytes[0]).is_some_and(fits);
        let record = Record::read(&bytes);
        assert_eq!(record.is_some(), has_form, "{bytes:?}");
        match record {
            Some(record) => {
                assert_eq!(record.bytes()[..], bytes);
                read += 1;
            }
            None => without_form += 1,
        }
    }
    assert!(read > 10_000 && without_form > 10_000, "{read} {without_form}");
}

#[test]
fn values_hold_two_numbers() {
    let mut random = Random::new(10);
    for _ in 0..10_000 {
        let (portions, diet) = ((random.next() >> 48) as u16, (random.next() >> 48) as u16);
        let value = Value::new(portions, diet);
        assert_eq!((value.portions(), value.diet()), (portions, diet));
        assert_eq!(value.0, u32::from(portions) + 65_536 * u32::from(diet));
    }
    assert_eq!(Value::new(40, 3).to_string(), "40/3");
    assert_eq!(Value::new(40, 3).0, 196_648);
}
