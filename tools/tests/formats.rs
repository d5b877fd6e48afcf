//! docs/FORMATS.md against the tools and the library: rows of a text and its bytes, the table of refused records, the
//! program's lines, the layout, and names.

use gerzulan::{Bench, Counters, GlobalData, Process};
use reference::{calendar_text, simulate, text};
use std::mem::offset_of;
use std::path::{Path, PathBuf};
use std::process::Command;

fn page() -> String {
    read("docs/FORMATS.md")
}

/// The cells of each row of a table, without the line below its head.
fn rows(page: &str) -> Vec<Vec<&str>> {
    let tables = page.lines().filter_map(|line| line.strip_prefix('|')?.strip_suffix('|'));
    let rows = tables.filter(|row| !row.starts_with("---"));
    rows.map(|row| row.split('|').map(str::trim).collect()).collect()
}

/// What stands in backticks, if the cell is nothing else.
fn quoted(cell: &str) -> Option<&str> {
    cell.strip_prefix('`')?.strip_suffix('`').filter(|inner| !inner.contains('`'))
}

/// Bytes in hexadecimal, two digits each.
fn hexadecimal(words: &str) -> Option<Vec<u8>> {
    let byte = |word: &str| u8::from_str_radix(word, 16).ok().filter(|_| word.len() == 2);
    words.split(' ').map(byte).collect()
}

/// A text and the bytes after it in the same row.
fn example<'a>(row: &[&'a str]) -> Option<(&'a str, Vec<u8>)> {
    let [.., words, bytes] = row else { return None };
    Some((quoted(words)?, hexadecimal(quoted(bytes)?)?))
}

#[test]
fn each_text_has_its_bytes() {
    let page = page();
    let (mut records, mut entries) = (0, 0);
    for (words, bytes) in rows(&page).iter().filter_map(|row| example(row)) {
        let of_calendar = words.starts_with("term") || words.starts_with("closed");
        let encode = if of_calendar { calendar_text::encode } else { text::encode };
        assert_eq!(encode(words), Ok(bytes), "{words}");
        *(if of_calendar { &mut entries } else { &mut records }) += 1;
    }
    assert_eq!((records, entries), (8 + 12, 2));
}

/// The second table of records: on a bench of 3, after two starts, each answered as its first cell says.
#[test]
fn each_refusal_is_met() {
    let page = page();
    let mut bench = Bench::open(3, 1).unwrap();
    let mut tally = Counters::default();
    let starts = text::encode("start 1 40\nstart 2 25").unwrap();
    assert_eq!(bench.run(&starts, 2).accepted, 2);
    let after = page.split("An example of each that a record can have").nth(1).expect("it is there");
    let mut met = Vec::new();
    for row in rows(after) {
        let (Some((words, bytes)), 3) = (example(&row), row.len()) else { continue };
        let number = bench.step(&bytes, &mut tally).err().map_or(0, |refusal| refusal.number());
        assert_eq!(row[0], number.to_string(), "{words}");
        met.push(number);
    }
    met.sort();
    met.dedup();
    assert_eq!(met, [0, 3, 4, 5, 6, 7, 8, 9, 15]);
}

/// The part of the page under a heading.
fn part<'a>(page: &'a str, heading: &str) -> &'a str {
    let after = page.split(&format!("\n## {heading}\n")).nth(1).expect("the heading is there");
    after.split("\n## ").next().unwrap_or(after)
}

/// What the proved program writes; nothing where it is not built.
fn program(input: &[u8]) -> Option<String> {
    let path = top().join("target/bin/simulate");
    let file = std::env::temp_dir().join(format!("gerzulan-formats-{}", std::process::id()));
    path.is_file().then(|| {
        std::fs::write(&file, input).expect("a file is written");
        let input = std::fs::File::open(&file).expect("it was written");
        let done = Command::new(path).stdin(input).output().expect("it runs");
        std::fs::remove_file(&file).expect("it is there");
        String::from_utf8(done.stdout).expect("text")
    })
}

/// The blocks that are set in: a schedule, and what the program writes of it, the reference's and the proved one.
#[test]
fn the_programs_lines() {
    let page = page();
    let blocks: Vec<String> = part(&page, "Schedules")
        .split("\n\n")
        .filter(|part| part.lines().all(|line| line.starts_with("    ")))
        .map(|part| part.lines().map(|line| line[4..].to_owned() + "\n").collect())
        .collect();
    let [schedule, lines] = &blocks[..] else { panic!("two blocks, not {}", blocks.len()) };
    let bytes = text::encode(schedule).unwrap();
    assert_eq!(&simulate::simulate(&bytes), lines);
    assert!(program(&bytes).is_none_or(|written| written == *lines));
}

/// The page has just the calls that the header declares, in its order.
#[test]
fn the_calls() {
    let header = read("include/gerzulan.h");
    let declared =
        header.lines().filter_map(|line| line.strip_prefix("uint32_t ").or(line.strip_prefix("uint64_t ")));
    let declared: Vec<&str> = declared.filter_map(|line| line.split('(').next()).collect();
    let page = page();
    let rows = rows(part(&page, "The calls"));
    let named: Vec<&str> = rows.iter().filter_map(|row| quoted(row[0])).collect();
    assert_eq!(named, declared);
}

fn top() -> PathBuf {
    Path::new(env!("CARGO_MANIFEST_DIR")).join("..")
}

fn read(name: &str) -> String {
    std::fs::read_to_string(top().join(name)).unwrap_or_else(|error| panic!("{name}: {error}"))
}

/// The package's calls and what it has beside them.
fn package() -> String {
    ["bench", "stored", "aggregates", "calendar"].map(|name| read(&format!("rust/src/{name}.rs"))).concat()
}

/// The names of the refusals in C, each with its number, and of the calls in Rust.
#[test]
fn names_in_tables() {
    let (page, header, package) = (page(), read("include/gerzulan.h"), package());
    let refusals = rows(part(&page, "Refusals"));
    let named: Vec<(&str, &str)> = refusals
        .iter()
        .filter(|row| row.len() == 5)
        .filter_map(|row| Some((row[0], quoted(row[3])?)))
        .collect();
    assert_eq!(named.len(), 16);
    for (number, name) in named {
        assert!(header.contains(&format!("#define GERZULAN_REFUSAL_{name} {number}u\n")), "{number} {name}");
    }
    let calls = rows(part(&page, "The calls"));
    let rust: Vec<&str> = calls.iter().skip(1).flat_map(|row| row[row.len() - 1].split(", ")).collect();
    assert_eq!(rust.len(), 12);
    for name in rust {
        let function = quoted(name).map(|name| name.trim_start_matches("Bench::")).unwrap_or("?");
        assert!(package.contains(&format!("pub fn {function}(")), "{name}");
    }
}

/// What else the page names is there: files, names of the header, and functions of the package.
#[test]
fn names_are_there() {
    let (page, header, package) = (page(), read("include/gerzulan.h"), package());
    let mut looked_up = 0;
    for name in page.split('`').skip(1).step_by(2).filter(|name| !name.contains(' ')) {
        let there = if name.contains('/') && name.len() > 1 && !name.starts_with("target/") {
            top().join(name).exists()
        } else if name.starts_with("GERZULAN_") || name.starts_with("gerzulan_") {
            header.contains(name)
        } else if let Some((_, function)) = name.split_once("::") {
            package.contains(&format!("pub fn {function}("))
        } else {
            continue;
        };
        assert!(there, "{name}");
        looked_up += 1;
    }
    assert!(looked_up > 20, "{looked_up}");
}

macro_rules! field {
    ($struct:ty, $field:ident, $zero:expr) => {
        (offset_of!($struct, $field), size_of_val(&$zero.$field), stringify!($field))
    };
}

#[test]
fn the_layout() {
    let (bench, process, data) = (Bench::open(1, 0).unwrap(), Process::default(), GlobalData::default());
    let fields = [
        field!(Bench, n, bench),
        field!(Bench, t, bench),
        field!(Bench, crashed, bench),
        field!(Bench, processes, bench),
        field!(Bench, sent, bench),
        field!(Bench, in_transit, bench),
        field!(Process, round, process),
        field!(Process, decided, process),
        field!(Process, previous, process),
        field!(Process, current, process),
        field!(Process, suspected, process),
        field!(Process, outbox, process),
        field!(Process, estimate, process),
        field!(Process, received, process),
        field!(GlobalData, present, data),
        field!(GlobalData, values, data),
    ];
    let page = page();
    let of_page: Vec<[String; 3]> = rows(&page)
        .iter()
        .filter(|row| row.len() == 4 && row[0].parse::<usize>().is_ok() && row[1].parse::<usize>().is_ok())
        .map(|row| [row[0], row[1], quoted(row[2]).unwrap_or("?")].map(str::to_owned))
        .collect();
    let of_library = fields.map(|(offset, bytes, name)| [offset.to_string(), bytes.to_string(), name.into()]);
    assert_eq!(of_page, of_library);
    assert!(page.contains("19,748 bytes") && size_of::<Bench>() == 19_748);
}
