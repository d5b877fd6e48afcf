//! How sets, entries, long lines and tables are written.

use gerzulan::GlobalData;

/// The longest line, but for the tables of many processes.
pub const COLUMNS: usize = 110;

/// The set of a process alone, from 1; empty for a number that is no process.
pub fn bit(number: u8) -> u16 {
    let place = number.checked_sub(1).map(u32::from);
    place.and_then(|place| 1u16.checked_shl(place)).unwrap_or(0)
}

/// The members of a set, from 1.
pub fn numbers(set: u16) -> impl Iterator<Item = u8> {
    (1..=16).filter(move |&number| set & bit(number) != 0)
}

/// The members as runs of neighbours, first and last of each; two neighbours are two runs.
fn runs(set: u16) -> Vec<(u8, u8)> {
    let mut runs: Vec<(u8, u8)> = Vec::new();
    for number in numbers(set) {
        match runs.last_mut() {
            Some((_, last)) if *last + 1 == number => *last = number,
            _ => runs.push((number, number)),
        }
    }
    let pair = |(first, last): (u8, u8)| first + 1 == last;
    runs.into_iter()
        .flat_map(|run| if pair(run) { vec![(run.0, run.0), (run.1, run.1)] } else { vec![run] })
        .collect()
}

/// A set as a field: `1 2`, `1-3 5`, or `-` for none.
pub fn set(set: u16) -> String {
    let parts: Vec<String> = runs(set).into_iter().map(|run| in_form(run, "-")).collect();
    if parts.is_empty() {
        return "-".into();
    }
    parts.join(" ")
}

/// A set in a sentence: `1 and 2`, `1 to 3 and 5`, or `none`.
pub fn list(set: u16) -> String {
    let mut parts: Vec<String> = runs(set).into_iter().map(|run| in_form(run, " to ")).collect();
    match (parts.pop(), parts.is_empty()) {
        (None, _) => "none".into(),
        (Some(last), true) => last,
        (Some(last), false) => format!("{} and {last}", parts.join(", ")),
    }
}

fn in_form((first, last): (u8, u8), between: &str) -> String {
    if first == last {
        first.to_string()
    } else {
        format!("{first}{between}{last}")
    }
}

/// An entry, from 1: `40/3`, or `-` where it is absent.
pub fn entry(data: &GlobalData, number: u8) -> String {
    data.entry(number).map_or("-".into(), |value| value.to_string())
}

/// All n entries in a row.
pub fn entries(data: &GlobalData, n: u8) -> String {
    let entries: Vec<String> = (1..=n).map(|number| entry(data, number)).collect();
    entries.join(" ")
}

/// A line that begins with `first`, with the items after it, `gap` spaces before each; what does not fit goes on in
/// further lines, indented.
pub fn wrapped<T: AsRef<str>>(
    first: &str,
    items: impl IntoIterator<Item = T>,
    gap: usize,
    indent: usize,
) -> String {
    let mut lines = String::new();
    let mut line = first.to_string();
    for item in items {
        let item = item.as_ref();
        if line.len() + gap + item.trim_end().len() > COLUMNS && !line.trim_start().is_empty() {
            lines += line.trim_end();
            lines.push('\n');
            line = " ".repeat(indent.saturating_sub(gap));
        }
        line += &" ".repeat(gap);
        line += item;
    }
    lines + line.trim_end() + "\n"
}

/// Rows in columns, each as wide as it must be.
pub fn table(rows: Vec<Vec<String>>) -> String {
    let columns = rows.iter().map(Vec::len).max().unwrap_or(0);
    let width =
        |column: usize| rows.iter().filter_map(|row| row.get(column)).map(String::len).max().unwrap_or(0);
    let widths: Vec<usize> = (0..columns).map(width).collect();
    let line = |row: &Vec<String>| {
        let cells: Vec<String> =
            row.iter().zip(&widths).map(|(cell, width)| format!("{cell:<width$}")).collect();
        cells.join("  ").trim_end().to_string() + "\n"
    };
    rows.iter().map(line).collect()
}

#[cfg(test)]
mod tests {
    use super::*;

    #[test]
    fn sets() {
        let sets = [0, 0b1, 0b11, 0b111, 0b10111, 0b1011, 0b11_0110_1111, u16::MAX];
        assert_eq!(sets.map(set), ["-", "1", "1 2", "1-3", "1-3 5", "1 2 4", "1-4 6 7 9 10", "1-16"]);
        let lists = [
            "none",
            "1",
            "1 and 2",
            "1 to 3",
            "1 to 3 and 5",
            "1, 2 and 4",
            "1 to 4, 6, 7, 9 and 10",
            "1 to 16",
        ];
        assert_eq!(sets.map(list), lists);
    }

    /// Each set comes back from its form.
    #[test]
    fn every_set() {
        for members in 0..=u16::MAX {
            let mut read = 0;
            for part in set(members).split(' ').filter(|part| *part != "-") {
                let (first, last) = part.split_once('-').unwrap_or((part, part));
                (first.parse::<u8>().unwrap()..=last.parse().unwrap()).for_each(|number| read |= bit(number));
            }
            assert_eq!(read, members);
        }
        assert_eq!((bit(0), bit(16), bit(17), bit(255)), (0, 1 << 15, 0, 0));
    }

    #[test]
    fn long_lines_go_on() {
        let words = vec!["word"; 50];
        let lines = wrapped("first", &words, 1, 4);
        assert!(lines.lines().all(|line| line.len() <= COLUMNS && line == line.trim_end()));
        assert_eq!(lines.lines().count(), 3);
        assert!(lines.lines().skip(1).all(|line| line.starts_with("    word ")));
        assert_eq!(lines.split_whitespace().filter(|word| *word == "word").count(), 50);
        let long = "x".repeat(200);
        assert_eq!(wrapped("first", [&long], 1, 4), format!("first\n    {long}\n"));
        assert_eq!(wrapped("", [&long], 1, 1), format!(" {long}\n"));
    }

    #[test]
    fn tables() {
        let rows = [["a", "bb", "c"], ["aaa", "b", ""]].map(|row| row.map(String::from).to_vec()).to_vec();
        assert_eq!(table(rows), "a    bb  c\naaa  b\n");
        assert_eq!(table(vec![]), "");
    }
}
