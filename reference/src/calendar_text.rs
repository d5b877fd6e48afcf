//! Calendars as text, a record a line.
//!
//! `term 3 2024-01-08 2024-02-09` and `closed 3 2024-02-12 2024-02-16`: site, first day, last day; `#` begins a
//! comment. The last date that fits is 2203-06-07.

use crate::calendar::{self, Entry, Fault, Kind, RECORD, SITES};
use crate::date::Date;
use crate::text::{number, plain, unknown_word, words, TextError};
use crate::Refusal;
use std::fmt::Write;

/// The bytes of a text.
pub fn encode(text: &str) -> Result<Vec<u8>, TextError> {
    let mut bytes = Vec::new();
    for (i, line) in text.lines().enumerate() {
        let entry = encode_line(line).map_err(|reason| TextError { line: i + 1, reason })?;
        bytes.extend(entry.into_iter().flat_map(Entry::bytes));
    }
    Ok(bytes)
}

/// The record of a line, if it has one.
fn encode_line(line: &str) -> Result<Option<Entry>, String> {
    let words = words(line);
    let Some((&verb, fields)) = words.split_first() else { return Ok(None) };
    let kind = match verb {
        "term" => Kind::Term,
        "closed" => Kind::Closed,
        _ => return Err(unknown_word(verb, &[&["term"], &["closed"]])),
    };
    let &[number, first, last] = fields else { return Err(format!("expected: {verb} SITE FIRST LAST")) };
    let entry = Entry { site: site(number)?, kind, first: day(first)?, last: day(last)? };
    if entry.first > entry.last {
        return Err(format!("first day {first} is after last day {last}"));
    }
    Ok(Some(entry))
}

fn site(word: &str) -> Result<u8, String> {
    let parsed = number("site", word).ok().filter(|site| (1..=SITES as u32).contains(site));
    let reason = || format!("site `{}` is not a number from 1 to {SITES}", plain(word));
    parsed.map(|site| site as u8).ok_or_else(reason)
}

/// The number of a date, if 16 bits hold it.
fn day(word: &str) -> Result<u16, String> {
    let date = Date::read(&plain(word))?;
    u16::try_from(date.number()).map_err(|_| match date.number() {
        ..0 => before_day_0(date),
        _ => format!("{date} is after {}, day {}", Date::of(u16::MAX as u32), u16::MAX),
    })
}

fn before_day_0(date: Date) -> String {
    format!("{date} is before {}, day 0", Date::of(0))
}

/// The text of a calendar, or its first faulty record, numbered from 1, and what is wrong with it.
pub fn decode(bytes: &[u8]) -> Result<String, String> {
    let mut text = String::new();
    for (i, record) in bytes.chunks(RECORD).enumerate() {
        let entry = Entry::read(record)
            .map_err(|fault| format!("record {}: {}, in {record:02x?}", i + 1, wrong(fault)))?;
        let (word, site) = (in_words(entry.kind), entry.site);
        let [first, last] = [entry.first, entry.last].map(|day| Date::of(day as u32));
        writeln!(text, "{word} {site} {first} {last}").expect("a string takes all");
    }
    Ok(text)
}

fn in_words(kind: Kind) -> &'static str {
    match kind {
        Kind::Term => "term",
        Kind::Closed => "closed",
    }
}

fn wrong(fault: Fault) -> &'static str {
    match fault {
        Fault::Partial => "fewer than 8 bytes",
        Fault::Site => "site not 1 to 16",
        Fault::Kind => "kind not 1 or 2",
        Fault::FirstAfterLast => "first day after last",
        Fault::LastBytes => "last bytes not 0",
    }
}

/// A week by its number, or by a date that lies in it.
pub fn week(word: &str) -> Result<u16, String> {
    if !word.contains('-') {
        let parsed = number("week", word).ok().and_then(|week| u16::try_from(week).ok());
        return parsed.ok_or_else(|| {
            format!("week `{}` is not a number from 0 to {}, nor a date", plain(word), u16::MAX)
        });
    }
    let date = Date::read(&plain(word))?;
    if date.number() < 0 {
        return Err(before_day_0(date));
    }
    u16::try_from(date.number() / 7).map_err(|_| format!("{date} is after week {}", u16::MAX))
}

/// The bench of a week in words, or its refusal.
pub fn show(calendar: &[u8], week: u16) -> Result<String, String> {
    let monday = 7 * week as u32;
    let name = format!("week {week}, {} to {}", Date::of(monday), Date::of(monday + 6));
    match calendar::week(calendar, week) {
        Ok(bench) => {
            let sites = bench.site_of.iter().take(bench.n as usize).enumerate();
            let lines: String = sites.map(|(i, site)| format!("process {}: site {site}\n", i + 1)).collect();
            Ok(format!("{name}: n {}\n{lines}", bench.n))
        }
        Err(Refusal::NoSite) => Err(format!("refusal 14: {name}: no site takes part")),
        Err(refusal) => {
            let fault = decode(calendar).err().unwrap_or_default();
            Err(format!("refusal {}: {fault}", refusal.number()))
        }
    }
}

#[cfg(test)]
mod tests {
    use super::*;
    use crate::calendars;
    use crate::gen::Rng;

    const TEXT: &str = "term 3 2024-01-08 2024-02-09\nclosed 3 2024-02-12 2024-02-16\n\
                        term 16 2024-01-01 2203-06-07\nclosed 1 2100-02-28 2100-03-01\n";

    #[test]
    fn every_form() {
        let bytes = encode(TEXT).unwrap();
        assert_eq!(bytes[..16], [3, 1, 7, 0, 39, 0, 0, 0, 3, 2, 42, 0, 46, 0, 0, 0]);
        assert_eq!(bytes[16..24], [16, 1, 0, 0, 255, 255, 0, 0]);
        assert_eq!(bytes.len(), 4 * RECORD);
        assert_eq!(decode(&bytes).as_deref(), Ok(TEXT));
    }

    #[test]
    fn comments_and_blank_lines() {
        let bytes = encode(
            "# title\n\n  term 1 2024-01-01 2024-01-01  # a day\r\n\t\n closed 02 2024-01-02 2024-01-03",
        );
        let text = decode(&bytes.unwrap()).unwrap();
        assert_eq!(text, "term 1 2024-01-01 2024-01-01\nclosed 2 2024-01-02 2024-01-03\n");
        assert_eq!(encode(""), Ok(vec![]));
        assert_eq!(encode("# none"), Ok(vec![]));
        assert_eq!(decode(&[]).as_deref(), Ok(""));
    }

    #[test]
    fn calendars_round_trip() {
        let mut rng = Rng::new(14);
        for _ in 0..2000 {
            let week = calendars::any_week(&mut rng);
            let bytes = calendars::without_fault(&mut rng, week);
            let text = decode(&bytes).unwrap();
            assert_eq!(text.lines().count() * RECORD, bytes.len());
            assert_eq!(encode(&text), Ok(bytes));
        }
    }

    #[test]
    fn every_site_kind_and_day() {
        for day in 0..=u16::MAX {
            let kind = if day % 2 == 0 { Kind::Term } else { Kind::Closed };
            let entry = Entry { site: 1 + (day / 7 % 16) as u8, kind, first: day / 3, last: day };
            let text = decode(&entry.bytes()).unwrap();
            assert_eq!(encode(&text), Ok(entry.bytes().to_vec()), "{text}");
        }
    }

    fn error(text: &str) -> String {
        encode(text).unwrap_err().to_string()
    }

    #[test]
    fn errors_name_the_line() {
        let good = "term 1 2024-01-08 2024-02-09\n";
        let open = "line 4: unknown word `open`; the words are term, closed";
        assert_eq!(error(&format!("{good}\n# x\nopen 2")), open);
        let upper = "line 1: unknown word `Term`; words are in lower case: `term`";
        assert_eq!(error("Term 1 2024-01-08 2024-02-09"), upper);
        assert_eq!(error("term"), "line 1: expected: term SITE FIRST LAST");
        assert_eq!(error("closed 1 2024-01-08"), "line 1: expected: closed SITE FIRST LAST");
        assert_eq!(error("term 1 2024-01-08 # 2024-01-09"), "line 1: expected: term SITE FIRST LAST");
        let surplus = error("term 1 2024-01-08 2024-01-09 2024-01-10");
        assert_eq!(surplus, "line 1: expected: term SITE FIRST LAST");
    }

    #[test]
    fn errors_of_sites() {
        for site in ["0", "17", "256", "257", "4294967297", "-1", "+1", "one", "1.0"] {
            let reason = format!("line 1: site `{site}` is not a number from 1 to 16");
            assert_eq!(error(&format!("term {site} 2024-01-08 2024-02-09")), reason);
        }
    }

    /// As first day and as last.
    fn errors_of_day(word: &str, reason: &str) {
        let last = format!("term 1 2024-01-01 2024-01-01\nterm 1 2024-01-01 {word}");
        assert_eq!(error(&last), format!("line 2: {reason}"));
        assert_eq!(error(&format!("closed 1 {word} 2024-01-01")), format!("line 1: {reason}"));
    }

    #[test]
    fn errors_of_days() {
        for word in ["2024-02-30", "2024-13-01", "2025-02-29", "2023-02-29", "2100-02-29"] {
            errors_of_day(word, &format!("there is no {word}"));
        }
        for word in ["2024-1-8", "8.1.2024", "7", "2024-01", "-2024-01-01"] {
            errors_of_day(word, &format!("`{word}` is not a date of the form 2024-09-02"));
        }
        for word in ["2023-12-31", "1999-01-01", "0000-01-01"] {
            errors_of_day(word, &format!("{word} is before 2024-01-01, day 0"));
        }
        for word in ["2203-06-08", "9999-12-31"] {
            errors_of_day(word, &format!("{word} is after 2203-06-07, day 65535"));
        }
    }

    /// A word of any length is cut in the message.
    #[test]
    fn long_words() {
        let long = "x".repeat(100_000);
        for text in
            [&long, &format!("term {long} 2024-01-08 2024-02-09"), &format!("term 1 {long} 2024-02-09")]
        {
            assert!(error(text).len() < 150 && error(text).contains("xxx..."), "{}", error(text));
        }
        assert!(week(&long).unwrap_err().len() < 150 && week(&format!("-{long}")).unwrap_err().len() < 150);
    }

    #[test]
    fn first_day_after_last() {
        let reason = "line 1: first day 2024-02-10 is after last day 2024-02-09";
        assert_eq!(error("term 1 2024-02-10 2024-02-09"), reason);
        assert!(encode("term 1 2024-02-09 2024-02-09").is_ok());
    }

    #[test]
    fn decode_names_the_record() {
        let good = encode("term 1 2024-01-08 2024-02-09").unwrap();
        let after = |bytes: &[u8]| decode(&[&good, bytes].concat()).unwrap_err();
        assert_eq!(
            after(&[0, 1, 0, 0, 0, 0, 0, 0]),
            "record 2: site not 1 to 16, in [00, 01, 00, 00, 00, 00, 00, 00]"
        );
        assert!(after(&[17, 1, 0, 0, 0, 0, 0, 0]).starts_with("record 2: site not 1 to 16"));
        assert!(after(&[1, 0, 0, 0, 0, 0, 0, 0]).starts_with("record 2: kind not 1 or 2"));
        assert!(after(&[1, 3, 0, 0, 0, 0, 0, 0]).starts_with("record 2: kind not 1 or 2"));
        assert!(after(&[1, 1, 0, 1, 255, 0, 0, 0]).starts_with("record 2: first day after last"));
        assert!(after(&[1, 1, 0, 0, 0, 0, 1, 0]).starts_with("record 2: last bytes not 0"));
        assert!(after(&[1, 1, 0, 0, 0, 0, 0, 1]).starts_with("record 2: last bytes not 0"));
        assert_eq!(after(&[1, 1]), "record 2: fewer than 8 bytes, in [01, 01]");
        assert!(decode(&[&[1; 8], &good[..]].concat()).unwrap_err().starts_with("record 1: last bytes"));
    }

    /// Decode refuses exactly what the call refuses with 13.
    #[test]
    fn decode_refuses_as_the_call() {
        let (mut rng, mut met) = (Rng::new(15), [0; 2]);
        for _ in 0..4000 {
            let week = calendars::any_week(&mut rng);
            let bytes = calendars::any(&mut rng, week);
            let refused = calendar::week(&bytes, week) == Err(Refusal::Calendar);
            assert_eq!(decode(&bytes).is_err(), refused);
            met[usize::from(refused)] += 1;
        }
        assert!(!met.contains(&0), "{met:?}");
    }

    #[test]
    fn weeks_by_number_and_by_date() {
        for (word, number) in
            [("0", 0), ("65535", 65535), ("2024-01-01", 0), ("2024-01-07", 0), ("2024-01-08", 1)]
        {
            assert_eq!(week(word), Ok(number), "{word}");
        }
        assert_eq!(week("2024-09-02"), Ok(35));
        assert_eq!(week("2203-06-05"), Ok(9361));
        // The last week of which a record has days, and the next.
        assert_eq!(["2203-06-06", "2203-06-12", "2203-06-13"].map(week), [Ok(9362), Ok(9362), Ok(9363)]);
        let reason = |word: &str| week(word).unwrap_err();
        assert_eq!(reason("65536"), "week `65536` is not a number from 0 to 65535, nor a date");
        assert_eq!(reason("soon"), "week `soon` is not a number from 0 to 65535, nor a date");
        assert_eq!(reason("2023-12-31"), "2023-12-31 is before 2024-01-01, day 0");
        assert_eq!(reason("2024-02-30"), "there is no 2024-02-30");
        assert_eq!(reason("-1"), "`-1` is not a date of the form 2024-09-02");
        assert_eq!(reason("9999-12-31"), "9999-12-31 is after week 65535");
        assert_eq!(Date::of(7 * 65535 + 6).to_string(), "3280-01-07");
        assert_eq!(week("3280-01-07"), Ok(65535));
        assert!(week("3280-01-08").is_err());
    }

    #[test]
    fn weeks_in_words() {
        let text =
            "term 7 2024-09-02 2024-09-20\nterm 3 2024-09-02 2024-09-20\nclosed 3 2024-09-09 2024-09-13";
        let mut bytes = encode(text).unwrap();
        let both = "week 35, 2024-09-02 to 2024-09-08: n 2\nprocess 1: site 3\nprocess 2: site 7\n";
        assert_eq!(show(&bytes, 35).as_deref(), Ok(both));
        let one = "week 36, 2024-09-09 to 2024-09-15: n 1\nprocess 1: site 7\n";
        assert_eq!(show(&bytes, 36).as_deref(), Ok(one));
        let none = "refusal 14: week 65535, 3280-01-01 to 3280-01-07: no site takes part";
        assert_eq!(show(&bytes, 65535), Err(none.into()));
        bytes.push(1);
        assert_eq!(show(&bytes, 35), Err("refusal 13: record 4: fewer than 8 bytes, in [01]".into()));
    }
}
