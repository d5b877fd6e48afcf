//! Dates of the Gregorian calendar, numbered by days from Monday 1 January 2024.

/// The year that begins with day 0.
const FIRST_YEAR: i32 = 2024;

/// A date that exists, of the years 0 to 9999.
#[derive(Clone, Copy, PartialEq, Eq, Debug)]
pub struct Date {
    year: i32,
    month: u8,
    day: u8,
}

fn is_leap(year: i32) -> bool {
    year % 4 == 0 && (year % 100 != 0 || year % 400 == 0)
}

fn days_of_year(year: i32) -> i32 {
    365 + i32::from(is_leap(year))
}

fn days_of_month(year: i32, month: u8) -> u8 {
    match month {
        2 => 28 + u8::from(is_leap(year)),
        4 | 6 | 9 | 11 => 30,
        _ => 31,
    }
}

/// The days from 1 January of year 0 to that of this year.
fn days_before(year: i32) -> i32 {
    let leap_years = (year + 3) / 4 - (year + 99) / 100 + (year + 399) / 400;
    365 * year + leap_years
}

impl Date {
    pub fn new(year: u16, month: u8, day: u8) -> Option<Date> {
        let year = year as i32;
        let exists =
            year <= 9999 && (1..=12).contains(&month) && (1..=days_of_month(year, month)).contains(&day);
        exists.then_some(Date { year, month, day })
    }

    /// Of the form 2024-09-02.
    pub fn read(word: &str) -> Result<Date, String> {
        let (year, month, day) =
            fields(word).ok_or_else(|| format!("`{word}` is not a date of the form 2024-09-02"))?;
        Date::new(year, month, day).ok_or_else(|| format!("there is no {word}"))
    }

    /// Days after 1 January 2024; before it, less than 0.
    pub fn number(self) -> i32 {
        let months: i32 = (1..self.month).map(|month| days_of_month(self.year, month) as i32).sum();
        days_before(self.year) - days_before(FIRST_YEAR) + months + self.day as i32 - 1
    }

    /// The date this many days after 1 January 2024, up to the year 9999: year by year, then month by month.
    pub fn of(number: u32) -> Date {
        let (mut year, mut month, mut left) = (FIRST_YEAR, 1, number as i32);
        while left >= days_of_year(year) {
            left -= days_of_year(year);
            year += 1;
        }
        while left >= days_of_month(year, month) as i32 {
            left -= days_of_month(year, month) as i32;
            month += 1;
        }
        Date { year, month, day: left as u8 + 1 }
    }
}

impl std::fmt::Display for Date {
    fn fmt(&self, f: &mut std::fmt::Formatter<'_>) -> std::fmt::Result {
        write!(f, "{:04}-{:02}-{:02}", self.year, self.month, self.day)
    }
}

/// Year, month and day of a word of 4, 2 and 2 digits with `-` between.
fn fields(word: &str) -> Option<(u16, u8, u8)> {
    let digits = |part: &str, length: usize| part.len() == length && part.bytes().all(|c| c.is_ascii_digit());
    let parts: Vec<&str> = word.split('-').collect();
    match parts[..] {
        [year, month, day] if digits(year, 4) && digits(month, 2) && digits(day, 2) => {
            Some((year.parse().ok()?, month.parse().ok()?, day.parse().ok()?))
        }
        _ => None,
    }
}

#[cfg(test)]
mod tests {
    use super::*;

    const LAST: u32 = u16::MAX as u32;

    fn number(word: &str) -> i32 {
        Date::read(word).unwrap().number()
    }

    /// 179 years of 365 days from 2024, 45 fourth years from 2024 to 2200 less 2100 and 2200, then 31 + 28 + 31 + 30 +
    /// 31 days to 1 June.
    #[test]
    fn the_last_day() {
        let new_year = 179 * 365 + 45 - 2;
        assert_eq!(number("2203-01-01"), new_year);
        assert_eq!(LAST as i32, new_year + 151 + 6);
        assert_eq!(Date::of(LAST).to_string(), "2203-06-07");
        assert_eq!(number("2203-06-07"), LAST as i32);
        assert_eq!(number("2203-06-08"), LAST as i32 + 1);
    }

    /// One day after another by a clock of its own: each is the next of its month, or the first of the next.
    #[test]
    fn every_day_and_its_date() {
        let (mut year, mut month, mut day) = (2024, 1, 1);
        for n in 0..=LAST {
            let date = Date::of(n);
            assert_eq!(date.to_string(), format!("{year}-{month:02}-{day:02}"), "day {n}");
            assert_eq!(Date::read(&date.to_string()), Ok(date));
            assert_eq!(date.number(), n as i32);
            let february = if year % 4 == 0 && year != 2100 && year != 2200 { 29 } else { 28 };
            let length = [31, february, 31, 30, 31, 30, 31, 31, 30, 31, 30, 31][month - 1];
            day += 1;
            if day > length {
                (month, day) = (month + 1, 1);
            }
            if month > 12 {
                (year, month) = (year + 1, 1);
            }
        }
    }

    /// Every word of the form, from 1999 to 2404, is a date or is none; those that are follow each other.
    #[test]
    fn dates_follow_each_other() {
        let mut expected = number("1999-01-01");
        for year in 1999..2405 {
            for (month, day) in (0..=13).flat_map(|month| (0..=32).map(move |day| (month, day))) {
                if let Some(date) = Date::new(year, month, day) {
                    assert_eq!(date.number(), expected, "{date}");
                    expected += 1;
                }
            }
        }
        // 406 years, of which every fourth from 2000 to 2404 is a leap year but for 2100, 2200 and 2300.
        assert_eq!(expected - number("1999-01-01"), 406 * 365 + 102 - 3);
    }

    #[test]
    fn weekdays() {
        const NAMES: [&str; 7] =
            ["Monday", "Tuesday", "Wednesday", "Thursday", "Friday", "Saturday", "Sunday"];
        let known = [
            ("2024-01-01", "Monday"),
            ("2024-02-29", "Thursday"),
            ("2024-12-25", "Wednesday"),
            ("2000-01-01", "Saturday"),
            ("1969-07-20", "Sunday"),
            ("1582-10-15", "Friday"),
            ("2100-02-28", "Sunday"),
            ("2100-03-01", "Monday"),
            ("2203-06-07", "Tuesday"),
        ];
        for (date, name) in known {
            assert_eq!(NAMES[number(date).rem_euclid(7) as usize], name, "{date}");
        }
    }

    #[test]
    fn before_day_0() {
        assert_eq!(number("2023-12-31"), -1);
        assert_eq!(number("2023-01-01"), -365);
        assert_eq!(number("0000-01-01"), -739_251);
    }

    #[test]
    fn no_dates() {
        for word in
            ["2024-02-30", "2023-02-29", "2100-02-29", "2024-04-31", "2024-13-01", "2024-00-01", "2024-01-00"]
        {
            assert_eq!(Date::read(word), Err(format!("there is no {word}")));
        }
        for word in [
            "",
            "-",
            "2024",
            "2024-01",
            "2024-1-01",
            "2024-01-1",
            "24-01-01",
            "02024-01-01",
            "2024-01-01-",
            "-2024-01-01",
            "2024/01/01",
            "20240101",
            "+024-01-01",
            "2024-+1-01",
            "01-01-2024",
            "2024-01-01T",
            "２０２４-01-01",
        ] {
            assert_eq!(Date::read(word), Err(format!("`{word}` is not a date of the form 2024-09-02")));
        }
    }
}
