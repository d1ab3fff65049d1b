//! A rule of POSIX: how far a place is ahead of UTC in winter and in summer, and from which days on.

use chrono::{DateTime, Datelike, Duration, NaiveDate};

const HOUR: i32 = 3600;
const DAY: i64 = 86400;

/// How far a place is ahead of UTC: always alike, or in each year alike.
#[derive(Clone, Copy)]
pub struct Rule {
    standard: i32,
    summer: Option<Summer>,
}

/// Summer time, and between which times of the local clock it holds.
#[derive(Clone, Copy)]
struct Summer {
    ahead: i32,
    start: Change,
    end: Change,
}

/// A day of each year, and seconds after it began.
#[derive(Clone, Copy)]
struct Change {
    day: Day,
    second: i32,
}

#[derive(Clone, Copy)]
enum Day {
    /// From 1 on; the 29th of February has none.
    Counted(u32),
    /// From 0 on.
    OfYear(u32),
    /// A month, which of its weeks (5 is the last), and a day of the week from Sunday on.
    OfWeek(u32, u32, u32),
}

/// The day since 1970 on which a month began.
fn first_of(year: i32, month: u32) -> i64 {
    let first = NaiveDate::from_ymd_opt(year, month, 1).unwrap_or_default();
    first.signed_duration_since(NaiveDate::default()).num_days()
}

impl Day {
    /// It in a year, as days since 1970.
    fn in_year(self, year: i32) -> i64 {
        let start = first_of(year, 1);
        match self {
            Day::OfYear(day) => start + i64::from(day),
            Day::Counted(day) => {
                let is_leap = first_of(year + 1, 1) - start == 366;
                start + i64::from(day) - if is_leap && day >= 60 { 0 } else { 1 }
            }
            Day::OfWeek(month, week, weekday) => {
                let first = first_of(year, month);
                // the first day of 1970 was a Thursday
                let wait = (i64::from(weekday) - 4 - first).rem_euclid(7);
                let day = first + wait + 7 * (i64::from(week) - 1);
                let next = if month == 12 { first_of(year + 1, 1) } else { first_of(year, month + 1) };
                if day < next { day } else { day - 7 }
            }
        }
    }
}

impl Change {
    /// When it comes in a year, for a clock that is so far ahead.
    fn in_year(self, year: i32, ahead: i32) -> i64 {
        self.day.in_year(year) * DAY + i64::from(self.second - ahead)
    }
}

impl Rule {
    /// How far the place is ahead at a time.
    pub fn ahead_at(self, second: i64) -> i32 {
        let Some(summer) = self.summer else { return self.standard };
        let shown = Duration::seconds(second + i64::from(self.standard));
        let year = DateTime::<chrono::Utc>::default().checked_add_signed(shown).unwrap_or_default().year();
        let start = summer.start.in_year(year, self.standard);
        let end = summer.end.in_year(year, summer.ahead);
        let is_summer = match start < end {
            true => start <= second && second < end,
            false => second < end || start <= second,
        };
        if is_summer { summer.ahead } else { self.standard }
    }

    /// Reads a rule. None if it is not one, or if it tells of summer and not when it is.
    pub fn parse(text: &[u8]) -> Option<Rule> {
        let mut left = text;
        name(&mut left)?;
        let standard = -signed(&mut left, 24)?;
        let mut rule = Rule { standard, summer: None };
        if !left.is_empty() {
            name(&mut left)?;
            let is_told = left.first() != Some(&b',');
            let ahead = if is_told { -signed(&mut left, 24)? } else { standard + HOUR };
            let start = change(&mut left)?;
            let end = change(&mut left)?;
            rule.summer = Some(Summer { ahead, start, end });
        }
        left.is_empty().then_some(rule)
    }
}

/// Takes a byte, if it comes next.
fn takes(left: &mut &[u8], byte: u8) -> bool {
    match left.split_first() {
        Some((first, rest)) if *first == byte => {
            *left = rest;
            true
        }
        _ => false,
    }
}

/// Takes a name of three letters or more; between `<` and `>` it may have digits and signs.
fn name(left: &mut &[u8]) -> Option<()> {
    let is_quoted = takes(left, b'<');
    let is_named =
        |byte: &u8| byte.is_ascii_alphabetic() || is_quoted && (byte.is_ascii_digit() || b"+-".contains(byte));
    let length = left.iter().take_while(|byte| is_named(byte)).count();
    *left = &left[length..];
    (length >= 3 && (!is_quoted || takes(left, b'>'))).then_some(())
}

/// Takes a number of a range.
fn number(left: &mut &[u8], least: u32, most: u32) -> Option<u32> {
    let length = left.iter().take_while(|byte| byte.is_ascii_digit()).count().min(4);
    let (digits, rest) = left.split_at(length);
    *left = rest;
    let number: u32 = std::str::from_utf8(digits).ok()?.parse().ok()?;
    (least <= number && number <= most).then_some(number)
}

/// Takes a span of so many hours at most, as in `2`, `-5:30` and `1:00:00`, as seconds.
fn signed(left: &mut &[u8], hours: u32) -> Option<i32> {
    let is_less = !takes(left, b'+') && takes(left, b'-');
    let mut seconds = number(left, 0, hours)? as i32 * HOUR;
    if takes(left, b':') {
        seconds += number(left, 0, 59)? as i32 * 60;
        if takes(left, b':') {
            seconds += number(left, 0, 59)? as i32;
        }
    }
    Some(if is_less { -seconds } else { seconds })
}

/// Takes a comma, a day and the time, which is two o'clock if it is not told.
fn change(left: &mut &[u8]) -> Option<Change> {
    if !takes(left, b',') {
        return None;
    }
    let day = if takes(left, b'J') {
        Day::Counted(number(left, 1, 365)?)
    } else if takes(left, b'M') {
        let month = number(left, 1, 12)?;
        let week = takes(left, b'.').then(|| number(left, 1, 5))??;
        Day::OfWeek(month, week, takes(left, b'.').then(|| number(left, 0, 6))??)
    } else {
        Day::OfYear(number(left, 0, 365)?)
    };
    let second = if takes(left, b'/') { signed(left, 167)? } else { 2 * HOUR };
    Some(Change { day, second })
}
