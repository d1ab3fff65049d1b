//! The calendar and time zones, in the shapes of the crate `jiff`, which no Debian has. The calendar is that of the
//! crate `chrono`; the files of the time zones are read here.

use crate::alloc::AllocError;
use crate::time::Clock;
use chrono::{DateTime, Datelike, Duration, NaiveDateTime, TimeZone, Timelike, Utc};
use std::io::{self, ErrorKind};

pub mod tz;

/// What can go wrong.
#[derive(Clone, Copy, Debug, PartialEq, Eq)]
pub enum Error {
    /// A value is outside of its range.
    Range,
    /// The bytes are no time zone, or the text names none.
    Zone,
    /// A file or the clock can't be read.
    Io(ErrorKind),
    /// Memory ran out.
    OutOfMemory,
}

impl From<io::Error> for Error {
    fn from(error: io::Error) -> Error {
        Error::Io(error.kind())
    }
}

impl From<AllocError> for Error {
    fn from(_error: AllocError) -> Error {
        Error::OutOfMemory
    }
}

/// A time, in seconds since 1970.
#[derive(Clone, Copy)]
pub struct Timestamp {
    inner: DateTime<Utc>,
}

impl Timestamp {
    /// The time that is so many seconds after 1970 began.
    pub fn from_second(second: i64) -> Result<Timestamp, Error> {
        Utc.timestamp_opt(second, 0).single().map(|inner| Timestamp { inner }).ok_or(Error::Range)
    }

    /// What a clock says.
    pub fn now<C: Clock>(clock: &C) -> Result<Timestamp, Error> {
        Timestamp::from_second(clock.since_1970()?.as_secs() as i64)
    }

    fn second(self) -> i64 {
        self.inner.timestamp()
    }

    /// What a clock shows that is so many seconds ahead of UTC.
    fn shown(self, ahead: i32) -> Civil {
        let utc = self.inner.naive_utc();
        Civil { inner: utc.checked_add_signed(Duration::seconds(ahead.into())).unwrap_or(utc) }
    }

    /// How far the place of the system is ahead, or 0 if the system does not say.
    #[cfg(not(unix))]
    fn local_ahead(self) -> i32 {
        // SAFETY: the fields are numbers, of which 0 is one.
        let mut tm: libc::tm = unsafe { std::mem::zeroed() };
        // SAFETY: the system reads the second, and writes the fields.
        let why = unsafe { libc::localtime_s(&mut tm, &self.second()) };
        let [hour, minute, second] = [tm.tm_hour, tm.tm_min, tm.tm_sec].map(i32::unsigned_abs);
        let date = chrono::NaiveDate::from_ymd_opt(tm.tm_year + 1900, tm.tm_mon as u32 + 1, tm.tm_mday as u32);
        let shown = date.and_then(|date| date.and_hms_opt(hour, minute, second)).filter(|_| why == 0);
        shown.map_or(0, |shown| (shown - self.inner.naive_utc()).num_seconds() as i32)
    }
}

/// A date and a time of day.
pub struct Civil {
    inner: NaiveDateTime,
}

impl Civil {
    /// The year.
    pub fn year(&self) -> i16 {
        self.inner.year() as i16
    }

    /// The month, from 1 on.
    pub fn month(&self) -> i8 {
        self.inner.month() as i8
    }

    /// The day of the month, from 1 on.
    pub fn day(&self) -> i8 {
        self.inner.day() as i8
    }

    /// The hour.
    pub fn hour(&self) -> i8 {
        self.inner.hour() as i8
    }

    /// The minute.
    pub fn minute(&self) -> i8 {
        self.inner.minute() as i8
    }
}
