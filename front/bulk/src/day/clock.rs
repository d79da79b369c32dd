//! The time of a call: that of the clock, local and with its offset written, or one that was given.

use super::fault::Fault;
use super::record::Time;
use crate::system;
use crate::trouble::Trouble;
use face::Kind;
use std::ffi::OsStr;
use std::os::unix::ffi::OsStrExt;
use std::time::{SystemTime, UNIX_EPOCH};

const DAY: i64 = 86_400;

/// The furthest that a written offset goes: 14:00.
const MOST_AHEAD: i64 = 14 * 3600;

/// The time of a call: the one that was given, else that of the clock.
pub fn time(given: Option<&OsStr>) -> Result<Time, Trouble> {
    match given {
        Some(word) => of_word(word).ok_or_else(|| Fault::NoTime(word.to_owned()).into()),
        None => now().ok_or_else(|| Fault::NoClock.into()),
    }
}

/// A time as a record has it: no fraction, and an offset in digits. What is of the kind and 25
/// bytes long has both.
fn of_word(word: &OsStr) -> Option<Time> {
    let time: Time = word.as_bytes().try_into().ok()?;
    (face::check(Kind::Time, &time)[0] == 0).then_some(time)
}

/// The clock's time.
fn now() -> Option<Time> {
    let instant = match SystemTime::now().duration_since(UNIX_EPOCH) {
        Ok(since) => i64::try_from(since.as_secs()).ok()?,
        Err(before) => -i64::try_from(before.duration().as_secs()).ok()?,
    };
    let ahead = system::ahead_of_utc(instant).unwrap_or(0);
    // An offset that cannot be written tells the same instant at +00:00.
    let is_written = ahead % 60 == 0 && ahead.abs() <= MOST_AHEAD;
    of_instant(instant, if is_written { ahead } else { 0 })
}

/// The time of an instant in seconds from 1970, with an offset in seconds; none outside of the
/// years that four digits tell.
fn of_instant(instant: i64, ahead: i64) -> Option<Time> {
    let local = instant.checked_add(ahead)?;
    let (year, month, day) = date(local.div_euclid(DAY));
    let second = local.rem_euclid(DAY);
    let (hour, minute, second) = (second / 3600, second / 60 % 60, second % 60);
    let sign = if ahead < 0 { '-' } else { '+' };
    let (hours, minutes) = (ahead.abs() / 3600, ahead.abs() / 60 % 60);
    let time = format!(
        "{year:04}-{month:02}-{day:02}T{hour:02}:{minute:02}:{second:02}{sign}{hours:02}:{minutes:02}"
    );
    of_word(OsStr::new(&time))
}

/// Year, month and day of a day, counted from 1970-01-01. It counts from a first of March, so that
/// a leap day ends its year, and in 400 years, after which the calendar begins again.
fn date(days: i64) -> (i64, i64, i64) {
    const CYCLE: i64 = 146_097;
    let from_march = days + 719_468;
    let (cycle, day) = (from_march.div_euclid(CYCLE), from_march.rem_euclid(CYCLE));
    let year = (day - day / 1460 + day / 36_524 - day / 146_096) / 365;
    let of_year = day - (365 * year + year / 4 - year / 100);
    let month = (5 * of_year + 2) / 153;
    let day = of_year - (153 * month + 2) / 5 + 1;
    let (month, later) = if month < 10 { (month + 3, 0) } else { (month - 9, 1) };
    (cycle * 400 + year + later, month, day)
}

#[cfg(test)]
mod tests {
    use super::*;

    /// The time as text.
    fn told(instant: i64, ahead: i64) -> Option<String> {
        of_instant(instant, ahead).map(|time| String::from_utf8(time.to_vec()).unwrap())
    }

    #[test]
    fn instants_that_are_known() {
        for (instant, ahead, due) in [
            (0, 0, "1970-01-01T00:00:00+00:00"),
            (-1, 0, "1969-12-31T23:59:59+00:00"),
            (1_792_888_200, 7200, "2026-10-25T02:30:00+02:00"),
            (1_792_891_800, 3600, "2026-10-25T02:30:00+01:00"),
            (951_782_400, -12_600, "2000-02-28T20:30:00-03:30"),
            (951_868_799, 50_400, "2000-03-01T13:59:59+14:00"),
            (253_402_300_799, 0, "9999-12-31T23:59:59+00:00"),
        ] {
            assert_eq!(told(instant, ahead).as_deref(), Some(due));
        }
        assert_eq!(told(253_402_300_799, 60), None);
        assert_eq!(told(i64::MAX, 60), None);
    }

    /// Each day follows the one before, over a whole cycle of the calendar: the library knows which
    /// days there are, so none is skipped and none comes twice.
    #[test]
    fn every_day_of_400_years() {
        let mut last = String::new();
        for day in 0..146_097 {
            let time = told(day * DAY, 0).expect("a day that there is");
            assert!(last < time, "{last} {time}");
            last = time;
        }
        assert!(last.starts_with("2369-12-31"));
    }

    #[test]
    fn what_is_no_time_of_a_record() {
        for word in [
            "2026-10-25T02:30:00",
            "2026-10-25T02:30:00Z",
            "2026-10-25T02:30:00.000+02:00",
            "2026-10-25T02:30:00.123Z",
            "2026-10-25 02:30:00+02:00",
            "2026-02-29T02:30:00+02:00",
            "2026-10-25T24:30:00+02:00",
            "2026-10-25T02:30:00+15:00",
            "",
        ] {
            assert_eq!(of_word(OsStr::new(word)), None, "{word}");
        }
        assert!(now().is_some());
    }
}
