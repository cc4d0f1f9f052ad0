//! Dates, years and durations.
use crate::values::row::{
    Row, RowError, put as put_column, put_debugged, put_fault, put_read, put_shown, put_yes,
};
use haya_text::ReadText;
use haya_time::{Date, Duration, DurationError, DurationRange, Season};
use std::alloc::Global;
use std::fmt;
use std::str::FromStr;

pub fn put(alloc: Global, row: &Row, out: &mut String) -> Result<(), RowError> {
    match row.word(0)? {
        "date" => put_date(alloc, row, out),
        "made-date" => put_made_date(alloc, row, out),
        "dates" => put_dates(alloc, row, out),
        "year" => {
            let shown = Date::from_year(number(row, 1)?).display_year(alloc)?;
            put_column(out, shown.as_str())
        }
        "era" => put_era(alloc, row, out),
        "duration" => {
            put_alike::<Duration>(alloc, row, out)?;
            put_read::<Duration>(alloc, row, out)
        }
        "range" => {
            put_alike::<DurationRange>(alloc, row, out)?;
            put_read::<DurationRange>(alloc, row, out)
        }
        "made-duration" => {
            let made = duration(row, 1)?;
            put_shown(alloc, out, &made)?;
            put_yes(out, made.reads_back())
        }
        "durations" => put_debugged(alloc, out, &duration(row, 1)?.cmp(&duration(row, 6)?)),
        _ => Err(RowError::Malformed),
    }
}

fn number<T: FromStr>(row: &Row, place: usize) -> Result<T, RowError>
where
    T::Err: Drop,
{
    row.word(place)?
        .parse::<T>()
        .map_err(|_| RowError::Malformed)
}

fn put_date(alloc: Global, row: &Row, out: &mut String) -> Result<(), RowError> {
    match Date::from_str(row.word(1)?) {
        Ok(date) => {
            put_debugged(alloc, out, &date)?;
            put_shown(alloc, out, &date)
        }
        Err(fault) => put_fault(alloc, out, &fault),
    }
}

// A month or a day, from 0 on.
fn part(row: &Row, place: usize) -> Result<Option<u8>, RowError> {
    match row.maybe(place)? {
        Some(_) => Ok(Some(number(row, place)?)),
        None => Ok(None),
    }
}

fn season(row: &Row, place: usize) -> Result<Option<Season>, RowError> {
    match row.word(place)? {
        "spring" => Ok(Some(Season::Spring)),
        "summer" => Ok(Some(Season::Summer)),
        "autumn" => Ok(Some(Season::Autumn)),
        "winter" => Ok(Some(Season::Winter)),
        "-" => Ok(None),
        _ => Err(RowError::Malformed),
    }
}

fn put_made_date(alloc: Global, row: &Row, out: &mut String) -> Result<(), RowError> {
    let date = Date {
        approximate: row.is_yes(1)?,
        year: number(row, 2)?,
        month: part(row, 3)?,
        day: part(row, 4)?,
        season: season(row, 5)?,
    };
    put_shown(alloc, out, &date)?;
    put_yes(out, date.reads_back())
}

fn put_dates(alloc: Global, row: &Row, out: &mut String) -> Result<(), RowError> {
    let (Ok(a), Ok(b)) = (Date::from_str(row.word(1)?), Date::from_str(row.word(2)?)) else {
        return Err(RowError::Malformed);
    };
    put_debugged(alloc, out, &a.partial_cmp(&b))?;
    put_debugged(alloc, out, &a.csl_cmp(&b))
}

fn put_era(alloc: Global, row: &Row, out: &mut String) -> Result<(), RowError> {
    let (secular, periods) = (row.is_yes(2)?, row.is_yes(3)?);
    let (positive, prefix) = (row.is_yes(4)?, row.is_yes(5)?);
    let date = Date::from_year(number(row, 1)?);
    let shown = date.display_year_opt(alloc, secular, periods, positive, prefix)?;
    put_column(out, shown.as_str())
}

// Whether a text reads alike by both traits.
fn put_alike<T: ReadText<Fault = DurationError> + FromStr<Err = DurationError> + PartialEq + Drop>(
    alloc: Global,
    row: &Row,
    out: &mut String,
) -> Result<(), RowError> {
    let text = row.word(1)?;
    let alike = match (
        <T as FromStr>::from_str(text),
        <T as ReadText>::from_str(alloc, text),
    ) {
        (Ok(one), Ok(other)) => one == other,
        (Err(one), Err(other)) => one == other,
        _ => false,
    };
    if alike {
        Ok(())
    } else {
        put_column(out, "unlike")
    }
}

fn duration(row: &Row, place: usize) -> Result<Duration, RowError> {
    Ok(Duration {
        days: number(row, place)?,
        hours: number(row, place.saturating_add(1))?,
        minutes: number(row, place.saturating_add(2))?,
        seconds: number(row, place.saturating_add(3))?,
        milliseconds: number(row, place.saturating_add(4))?,
    })
}
