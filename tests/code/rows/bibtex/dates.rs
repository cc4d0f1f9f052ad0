//! The date of an entry.
use haya_bibtex_dates::{DateTexts, EntryDate, entry_date, read_date};
use haya_time::{Date, Season};
use std::alloc::{AllocError, Global};

/// The date of a record, with its season, or a hyphen, and then the names of the fields that aren't
/// read. The record has `date`, `year`, `month` and `day` with a tab between two, of which an empty
/// one isn't there, or a date alone.
pub fn line_of(alloc: Global, record: &str) -> Result<String, AllocError> {
    match record.split_once('\t') {
        Some((date, others)) => said_by_fields(alloc, date, others),
        None => shown(alloc, read_date(alloc, record)?),
    }
}

// What the fields say.
fn said_by_fields(alloc: Global, date: &str, others: &str) -> Result<String, AllocError> {
    let mut fields = others.split('\t');
    let year = there(fields.next());
    let month = there(fields.next());
    let day = there(fields.next());
    let texts = DateTexts {
        date: there(Some(date)),
        year: match year {
            Some(year) => Some((year, year)),
            None => None,
        },
        month,
        day,
    };
    let said: EntryDate = entry_date(alloc, texts)?;
    let mut line = shown(alloc, said.date)?;
    push_lost(&mut line, said.lost_date, " date")?;
    push_lost(&mut line, said.lost_year, " year")?;
    push_lost(&mut line, said.lost_month, " month")?;
    push_lost(&mut line, said.lost_day, " day")?;
    Ok(line)
}

// A field that isn't empty.
fn there(field: Option<&str>) -> Option<&str> {
    match field {
        Some("") => None,
        field => field,
    }
}

// A date with its season, or a hyphen.
fn shown(alloc: Global, date: Option<Date>) -> Result<String, AllocError> {
    let Some(date) = date else {
        return String::from_str(alloc, "-");
    };
    let mut line = format!(in alloc; "{date}")?;
    if let Some(season) = date.season {
        line.push_str(season_name(season))?;
    }
    Ok(line)
}

fn push_lost(line: &mut String, lost: bool, name: &str) -> Result<(), AllocError> {
    if lost {
        line.push_str(name)?;
    }
    Ok(())
}

fn season_name(season: Season) -> &'static str {
    match season {
        Season::Spring => ", spring",
        Season::Summer => ", summer",
        Season::Autumn => ", autumn",
        Season::Winter => ", winter",
    }
}
