//! What no text tells of a date, and what becomes of a writer's fault.
use crate::shown::ends_at_a_fault;
use haya_time::{Date, Season};
use std::cmp::Ordering;

// A year, a month and a day, from 0 on.
const PRINTED: &[(i32, Option<u8>, Option<u8>)] = &[
    (-5, None, None),
    (0, None, None),
    (2014, Some(4), Some(0)),
    (2014, Some(11), None),
    (2014, None, Some(4)),
    (2014, Some(255), None),
    (2014, Some(0), Some(255)),
    (20141, None, None),
    (2147483647, None, None),
    (-2147483648, None, None),
];

#[test]
fn a_writers_fault_ends_the_call(rt: HostRuntime) {
    for (year, month, day) in PRINTED {
        let date = Date {
            year: *year,
            month: *month,
            day: *day,
            approximate: true,
            season: None,
        };
        assert!(rt; ends_at_a_fault(&date), "{year}");
    }
}

// Whether two dates have this order.
fn stand_as(a: Date, b: Date, order: Ordering) -> bool {
    a.partial_cmp(&b) == Some(order)
}

fn in_season(season: Season) -> Date {
    Date {
        season: Some(season),
        ..Date::from_year(2014)
    }
}

#[test]
fn ties_go_by_what_no_text_tells(rt: HostRuntime) {
    let year = Date::from_year(2014);
    let day = Date {
        day: Some(4),
        ..year
    };
    let (spring, winter) = (in_season(Season::Spring), in_season(Season::Winter));
    assert!(rt; stand_as(year, day, Ordering::Less) && stand_as(winter, day, Ordering::Less));
    assert!(rt; stand_as(year, spring, Ordering::Less));
    assert!(rt; stand_as(winter, spring, Ordering::Greater));
    assert!(rt; winter.csl_cmp(&spring) == Ordering::Equal);
}
