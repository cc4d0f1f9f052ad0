//! Durations that no text reads as.
use crate::shown::{ends_at_a_fault, is_shown};
use haya_text::{ReadFault, TryClone};
use haya_time::DurationError::TooLarge;
use haya_time::{Duration, DurationRange};

// Days, hours, minutes, seconds and milliseconds.
type Values = (u32, u32, u32, u8, u16);

fn time((days, hours, minutes, seconds, milliseconds): Values) -> Duration {
    Duration {
        days,
        hours,
        minutes,
        seconds,
        milliseconds,
    }
}

const MINUTE: Values = (0, 0, 1, 0, 0);

const GREATEST: Values = (u32::MAX, u32::MAX, u32::MAX, u8::MAX, u16::MAX);

#[test]
fn hand_made_values_are_printed(rt: HostRuntime) {
    let range = DurationRange::new(time(GREATEST), Some(time(MINUTE)));
    assert!(rt;
        is_shown(
            &rt,
            &range,
            "4294967295:4294967295:4294967295:255,65535-01:00"
        )
    );
    assert!(rt; is_shown(&rt, &DurationRange::new(time(MINUTE), None), "01:00"));
    assert!(rt; Duration::default() == time((0, 0, 0, 0, 0)));
    assert!(rt; ends_at_a_fault(&time(GREATEST)) && ends_at_a_fault(&range));
}

#[test]
fn what_reads_back_is_told(rt: HostRuntime) {
    let range = DurationRange::new(time(MINUTE), Some(time(GREATEST)));
    assert!(rt; !range.reads_back());
    assert!(rt; range.try_clone(rt.alloc()) == Ok(range));
    assert!(rt; time(MINUTE).try_clone(rt.alloc()) == Ok(time(MINUTE)));
    assert!(rt; !TooLarge.is_out_of_memory());
}
