//! What numbers tell of themselves, and those that are made.
ghost use Rattle.std.specs.Prelude.{◌≡◌, Some, None, codes, pos, if◌then◌else◌};
ghost use Rattle.std.specs.Ordering.{int_eq};

use crate::shown::{ends_at_a_fault, is_shown};
use haya_numbers::{
    GrammarGender, NumberForm, Numeric, NumericDelimiter, NumericError, NumericValue, Ordinals,
};
use haya_text::{ReadFault, ReadText};
use std::fmt;
use std::process::Abort;

fn number(rt: &(impl Abort + AllocGlobal), text: &str) -> Numeric {
    match Numeric::from_str(rt.alloc(), text) {
        Ok(number) => number,
        Err(fault) => {
            assert!(rt; false, "{text}: {fault}");
            Numeric::new(0)
        }
    }
}

// Whether the numbers are written so, for a machine or not.
fn is_written(
    rt: &(impl Abort + AllocGlobal),
    number: &Numeric,
    machine_readable: bool,
    wanted: &str,
) -> bool {
    let mut text = String::new(rt.alloc());
    number
        .fmt_value(&mut text, machine_readable)
        .expect(rt, "memory");
    text.as_str() == wanted
}

// Whether these are the first numbers, with none behind them.
fn begins_with(read: &Numeric, first: i32, second: Option<i32>) -> bool {
    (read.nth(0), read.nth(1), read.nth(2)) == (Some(first), second, None)
}

// Whether two numbers are between these affixes, so that no form is put on them.
fn is_pair_between(read: &Numeric, prefix: &str, suffix: &str) -> bool {
    read.prefix_str() == Some(prefix)
        && read.suffix_str() == Some(suffix)
        && !read.will_transform()
        && read.value.len() == 2
        && read.single_number().is_none()
}

// Whether it is this number alone, so that a form is put on it.
fn is_plain(read: &Numeric, number: i32) -> bool {
    read.prefix_str().is_none()
        && read.suffix_str().is_none()
        && read.will_transform()
        && read.single_number() == Some(number)
}

#[test]
fn keeps_affixes(rt: HostRuntime) {
    let read = number(&rt, "Vol. 02 , 3x");
    let is_kept = is_pair_between(&read, "Vol. 0", " x") && begins_with(&read, 2, Some(3));
    drop(read);
    assert!(rt; is_kept);
    let plain = Numeric::from(12);
    let is_kept = is_plain(&plain, 12) && begins_with(&plain, 12, None);
    drop(plain);
    assert!(rt; is_kept);
}

fn range(rt: &(impl Abort + AllocGlobal), start: i32, end: i32) -> Numeric {
    Numeric::from_range(rt.alloc(), start..end).expect(rt, "memory")
}

// Whether the range is shown so, of two numbers.
fn is_range(rt: &(impl Abort + AllocGlobal), range: &Numeric, shown: &str) -> bool {
    is_shown(rt, range, shown) && range.value.len() == 2
}

// Whether a set of no numbers is empty, plural, and written as nothing.
fn is_empty_set(rt: &(impl Abort + AllocGlobal)) -> bool {
    let empty = Numeric {
        value: NumericValue::Set(Vec::new(rt.alloc())),
        prefix: None,
        suffix: None,
    };
    let is_empty = empty.value.is_empty() && empty.value.len() == 0;
    let same = is_empty && empty.is_plural(true) && is_written(rt, &empty, true, "");
    drop(empty);
    same
}

// Whether a number is plural, in a field where one is a count, and in another.
fn is_plural(number: i32, counted: bool) -> bool {
    let made = Numeric::new(number);
    let plural = made.is_plural(counted);
    drop(made);
    plural
}

// The number that is made of one that fits.
fn made_of(rt: &(impl Abort + AllocGlobal), number: u32) -> Option<i32> {
    let made = Numeric::try_from(number).expect(rt, "fits");
    let first = made.nth(0);
    drop(made);
    first
}

#[test]
fn makes_ranges_and_sets(rt: HostRuntime) {
    let four = range(&rt, 1, 4);
    let is_made = is_range(&rt, &four, "1–4") && four.is_plural(false) && four.will_transform();
    drop(four);
    assert!(rt; is_made);
    let one = range(&rt, 4, 4);
    let is_made = is_range(&rt, &one, "4–4");
    drop(one);
    assert!(rt; is_made);
    assert!(rt; is_empty_set(&rt));
    assert!(rt; !is_plural(1, true) && is_plural(2, true) && !is_plural(2, false));
    let is_refused = Numeric::try_from(2147483648u32).is_err();
    assert!(rt; is_refused && made_of(&rt, 2147483647) == Some(2147483647));
}

// Whether so many numbers are left, as the length and the hint tell.
fn has_left<I: ExactSizeIterator>(numbers: &I, count: usize) -> bool {
    numbers.len() == count && numbers.size_hint() == (count, Some(count))
}

// Whether the value gives this number alone.
fn gives_alone(value: &NumericValue, number: i32) -> bool {
    let mut numbers = value.into_iter();
    let is_first = has_left(&numbers, 1) && numbers.next() == Some(number) && numbers.len() == 0;
    is_first && numbers.next().is_none() && numbers.next().is_none() && has_left(&numbers, 0)
}

fn sum_of(value: &NumericValue) -> i64 {
    let mut sum = 0i64;
    for n in value {
        sum = i64::from(n).saturating_add(sum);
    }
    sum
}

#[test]
fn goes_through_the_numbers(rt: HostRuntime) {
    let value = NumericValue::Number(7);
    let is_alone = gives_alone(&value, 7);
    drop(value);
    assert!(rt; is_alone);
    let set = number(&rt, "1, 2-9");
    let sum = sum_of(&set.value);
    drop(set);
    assert!(rt; sum == 12);
    assert!(rt; NumericDelimiter::try_from('–') == Ok(NumericDelimiter::Hyphen));
    assert!(rt; !NumericError::NoNumber.is_out_of_memory());
}

// English, but for the ends of ordinals.
struct English;

impl Ordinals for English {
    ghost ordinal_suffix = { λ _ _ _. Some (codes "th") };

    ghost ordinal_word = { λ _ n. if int_eq n (pos 1) then Some (codes "first") else None };

    fn lookup(&self, _n: i32, _gender: Option<GrammarGender>) -> Option<&str> {
        Some("th")
    }

    fn lookup_long(&self, n: i32) -> Option<&str> {
        if n == 1 { Some("first") } else { None }
    }
}

// The numbers of a value, without its affixes.
#[derive(Drop)]
struct Numbers<'a>(&'a Numeric);

impl fmt::Display for Numbers<'_> {
    fn fmt<W: fmt::Write>(&self, f: &mut fmt::Formatter<W>) -> fmt::Result {
        self.0.fmt_value(f, false)
    }
}

// The same as ordinal words.
#[derive(Drop)]
struct Words<'a>(&'a Numeric);

impl fmt::Display for Words<'_> {
    fn fmt<W: fmt::Write>(&self, f: &mut fmt::Formatter<W>) -> fmt::Result {
        self.0.with_form(f, NumberForm::LongOrdinal, None, &English)
    }
}

#[test]
fn a_writers_fault_ends_the_call(rt: HostRuntime) {
    let read = number(&rt, "x1-4, 5y");
    let ends = ends_at_a_fault(&read)
        && ends_at_a_fault(&Numbers(&read))
        && ends_at_a_fault(&Words(&read));
    drop(read);
    assert!(rt; ends);
}
