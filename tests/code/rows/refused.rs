//! Calls that no row of `tests/rows/values` and no program makes, or that hand back or leave
//! something where they are refused: each request for memory is refused in turn. Each of these runs
//! its calls once, where there is memory; `refused/run` at the top of the repository runs each call
//! with each request refused, and says what it takes for a fault. A row's name is the call's, as
//! `TYPE::CALL`.
mod calls;
mod entries;
mod formats;
mod large;
mod lookups;
mod marks;
mod numbers;
mod people;
mod shown;
mod texts;
mod values;
mod wrong;

use std::io::Print;
use std::process::{Abort, ExitCode};

// What can be run.
const NAMES: [&str; 32] = [
    "entries::named_serial_numbers",
    "entries::add_parent",
    "entries::add_affiliated_persons",
    "formats::libraries",
    "formats::laid_out",
    "formats::items",
    "formats::yaml",
    "formats::none_ignored",
    "large::a_long_text_pushed",
    "large::serial_numbers",
    "large::many_parents",
    "large::one_parent_more",
    "lookups::affiliated",
    "numbers::a_range",
    "people::copied",
    "texts::push_str",
    "texts::push_char",
    "texts::extend",
    "texts::write_str",
    "texts::made_from_texts",
    "texts::made_from_chunks",
    "texts::handed_back_whole",
    "texts::refuses_math",
    "values::copied",
    "values::empty",
    "values::listed",
    "wrong::memory_becomes_text",
    "wrong::always_out_of_memory",
    "wrong::drops_before_it_grows",
    "wrong::aborts",
    "wrong::takes_memory_unsaid",
    "wrong::takes_none",
];

/// Runs what has the name, or prints the names where there is none.
pub(crate) fn main(rt: &(impl Abort + AllocGlobal + Print), name: Option<&str>) -> ExitCode {
    let Some(name) = name else {
        for each in NAMES {
            let _ = println!(rt; "{each}");
        }
        return ExitCode::SUCCESS;
    };
    match name {
        "entries::named_serial_numbers" => entries::named_serial_numbers(rt),
        "entries::add_parent" => entries::add_parent(rt),
        "entries::add_affiliated_persons" => entries::add_affiliated_persons(rt),
        "formats::libraries" => formats::libraries(rt),
        "formats::laid_out" => formats::laid_out(rt),
        "formats::items" => formats::items(rt),
        "formats::yaml" => formats::yaml(rt),
        "formats::none_ignored" => formats::none_ignored(rt),
        "large::a_long_text_pushed" => large::a_long_text_pushed(rt),
        "large::serial_numbers" => large::serial_numbers(rt),
        "large::many_parents" => large::many_parents(rt),
        "large::one_parent_more" => large::one_parent_more(rt),
        "lookups::affiliated" => lookups::affiliated(rt),
        "numbers::a_range" => numbers::a_range(rt),
        "people::copied" => people::copied(rt),
        "texts::push_str" => texts::push_str(rt),
        "texts::push_char" => texts::push_char(rt),
        "texts::extend" => texts::extend(rt),
        "texts::write_str" => texts::write_str(rt),
        "texts::made_from_texts" => texts::made_from_texts(rt),
        "texts::made_from_chunks" => texts::made_from_chunks(rt),
        "texts::handed_back_whole" => texts::handed_back_whole(rt),
        "texts::refuses_math" => texts::refuses_math(rt),
        "values::copied" => values::copied(rt),
        "values::empty" => values::empty(rt),
        "values::listed" => values::listed(rt),
        "wrong::memory_becomes_text" => wrong::memory_becomes_text(rt),
        "wrong::always_out_of_memory" => wrong::always_out_of_memory(rt),
        "wrong::drops_before_it_grows" => wrong::drops_before_it_grows(rt),
        "wrong::aborts" => wrong::aborts(rt),
        "wrong::takes_memory_unsaid" => wrong::takes_memory_unsaid(rt),
        "wrong::takes_none" => wrong::takes_none(rt),
        _ => return ExitCode::from(2),
    }
    ExitCode::SUCCESS
}
