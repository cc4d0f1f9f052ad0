//! Libraries in JSON: what is read, and why a text says no library. `tests/json` tries what is printed.
mod ignored;
mod limits;
mod lines;
mod member_lines;
mod reads_back;
mod refused;
mod rows;
mod shown;
