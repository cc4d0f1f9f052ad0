//! The calls of `haya_people`.
mod orders;
mod particles;
mod persons;
mod roles;
