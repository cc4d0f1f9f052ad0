//! Notes, shown.
use haya_json::{Loss, Note, Notes};
use std::process::Abort;

// The key of a note, its place and what is lost there.
fn note_shown(rt: &(impl Abort + AllocGlobal), note: &Note) -> String {
    let mut shown = String::from_str(rt.alloc(), note.key.as_str()).expect(rt, "memory");
    for step in &note.lost.path {
        write!(shown, "{step}").expect(rt, "memory");
    }
    match &note.lost.loss {
        Loss::Named(name) => write!(shown, " {name}").expect(rt, "memory"),
        Loss::Unread(why, value) => write!(shown, " {why}: {value}").expect(rt, "memory"),
        Loss::Again => write!(shown, " again").expect(rt, "memory"),
    }
    shown
}

/// Each name with how often it came, the other notes, and how many more there are.
pub(crate) fn notes_shown(rt: &(impl Abort + AllocGlobal), notes: &Notes) -> String {
    let mut shown = String::new(rt.alloc());
    for (name, count) in notes.ignored() {
        write!(shown, "{name} {count}, ").expect(rt, "memory");
    }
    for line in notes.lines() {
        let line = note_shown(rt, line);
        write!(shown, "{line}, ").expect(rt, "memory");
    }
    if notes.more() > 0 {
        write!(shown, "{} more", notes.more()).expect(rt, "memory");
    }
    shown
}

/// The first note of all, if there is one.
pub(crate) fn first_shown(rt: &(impl Abort + AllocGlobal), notes: &Notes) -> String {
    match notes.first() {
        Some(first) => note_shown(rt, first),
        None => String::new(rt.alloc()),
    }
}
