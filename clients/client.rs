//! SELECTOR [FIELD FORM] < LIBRARY: prints the hits as the program hayagriva_query does, one at a time; behind the key of each the
//! text of a field that is set, in the form `marked-up`, `plain` or `short`.
use std::collections::BTreeMap;
use std::ffi::c_void;
use std::io::{self, Read, Write};
use std::os::unix::ffi::OsStrExt;
use std::process::ExitCode;
use std::{env, ptr, slice};

mod raw {
    use super::{Entry, Fault};
    use std::ffi::c_void;

    unsafe extern "C" {
        pub safe fn haya_version() -> u32;
        pub fn haya_message(code: u32, room: *mut u8, len: usize) -> usize;
        pub fn haya_library_read(
            text: *const u8,
            len: usize,
            format: u32,
            first: u64,
            second: u64,
            library: *mut *mut c_void,
            fault: *mut Fault,
        ) -> u32;
        pub fn haya_library_free(library: *mut c_void);
        pub fn haya_library_next(
            library: *const c_void,
            selector: *const c_void,
            place: *mut usize,
            hit: *mut Entry,
            bound: *mut Entry,
            len: usize,
        ) -> u32;
        pub fn haya_entry_key(
            library: *const c_void,
            entry: *const Entry,
            room: *mut u8,
            room_len: usize,
            len: *mut usize,
        ) -> u32;
        pub fn haya_entry_text_as(
            library: *const c_void,
            entry: *const Entry,
            name: *const u8,
            name_len: usize,
            form: u32,
            room: *mut u8,
            room_len: usize,
            len: *mut usize,
        ) -> u32;
        pub fn haya_selector_read(
            text: *const u8,
            len: usize,
            used: *mut usize,
            selector: *mut *mut c_void,
            fault: *mut Fault,
        ) -> u32;
        pub fn haya_selector_names(selector: *const c_void) -> usize;
        pub fn haya_selector_name(
            selector: *const c_void,
            number: usize,
            room: *mut u8,
            room_len: usize,
            len: *mut usize,
        ) -> u32;
        pub fn haya_selector_free(selector: *mut c_void);
        pub fn haya_fault_free(fault: *mut Fault);
    }
}

const VERSION: u32 = 2;
const OK: u32 = 0;
const NO_FIELD: u32 = 3;
const LINES: u32 = 1;

/// In which form a text is asked for.
#[derive(Clone, Copy)]
enum Form {
    MarkedUp = 0,
    Plain = 1,
    Short = 2,
}

impl Form {
    fn named(word: &[u8]) -> Option<Form> {
        match word {
            b"marked-up" => Some(Form::MarkedUp),
            b"plain" => Some(Form::Plain),
            b"short" => Some(Form::Short),
            _ => None,
        }
    }
}

#[repr(C)]
pub struct Text {
    at: *const u8,
    len: usize,
}

impl Text {
    const fn none() -> Text {
        Text { at: ptr::null(), len: 0 }
    }
}

/// Which entry of a library is meant.
#[repr(C)]
#[derive(Clone, Copy, PartialEq)]
pub struct Entry {
    place: usize,
    step: usize,
}

impl Entry {
    const NOWHERE: Entry = Entry { place: usize::MAX, step: usize::MAX };
}

/// Why a call refused.
#[repr(C)]
pub struct Fault {
    code: u32,
    offset: usize,
    line: usize,
    column: usize,
    pointer: Text,
    name: Text,
    reason: Text,
    words: *mut c_void,
}

impl Fault {
    const fn none() -> Fault {
        let (pointer, name, reason) = (Text::none(), Text::none(), Text::none());
        Fault { code: OK, offset: 0, line: 0, column: 0, pointer, name, reason, words: ptr::null_mut() }
    }

    /// The fault as the program shows it.
    fn complaint(&self) -> Vec<u8> {
        let mut said = match self.line {
            0 => Vec::new(),
            line => format!("line {line}: ").into_bytes(),
        };
        let mut room = [0; 64];
        // SAFETY: the pointer and the length of one array.
        let len = unsafe { raw::haya_message(self.code, room.as_mut_ptr(), room.len()) };
        said.extend(&room[..len.min(room.len())]);
        if self.name.len != 0 {
            said.extend(b": `");
            // SAFETY: the library wrote the text, which the fault holds.
            said.extend(unsafe { slice::from_raw_parts(self.name.at, self.name.len) });
            said.push(b'`');
        }
        said
    }
}

impl Drop for Fault {
    fn drop(&mut self) {
        // SAFETY: the fault is empty, or the library wrote it.
        unsafe { raw::haya_fault_free(self) };
    }
}

/// What a call writes, in as much room as it asks for, or none where there is no such field.
fn text_of(mut call: impl FnMut(*mut u8, usize, &mut usize) -> u32) -> Option<Vec<u8>> {
    let (mut len, mut room) = (0, vec![0; 64]);
    let mut code = call(room.as_mut_ptr(), room.len(), &mut len);
    if len > room.len() {
        room.resize(len, 0);
        code = call(room.as_mut_ptr(), room.len(), &mut len);
    }
    if code == NO_FIELD {
        return None;
    }
    assert_eq!(code, OK);
    room.truncate(len);
    Some(room)
}

/// A library, freed when it is dropped.
struct Library(*mut c_void);

impl Library {
    fn read(text: &[u8]) -> Result<Library, Fault> {
        let (mut library, mut fault) = (Library(ptr::null_mut()), Fault::none());
        // SAFETY: the pointer and the length of one slice, no library yet and an empty fault.
        let code =
            unsafe { raw::haya_library_read(text.as_ptr(), text.len(), LINES, 0, 0, &mut library.0, &mut fault) };
        if code == OK { Ok(library) } else { Err(fault) }
    }

    fn key(&self, entry: &Entry) -> Vec<u8> {
        // SAFETY: a library that was read, and the room of a vector.
        text_of(|room, room_len, len| unsafe { raw::haya_entry_key(self.0, entry, room, room_len, len) })
            .unwrap_or_default()
    }

    /// The text of a field in a form, if it is set.
    fn text(&self, entry: &Entry, (name, form): (&[u8], Form)) -> Option<Vec<u8>> {
        // SAFETY: a library that was read, the pointer and the length of one slice, and the room of a vector.
        text_of(|room, room_len, len| unsafe {
            raw::haya_entry_text_as(self.0, entry, name.as_ptr(), name.len(), form as u32, room, room_len, len)
        })
    }
}

impl Drop for Library {
    fn drop(&mut self) {
        // SAFETY: null, or a library that was read.
        unsafe { raw::haya_library_free(self.0) };
    }
}

/// A selector, freed when it is dropped, and the number of each of its names.
struct Selector {
    held: *mut c_void,
    names: BTreeMap<Vec<u8>, usize>,
}

impl Selector {
    fn read(text: &[u8]) -> Result<Selector, Fault> {
        let (mut selector, mut fault) = (Selector { held: ptr::null_mut(), names: BTreeMap::new() }, Fault::none());
        // SAFETY: the pointer and the length of one slice, no selector yet and an empty fault.
        let code =
            unsafe { raw::haya_selector_read(text.as_ptr(), text.len(), &mut 0, &mut selector.held, &mut fault) };
        if code != OK {
            return Err(fault);
        }
        // SAFETY: a selector that was read, and the room of a vector.
        for number in 0..unsafe { raw::haya_selector_names(selector.held) } {
            let name = text_of(|room, room_len, len| unsafe {
                raw::haya_selector_name(selector.held, number, room, room_len, len)
            });
            selector.names.insert(name.unwrap_or_default(), number);
        }
        Ok(selector)
    }

    /// The line of the next hit, with the text that is asked for and without its end; or none where no more come.
    fn next_line(&self, library: &Library, place: &mut usize, asked: Option<(&[u8], Form)>) -> Option<Vec<u8>> {
        let mut bound = vec![Entry::NOWHERE; self.names.values().max().map_or(1, |last| last + 1)];
        let mut hit = Entry::NOWHERE;
        // SAFETY: a library and a selector that were read, and the slots of a vector that has some.
        let code = unsafe {
            raw::haya_library_next(library.0, self.held, place, &mut hit, bound.as_mut_ptr(), bound.len())
        };
        if code != OK {
            return None;
        }
        let mut line = library.key(&hit);
        if let Some(text) = asked.and_then(|asked| library.text(&hit, asked)) {
            line.push(b'\t');
            line.extend(text);
        }
        for (name, number) in &self.names {
            if bound[*number] != Entry::NOWHERE {
                for part in [b"\t", name.as_slice(), b"=", &library.key(&bound[*number])] {
                    line.extend(part);
                }
            }
        }
        Some(line)
    }
}

impl Drop for Selector {
    fn drop(&mut self) {
        // SAFETY: null, or a selector that was read.
        unsafe { raw::haya_selector_free(self.held) };
    }
}

fn print(text: &[u8], selector: &[u8], asked: Option<(&[u8], Form)>) -> Result<io::Result<()>, Fault> {
    let library = Library::read(text)?;
    let selector = Selector::read(selector)?;
    let (mut out, mut place) = (io::stdout().lock(), 0);
    while let Some(mut line) = selector.next_line(&library, &mut place, asked) {
        line.push(b'\n');
        if let Err(error) = out.write_all(&line) {
            return Ok(Err(error));
        }
    }
    Ok(Ok(()))
}

fn main() -> io::Result<ExitCode> {
    let words: Vec<_> = env::args_os().skip(1).collect();
    let words: Vec<_> = words.iter().map(|word| word.as_bytes()).collect();
    let asked = match words[..] {
        [_, field, form] => Form::named(form).map(|form| (field, form)),
        _ => None,
    };
    let ([selector, ..], VERSION, true) = (&words[..], raw::haya_version(), words.len() == if asked.is_some() { 3 } else { 1 })
    else {
        eprintln!("usage: client SELECTOR [FIELD marked-up|plain|short]");
        return Ok(ExitCode::from(2));
    };
    let mut text = Vec::new();
    io::stdin().read_to_end(&mut text)?;
    match print(&text, selector, asked) {
        Ok(printed) => printed.map(|()| ExitCode::SUCCESS),
        Err(fault) => {
            let mut said = fault.complaint();
            said.push(b'\n');
            io::stderr().write_all(&said)?;
            Ok(ExitCode::FAILURE)
        }
    }
}
