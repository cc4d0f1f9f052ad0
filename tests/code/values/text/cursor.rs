//! A reader's place in a text.
use haya_text::cursor::Cursor;

// Whether the cursor is at that place, with that text left.
fn is_at(cursor: &Cursor, place: usize, rest: &str) -> bool {
    cursor.place() == place && cursor.rest() == rest
}

// Characters of one, two and three bytes.
#[test]
fn goes_through_a_text(rt: HostRuntime) {
    let mut cursor = Cursor::new("aé \u{2003}n");
    assert!(rt; cursor.peek() == Some('a') && cursor.eat() == Some('a'));
    assert!(rt; !cursor.eat_if('e') && cursor.eat_if('é'));
    assert!(rt; is_at(&cursor, 3, " \u{2003}n"));
    cursor.eat_whitespace();
    assert!(rt; is_at(&cursor, 7, "n"));
}

fn is_letter_or_digit(c: char) -> bool {
    c.is_ascii_alphanumeric()
}

fn is_any(_c: char) -> bool {
    true
}

// Whether the cursor is at the end, where nothing is left to be taken.
fn is_at_end(cursor: &mut Cursor) -> bool {
    cursor.eat().is_none() && cursor.peek().is_none() && cursor.eat_while(is_any).is_empty()
}

#[test]
fn a_fork_goes_to_the_end(rt: HostRuntime) {
    let mut cursor = Cursor::new("én12;");
    assert!(rt; cursor.eat() == Some('é'));
    let mut ahead = cursor.fork();
    let taken = ahead.eat_while(is_letter_or_digit);
    assert!(rt; taken == "n12" && is_at(&ahead, 5, ";"));
    assert!(rt; ahead.eat() == Some(';') && is_at_end(&mut ahead));
    assert!(rt; is_at(&ahead, 6, "") && is_at(&cursor, 2, "n12;"));
}
