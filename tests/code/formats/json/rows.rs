//! What is read.
use super::shown::put_library;
use haya_json::read_library;
use std::process::Abort;

// A library, and what it shows as.
const LIBRARIES: &[(&str, &str)] = &[
    (r#"{}"#, ""),
    // the order is the text's; a type by either spelling
    (
        r#"{"b": {"type": "book"}, "a": {"type": "Article"}}"#,
        "b Book \na Article \n",
    ),
    // null is as if it weren't there, and a member of another name is passed over
    (
        r#"{"a": {"x-note": [1], "type": "misc", "title": null, "key": "b", "parent": null}}"#,
        "a Misc \n",
    ),
    // a parent alone, a list, and none; its type is the default of the entry below it
    (
        r#"{"a": {"type": "article", "parent": {"title": "T", "parent": {"type": "web"}}}}"#,
        "a Article (a Periodical title=T;(a Web ))\n",
    ),
    (
        r#"{"a": {"parent": [{}, {"type": "blog"}, {}], "type": "chapter"}}"#,
        "a Chapter (a Book )(a Blog )(a Book )\n",
    ),
    (r#"{"b": {"type": "misc", "parent": []}}"#, "b Misc \n"),
    // a parent's own key, which its parents have too
    (
        r#"{"a": {"type": "anthos", "parent": {"parent": {}, "key": "k", "title": "T"}}}"#,
        "a Anthos (k Anthology title=T;(k Misc ))\n",
    ),
];

// The members of an entry, and what its fields show as.
const FIELDS: &[(&str, &str)] = &[
    // texts: with marks, as a number, with a short form, as they stand
    (r#""title": "A {Tale} of $x$""#, "title=A {Tale} of $x$;"),
    (
        r#""title": 1984, "location": 1.50"#,
        "title=1984;location=1.50;",
    ),
    (
        r#""title": {"value": "A {B}", "short": "$b$"}"#,
        "title=A {B}|$b$;",
    ),
    (r#""title": {"value": "A", "short": null}"#, "title=A;"),
    (
        r#""title": {"value": "a}b$c", "verbatim": true}"#,
        r"title={a\}b\$c};",
    ),
    (
        r#""title": {"value": "a {b}", "verbatim": false}"#,
        "title=a {b};",
    ),
    (r#""title": {"value": "", "verbatim": true}"#, "title=;"),
    (
        r#""note": {"value": {"value": "x", "verbatim": true}, "short": {"value": "y"}}"#,
        "note={x}|y;",
    ),
    (
        r#""genre": "g", "abstract": "a", "call-number": "c", "archive-location": "l""#,
        "archive-location=l;call-number=c;abstract=a;genre=g;",
    ),
    (
        r#""archive": "a", "organization": "o""#,
        "organization=o;archive=a;",
    ),
    // persons: a text, an object, a list, and none
    (
        r#""author": "van der Berg, Jr., Jan""#,
        "author=Berg<van der>Jan+Jr.&;",
    ),
    (
        r#""author": [], "editor": ["Doe, Jane", "ACM"]"#,
        "author=;editor=Doe>Jane&ACM&;",
    ),
    (
        r#""author": {"name": "a, b", "given-name": "G", "prefix": "p", "alias": "A"}"#,
        "author=a, b<p>G@A&;",
    ),
    (
        r#""author": {"suffix": "s", "comma-suffix": true, "name": "N"}"#,
        "author=N+s,&;",
    ),
    (
        r#""editor": [{"name": "N", "alias": null, "comma-suffix": false}]"#,
        "editor=N&;",
    ),
    (
        r#""affiliated": {"role": "translator", "names": "Roe, R"}"#,
        "translator=Roe>R&;",
    ),
    (
        r#""affiliated": [{"role": "cast-member", "names": ["A", "B"]}]"#,
        "cast-member=A&B&;",
    ),
    (
        r#""affiliated": [{"names": [], "role": "translator"}]"#,
        "translator=;",
    ),
    // dates: a text, a year, and an object whose months and days count from 0
    (r#""date": "2014-05-01""#, "date=2014-05-01;"),
    (r#""date": 2014"#, "date=2014;"),
    (r#""date": -44"#, "date=-0044;"),
    (
        r#""date": {"year": 2014, "month": 4, "day": 0, "approximate": true, "season": 2}"#,
        "date=~2014-05-01;Su;",
    ),
    (r#""date": {"year": 12, "season": 5}"#, "date=0012;"),
    (
        r#""date": {"year": 12, "season": 4, "month": null}"#,
        "date=0012;Wi;",
    ),
    // publishers and addresses
    (r#""publisher": "{ACM} x""#, "publisher;name={ACM} x;"),
    (
        r#""publisher": {"name": {"value": "a", "short": "b"}, "location": "c"}"#,
        "publisher;name=a|b;at=c;",
    ),
    (r#""publisher": {}"#, "publisher;"),
    (r#""url": "https://a.org/{x}""#, "url=https://a.org/{x};"),
    (
        r#""url": {"value": "a}b", "date": {"year": 2020}}"#,
        "url=a}b;visit=2020;",
    ),
    // numbers: whole, as a text, and as a text that is none
    (
        r#""volume": 2, "issue": "3rd", "chapter": "second", "edition": -7"#,
        "issue=[3rd];chapter=second;volume=[2];edition=[-7];",
    ),
    (
        r#""volume-total": "1, 2", "page-total": 349"#,
        "volume-total=1, 2;page-total=349;",
    ),
    (r#""page-range": 17"#, "page-range=[17];"),
    (r#""page-range": "3-5, 9""#, "page-range=[3-5, 9];"),
    (r#""page-range": "11E201""#, "page-range=11E201;"),
    // times
    (r#""runtime": "90:00""#, "runtime=[01:30:00];"),
    (r#""runtime": 90"#, "runtime=90;"),
    (
        r#""time-range": "01:00 - 02:00""#,
        "time-range=[01:00-02:00];",
    ),
    (
        r#""time-range": {"start": "01:00", "end": "90:00"}"#,
        "time-range=[01:00-01:30:00];",
    ),
    // serial numbers
    (
        r#""serial-number": {"isbn": "978", "doi": "10/x", "n": 4.0, "pmid": null}"#,
        "serial-number;doi:10/x;isbn:978;n:4.0;",
    ),
    (r#""serial": "A 1""#, "serial-number;serial:A 1;"),
    (r#""serial-number": 12"#, "serial-number;serial:12;"),
    (r#""serial": {}"#, "serial-number;"),
    (r#""language": "de""#, "language=de;"),
];

// Whether the text reads as the library that shows so.
fn shows(rt: &(impl Abort + AllocGlobal), text: &str, wanted: &str) -> bool {
    let (library, _notes) = read_library(rt.alloc(), text).expect(rt, "a library");
    let mut shown = String::new(rt.alloc());
    put_library(&mut shown, &library).expect(rt, "memory");
    drop(library);
    shown.as_str() == wanted
}

#[test]
fn reads_libraries(rt: HostRuntime) {
    for (text, wanted) in LIBRARIES {
        assert!(rt; shows(&rt, *text, *wanted), "{text}");
    }
}

#[test]
fn reads_fields(rt: HostRuntime) {
    for (members, wanted) in FIELDS {
        let text = format!(in rt.alloc(); "{{\"k\": {{\"type\": \"misc\", {members}}}}}");
        let wanted = format!(in rt.alloc(); "k Misc {wanted}\n");
        let text = text.expect(&rt, "memory");
        let wanted = wanted.expect(&rt, "memory");
        assert!(rt; shows(&rt, text.as_str(), wanted.as_str()), "{members}");
    }
}
