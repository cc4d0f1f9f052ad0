/* Tries each call of the header, also where it is used badly: prints a line for what isn't as it should be, and then
 * `N passed, N failed`. */
#include "hayagriva.h"

#include <stdio.h>
#include <stdlib.h>
#include <string.h>

static int passed, failed;

static void is(bool holds, const char *what) {
    if (holds) {
        passed++;
    } else {
        failed++;
        printf("FAILED  %.80s\n", what);
    }
}

#define TEXT(words) (words), strlen(words)

static bool says(haya_text text, const char *words) {
    return text.len == strlen(words) && (text.len == 0 || memcmp(text.at, words, text.len) == 0);
}

static bool shows(const char *room, size_t len, const char *words) {
    return len == strlen(words) && memcmp(room, words, len) == 0;
}

static const char *const lines =
    "0\tdependence\tarticle\ttitle=A {Text}\tauthor=Ferrante, Jeanne\tauthor=van Dissmer, Courtney\tdate=1987-07\t"
    "page-range=319-349\tdoi=10.1145/24039.24041\taffiliated=holder:Kwan, Kevin\n"
    "1\ttoplas\tperiodical\tissue=3\tvolume=the ninth\tpublisher=ACM\turl=https://acm.org\n"
    "2\tgroup\tmisc\truntime=04:33\n"
    "1\tother\tblog\n"
    "0\tfeminism\tarticle\tlanguage=en\n"
    "1\taeon\tblog\n";

static haya_library *library_of(const char *text, uint32_t format) {
    haya_library *library = NULL;
    haya_fault fault = HAYA_NO_FAULT;
    is(haya_library_read(TEXT(text), format, 1, 2, &library, &fault) == HAYA_OK && library != NULL && fault.words == NULL, text);
    return library;
}

static haya_selector *selector_of(const char *text) {
    haya_selector *selector = NULL;
    haya_fault fault = HAYA_NO_FAULT;
    size_t used = 0;
    is(haya_selector_read(TEXT(text), &used, &selector, &fault) == HAYA_OK && used > 0 && fault.code == 0, text);
    return selector;
}

/* Reads a text that is refused. */
static void refused(const char *text, size_t len, uint32_t format, uint32_t code, size_t line, size_t column,
                    const char *pointer, const char *reason) {
    haya_library *library = NULL;
    haya_fault fault = HAYA_NO_FAULT;
    is(haya_library_read(text, len, format, 1, 2, &library, &fault) == code && library == NULL, reason);
    is(fault.code == code && fault.line == line && fault.column == column && fault.offset == 0, reason);
    is(says(fault.pointer, pointer) && says(fault.name, "") && says(fault.reason, reason), reason);
    for (int i = 0; i < 2; i++) {
        haya_fault_free(&fault);
        is(fault.code == HAYA_OK && fault.reason.len == 0 && fault.words == NULL, "a fault is freed more than once");
    }
}

#define LINE(text, code, line, reason) refused(TEXT(text), HAYA_LINES, code, line, 0, "", reason)

static void inputs(void) {
    LINE("0\ta", HAYA_LINE_SHAPE, 1, "line 1: shape");
    LINE("\n1\ta\tbook", HAYA_LINE_DEPTH, 2, "line 2: depth");
    LINE("0\ta\tboook", HAYA_LINE_TYPE, 1, "line 1: type");
    LINE("0\ta\tbook\n0\ta\tbook\ttitel=x", HAYA_LINE_FIELD, 2, "line 2: field");
    LINE("0\ta\tbook\tdate=then", HAYA_LINE_VALUE, 1, "line 1: value");
    LINE("\xff", HAYA_NOT_TEXT, 0, "");
    LINE("0\ta\tbook\ttitle=\xe2\x80", HAYA_NOT_TEXT, 0, "");
    LINE("0\ta\tbook\ttitle=\xed\xa0\x80", HAYA_NOT_TEXT, 0, "");
    refused(TEXT("{"), HAYA_JSON, HAYA_NOT_JSON, 1, 2, "", "line 1, column 2: invalid JSON");
    refused(TEXT("{\"a\": {\"type\": \"book\"},\n \"a\": {\"type\": \"book\"}}"), HAYA_JSON, HAYA_NAME_TWICE, 2, 2, "",
            "line 2, column 2: duplicate member");
    refused(TEXT("{\"a/b\": [\"article\"]}"), HAYA_JSON, HAYA_REFUSED_VALUE, 0, 0, "/a~1b", "/a~1b: expected an object");
    refused(TEXT("[{\"type\": \"book\"}]"), HAYA_CSL, HAYA_REFUSED_VALUE, 0, 0, "/0/id", "/0/id: missing");
    refused(TEXT("\n{\"key\": \"a\", \"entry\": 1}"), HAYA_JSON_LINES, HAYA_REFUSED_VALUE, 2, 0, "/entry",
            "line 2: /entry: expected an object");
    refused(TEXT("k:\n  type: book\n  title: A: B\n"), HAYA_YAML, HAYA_NOT_YAML, 3, 11, "",
            "line 3, column 11: nested key: put a value with a colon in quotes");
    refused(TEXT("\nk: book\n"), HAYA_GUESSED, HAYA_REFUSED_VALUE, 2, 0, "/k", "line 2: /k: expected an object");
    refused(TEXT("@book{a title"), HAYA_BIBTEX, HAYA_NOT_BIBTEX, 1, 9, "",
            "line 1, column 9: no comma: expected a comma or the closing bracket");
    refused(TEXT("\xef\xbb\xbf{"), HAYA_JSON, HAYA_NOT_JSON, 1, 2, "", "line 1, column 2: invalid JSON");
    refused(TEXT("\xef\xbb\xbf\n@book{a title"), HAYA_GUESSED, HAYA_NOT_BIBTEX, 2, 9, "",
            "line 2, column 9: no comma: expected a comma or the closing bracket");
    refused(TEXT("\xff"), HAYA_GUESSED, HAYA_NOT_TEXT, 0, 0, "", "");
    refused(TEXT("{}"), 7, HAYA_NO_FORMAT, 0, 0, "", "");
    refused(TEXT("{}"), UINT32_MAX, HAYA_NO_FORMAT, 0, 0, "", "");
    haya_library *library = library_of("\n\n", HAYA_LINES);
    is(haya_library_len(library) == 0, "empty lines");
    haya_fault fault = HAYA_NO_FAULT;
    is(haya_library_read("0\ta\0b\tbook", 10, HAYA_LINES, 0, 0, &library, &fault) == HAYA_OK, "a 0 byte in a key");
    is(haya_library_len(library) == 1, "what the pointer led to before is freed");
    is(haya_library_read("1", 1, HAYA_LINES, 0, 0, &library, &fault) == HAYA_LINE_SHAPE, "a text that is refused");
    is(haya_library_len(library) == 1, "the library stays where a text is refused");
    is(haya_library_read("2", 1, HAYA_LINES, 0, 0, &library, &fault) == HAYA_LINE_SHAPE && says(fault.reason, "line 1: shape"),
       "a fault is filled again");
    is(haya_library_read("", 0, HAYA_LINES, 0, 0, &library, &fault) == HAYA_OK && haya_library_len(library) == 0, "no bytes");
    haya_fault_free(&fault);
    haya_library_free(library);
    haya_library_free(NULL);
    haya_selector_free(NULL);
}

static void no_selector(const char *text, size_t len, uint32_t code, size_t offset, const char *name, const char *reason) {
    haya_selector *selector = NULL;
    haya_fault fault = HAYA_NO_FAULT;
    size_t used = 77;
    is(haya_selector_read(text, len, &used, &selector, &fault) == code && selector == NULL && used == 77, reason);
    is(fault.code == code && fault.offset == offset && fault.line == 0, reason);
    is(says(fault.name, name) && says(fault.reason, reason), reason);
    haya_fault_free(&fault);
}

static void ends_at(const char *text, size_t end) {
    haya_selector *selector = NULL;
    haya_fault fault = HAYA_NO_FAULT;
    size_t used = 77;
    is(haya_selector_read(TEXT(text), &used, &selector, &fault) == HAYA_OK && used == end, text);
    haya_selector_free(selector);
}

/* A text of `first`, then `number` times `again`, which has the number where it has %zu, and `last`. */
static char *repeated(const char *first, const char *again, size_t number, const char *last) {
    size_t room = strlen(first) + number * (strlen(again) + 8) + strlen(last) + 1, len = 0;
    char *text = malloc(room);
    if (text == NULL) exit(1);
    len += (size_t)snprintf(text, room, "%s", first);
#pragma GCC diagnostic push
#pragma GCC diagnostic ignored "-Wformat-nonliteral"
    for (size_t n = 1; n <= number; n++) len += (size_t)snprintf(text + len, room - len, again, n);
#pragma GCC diagnostic pop
    snprintf(text + len, room - len, "%s", last);
    return text;
}

/* How many parentheses may be open at once: 1,000, in all of the text. One that is closed doesn't count, and one that closes nothing
 * neither, nor do the names and the other signs. */
static void nested(void) {
    static const char *const closed[][3] = {{"(*)", "|(*)", ""}, {"n0:*", " & n%zu:*", ""}, {"*", "|!(a:*[doi] > (b:*))", ""}};
    static const size_t numbers[] = {4999, 2999, 2000};
    char *text = repeated("", "(", 1000, "");
    no_selector(text, 1000, HAYA_MISSING_VALUE, 1000, "", "byte 1000: missing value");
    free(text), text = repeated("", "(", 1001, "");
    no_selector(text, 1001, HAYA_TOO_DEEP, 0, "", "");
    free(text), text = repeated("(*)|(*)|", "(", 1001, "*");
    no_selector(TEXT(text), HAYA_TOO_DEEP, 0, "", "");
    free(text), text = repeated("*)", "(", 1000, "");
    ends_at(text, 1);
    free(text), text = repeated("*)", "(", 1001, "");
    no_selector(TEXT(text), HAYA_TOO_DEEP, 0, "", "");
    free(text);
    for (size_t i = 0; i < sizeof numbers / sizeof *numbers; i++) {
        text = repeated(closed[i][0], closed[i][1], numbers[i], closed[i][2]);
        ends_at(text, strlen(text));
        free(text);
    }
}

static void selectors(void) {
    no_selector(TEXT(""), HAYA_MISSING_VALUE, 0, "", "byte 0: missing value");
    no_selector(TEXT("* >"), HAYA_MISSING_VALUE, 3, "", "byte 3: missing value");
    no_selector(TEXT("*[1"), HAYA_MALFORMED_ATTRIBUTE, 2, "", "byte 2: malformed attribute");
    no_selector(TEXT("book[doi"), HAYA_MISSING_COMMA, 8, "", "byte 8: missing comma");
    no_selector(TEXT("(book"), HAYA_UNBALANCED_PARENTHESES, 5, "", "byte 5: unbalanced parentheses");
    no_selector(TEXT("* > Boook"), HAYA_UNKNOWN_TYPE, 4, "boook", "byte 4: unknown entry type");
    no_selector(TEXT("book\xe2\x80"), HAYA_NOT_TEXT, 0, "", "");
    no_selector("\0*", 2, HAYA_MISSING_VALUE, 0, "", "byte 0: missing value");
    nested();
    ends_at("*", 1);
    ends_at(" book  ", 5);
    ends_at("article, book", 7);
    ends_at("article)", 7);
    ends_at("a:article > b:periodical[ issn ] video", 32);
    char room[4];
    size_t len = 7;
    haya_selector *selector = selector_of("long:* > (b:book | b:blog)");
    is(haya_selector_names(selector) == 3, "its names");
    is(haya_selector_name(selector, 0, room, sizeof room, &len) == HAYA_OK && shows(room, len, "long"), "the first name");
    is(haya_selector_name(selector, 2, room, sizeof room, &len) == HAYA_OK && shows(room, len, "b"), "the last name");
    is(haya_selector_name(selector, 3, room, sizeof room, &len) == HAYA_NO_FIELD && len == 0, "no more names");
    memset(room, '.', sizeof room);
    is(haya_selector_name(selector, 0, room, 2, &len) == HAYA_OK && len == 4 && memcmp(room, "lo..", 4) == 0, "a name is cut");
    /* Pointers in each other's place. */
    haya_library *library = library_of(lines, HAYA_LINES);
    haya_entry entry = {0, 0}, bound[1];
    size_t place = 0;
    bool holds = true;
    is(haya_library_len((haya_library *)selector) == 0 && haya_selector_names((haya_selector *)library) == 0, "another kind");
    is(haya_library_next((haya_library *)selector, selector, &place, &entry, bound, 1) == HAYA_WRONG_KIND && place == 0,
       "a selector isn't a library");
    is(haya_library_next(library, (haya_selector *)library, &place, &entry, bound, 1) == HAYA_WRONG_KIND && place == 0,
       "a library isn't a selector");
    is(haya_entry_matches(library, (haya_selector *)library, &entry, &holds) == HAYA_WRONG_KIND && holds, "nor is it asked");
    haya_library_free(library);
    haya_selector_free(selector);
}

static bool has_key(const haya_library *library, haya_entry entry, const char *key) {
    char room[64];
    size_t len;
    return haya_entry_key(library, &entry, room, sizeof room, &len) == HAYA_OK && shows(room, len, key);
}

static void hits(void) {
    haya_library *library = library_of(lines, HAYA_LINES);
    haya_selector *selector = selector_of("z:* > (a:blog | b:misc)");
    haya_entry hit = {7, 7}, bound[4] = {{7, 7}, {7, 7}, {7, 7}, {7, 7}};
    size_t place = 0;
    is(haya_library_len(library) == 2, "two entries");
    is(haya_library_next(library, selector, &place, &hit, bound, 4) == HAYA_OK && place == 1, "the first hit");
    is(hit.place == 0 && hit.step == 0 && has_key(library, hit, "dependence"), "its entry");
    is(bound[0].place == 0 && bound[0].step == 0, "the entry itself by its name");
    is(has_key(library, bound[1], "other") && bound[1].step == 3, "the second parent, behind the ancestors of the first");
    is(bound[2].place == HAYA_NOWHERE.place && bound[2].step == HAYA_NOWHERE.step, "a name that stands for nothing");
    is(bound[3].place == 7 && bound[3].step == 7, "no name has this slot");
    is(haya_library_next(library, selector, &place, &hit, bound, 2) == HAYA_OK && place == 2, "the second hit, with less room");
    is(has_key(library, hit, "feminism") && has_key(library, bound[1], "aeon"), "its parent");
    for (int i = 0; i < 2; i++) {
        is(haya_library_next(library, selector, &place, &hit, bound, 4) == HAYA_END && place == 2, "no more hits");
    }
    is(has_key(library, hit, "feminism"), "the hit stays at the end");
    place = SIZE_MAX;
    is(haya_library_next(library, selector, &place, &hit, bound, 4) == HAYA_END && place == 2, "a place far behind");
    bool holds = false;
    is(haya_entry_matches(library, selector, &hit, &holds) == HAYA_OK && holds, "it holds there");
    hit.step = 1;
    is(haya_entry_matches(library, selector, &hit, &holds) == HAYA_OK && !holds, "it doesn't hold at the parent");
    hit.step = 2;
    holds = true;
    is(haya_entry_matches(library, selector, &hit, &holds) == HAYA_NO_ENTRY && holds, "no entry is asked");
    haya_selector_free(selector);
    haya_library_free(library);
}

static void field(const haya_library *library, haya_entry entry, const char *name, const char *words) {
    char room[128];
    size_t len = 7;
    uint32_t code = haya_entry_text(library, &entry, TEXT(name), room, sizeof room, &len);
    is(words == NULL ? code == HAYA_NO_FIELD && len == 0 : code == HAYA_OK && shows(room, len, words), name);
}

/* The text of a field in a form, or, where `words` is NULL, the code without one. */
static void formed(const haya_library *library, haya_entry entry, const char *name, uint32_t form, uint32_t code, const char *words) {
    char room[128] = "....";
    size_t len = 7;
    uint32_t got = haya_entry_text_as(library, &entry, TEXT(name), form, room, sizeof room, &len);
    is(got == code && (words == NULL ? len == 0 && memcmp(room, "....", 4) == 0 : shows(room, len, words)), name);
}

/* Texts in each form. */
static void forms(void) {
    haya_library *library = library_of(
        "{\"a\": {\"type\": \"book\", \"title\": {\"value\": \"The {ACM} of $x^2$ \\\\{s\\\\}\", \"short\": \"{ACM} $x$\"},"
        " \"note\": \"A {B}\", \"publisher\": {\"name\": {\"value\": \"{P} House\", \"short\": \"{P}\"}}, \"author\": \"Lee, Ann\","
        " \"date\": \"1987-07\", \"volume\": \"the {9}\", \"serial-number\": {\"doi\": \"10/{x}\"}, \"url\": \"https://a.org\"}}", HAYA_JSON);
    static const char *const names[] = {"author", "date", "volume", "doi", "url"};
    static const char *const texts[] = {"Lee, Ann\n", "1987-07", "the {9}", "10/{x}", "https://a.org"};
    const haya_entry a = {0, 0}, no = {1, 0};
    formed(library, a, "title", HAYA_MARKED_UP, HAYA_OK, "The {ACM} of $x^2$ \\{s\\}");
    formed(library, a, "title", HAYA_PLAIN, HAYA_OK, "The ACM of $x^2$ {s}");
    formed(library, a, "title", HAYA_SHORT, HAYA_OK, "ACM $x$");
    formed(library, a, "note", HAYA_MARKED_UP, HAYA_OK, "A {B}");
    formed(library, a, "note", HAYA_PLAIN, HAYA_OK, "A B");
    formed(library, a, "note", HAYA_SHORT, HAYA_OK, "A B");
    formed(library, a, "publisher", HAYA_MARKED_UP, HAYA_OK, "{P} House");
    formed(library, a, "publisher", HAYA_PLAIN, HAYA_OK, "P House");
    formed(library, a, "publisher", HAYA_SHORT, HAYA_OK, "P");
    for (size_t i = 0; i < sizeof names / sizeof *names; i++) {
        for (uint32_t form = HAYA_MARKED_UP; form <= HAYA_SHORT; form++) formed(library, a, names[i], form, HAYA_OK, texts[i]);
    }
    for (uint32_t form = HAYA_MARKED_UP; form <= HAYA_SHORT; form++) {
        formed(library, a, "genre", form, HAYA_NO_FIELD, NULL);
        formed(library, a, "affiliated", form, HAYA_NO_FIELD, NULL);
        formed(library, a, "no-such-field", form, HAYA_NO_FIELD, NULL);
        formed(library, a, "\xff", form, HAYA_NO_FIELD, NULL);
        formed(library, no, "title", form, HAYA_NO_ENTRY, NULL);
    }
    static const uint32_t others[] = {3, 4, 256, 65536, 1u << 31, UINT32_MAX};
    for (size_t i = 0; i < sizeof others / sizeof *others; i++) {
        formed(library, a, "title", others[i], HAYA_NO_FORMAT, NULL);
        formed(library, a, "genre", others[i], HAYA_NO_FORMAT, NULL);
        formed(library, no, "title", others[i], HAYA_NO_FORMAT, NULL);
    }
    char room[8] = ".......";
    size_t len = 7;
    is(haya_entry_text_as(library, &a, TEXT("title"), HAYA_SHORT, room, 3, &len) == HAYA_OK && len == 7 && memcmp(room, "ACM.", 4) == 0, "a form is cut");
    is(haya_entry_text_as(library, &a, TEXT("title"), HAYA_SHORT, room, 0, &len) == HAYA_OK && len == 7 && memcmp(room, "ACM.", 4) == 0, "no room for a form");
    haya_selector *selector = selector_of("*");
    formed((haya_library *)selector, a, "title", HAYA_PLAIN, HAYA_NO_ENTRY, NULL);
    formed((haya_library *)selector, a, "title", 3, HAYA_NO_FORMAT, NULL);
    haya_selector_free(selector);
    haya_library_free(library);
}

static void entries(void) {
    haya_library *library = library_of(lines, HAYA_LINES);
    haya_entry entry = {7, 7}, parent = {7, 7};
    char room[16];
    size_t len;
    is(haya_library_get(library, TEXT("toplas"), &entry) == HAYA_NO_ENTRY && entry.place == 7, "no entry of the library");
    is(haya_library_get(library, TEXT("depend\xff"), &entry) == HAYA_NO_ENTRY, "a key that isn't UTF-8");
    is(haya_library_get(library, TEXT("feminism"), &entry) == HAYA_OK && entry.place == 1 && entry.step == 0, "by key");
    is(haya_library_get(library, TEXT("dependence"), &entry) == HAYA_OK && entry.place == 0, "the first");
    is(haya_entry_type(library, &entry, room, sizeof room, &len) == HAYA_OK && shows(room, len, "Article"), "its type");
    is(haya_entry_has(library, &entry, TEXT("doi")) && !haya_entry_has(library, &entry, TEXT("isbn")), "its names");
    is(!haya_entry_has(library, &entry, TEXT("\xff")) && !haya_entry_has(library, &entry, TEXT("")), "no such names");
    field(library, entry, "title", "A {Text}");
    field(library, entry, "author", "Ferrante, Jeanne\nvan Dissmer, Courtney\n");
    field(library, entry, "date", "1987-07");
    field(library, entry, "page-range", "319-349");
    field(library, entry, "doi", "10.1145/24039.24041");
    field(library, entry, "affiliated", NULL);
    field(library, entry, "note", NULL);
    field(library, entry, "no-such-field", NULL);
    field(library, entry, "\xff", NULL);
    memset(room, '.', sizeof room);
    is(haya_entry_text(library, &entry, TEXT("doi"), room, 5, &len) == HAYA_OK && len == 19 && memcmp(room, "10.11.", 6) == 0,
       "a text is cut to its room");
    is(haya_entry_text(library, &entry, TEXT("doi"), room, 0, &len) == HAYA_OK && len == 19, "no room");
    is(haya_entry_parents(library, &entry) == 2, "its parents");
    is(haya_entry_parent(library, &entry, 1, &parent) == HAYA_OK && parent.step == 3 && has_key(library, parent, "other"),
       "its second parent");
    is(haya_entry_parent(library, &entry, 2, &parent) == HAYA_NO_ENTRY && parent.step == 3, "no third parent");
    is(haya_entry_parent(library, &entry, SIZE_MAX, &parent) == HAYA_NO_ENTRY, "nor one far behind");
    is(haya_entry_parent(library, &entry, 0, &parent) == HAYA_OK && parent.step == 1, "its first parent");
    field(library, parent, "issue", "3");
    field(library, parent, "volume", "the ninth");
    field(library, parent, "publisher", "ACM");
    field(library, parent, "url", "https://acm.org");
    entry = parent;
    is(haya_entry_parent(library, &entry, 0, &parent) == HAYA_OK && parent.step == 2, "the parent's parent");
    is(haya_entry_type(library, &parent, room, sizeof room, &len) == HAYA_OK && shows(room, len, "Misc"), "its type");
    is(haya_entry_parents(library, &parent) == 0, "no more parents");
    const haya_entry nothing[] = {{0, 4}, {2, 0}, {0, SIZE_MAX}, {SIZE_MAX, 0}, HAYA_NOWHERE};
    for (size_t i = 0; i < sizeof nothing / sizeof *nothing; i++) {
        is(haya_entry_key(library, &nothing[i], room, sizeof room, &len) == HAYA_NO_ENTRY && len == 0, "the key of nothing");
        is(haya_entry_type(library, &nothing[i], room, sizeof room, &len) == HAYA_NO_ENTRY && len == 0, "the type of nothing");
        is(haya_entry_json(library, &nothing[i], room, sizeof room, &len) == HAYA_NO_ENTRY && len == 0, "the JSON of nothing");
        is(haya_entry_text(library, &nothing[i], TEXT("doi"), room, sizeof room, &len) == HAYA_NO_ENTRY, "the text of nothing");
        is(haya_entry_text_as(library, &nothing[i], TEXT("doi"), HAYA_SHORT, room, sizeof room, &len) == HAYA_NO_ENTRY, "a form of nothing");
        is(haya_entry_parents(library, &nothing[i]) == 0 && !haya_entry_has(library, &nothing[i], TEXT("doi")), "nothing has none");
        is(haya_entry_parent(library, &nothing[i], 0, &parent) == HAYA_NO_ENTRY && parent.step == 2, "no parent of nothing");
    }
    haya_library_free(library);
}

/* Whether the entry at this step has the key and the issue of this number, has a DOI where that is odd, is a blog there and otherwise a
 * book, and is one that the selector holds at there; and whether each call answers so. */
static bool is_step(const haya_library *library, const haya_selector *odd, size_t step, size_t number) {
    const haya_entry entry = {1, step};
    char room[128], key[16], issue[16], json[96];
    size_t len;
    bool holds = number % 2 == 0;
    snprintf(key, sizeof key, "p%zu", number), snprintf(issue, sizeof issue, "%zu", number);
    snprintf(json, sizeof json, "{\"key\":\"p%zu\",\"entry\":{\"type\":\"%s\",", number, number % 2 == 1 ? "blog" : "book");
    return has_key(library, entry, key) && haya_entry_text(library, &entry, TEXT("issue"), room, sizeof room, &len) == HAYA_OK
           && shows(room, len, issue) && haya_entry_type(library, &entry, room, sizeof room, &len) == HAYA_OK
           && shows(room, len, number % 2 == 1 ? "Blog" : "Book") && haya_entry_has(library, &entry, TEXT("doi")) == (number % 2 == 1)
           && haya_entry_json(library, &entry, room, sizeof room, &len) == HAYA_OK && len >= strlen(json) && memcmp(room, json, strlen(json)) == 0
           && haya_entry_matches(library, odd, &entry, &holds) == HAYA_OK && holds == (number % 2 == 1);
}

/* An entry, behind another one, with as many parents as most selectors never see, each with a parent of its own: the ancestors' steps
 * go to 6,000, and each call reads the right one. */
static void many(void) {
    enum { PARENTS = 3000 };
    haya_library *library = NULL;
    haya_fault fault = HAYA_NO_FAULT;
    haya_selector *odd = selector_of("blog[doi]"), *last = selector_of("* > last:book[note]");
    size_t room = PARENTS * 64, len = (size_t)0, place = 0;
    char *text = malloc(room);
    if (text == NULL) exit(1);
    len += (size_t)snprintf(text, room, "0\tother\tbook\n0\tk\tarticle\n");
    for (size_t n = 1; n <= 2 * PARENTS; n++) {
        len += (size_t)snprintf(text + len, room - len, "%d\tp%zu\t%s\tissue=%zu%s%s\n", n % 2 == 1 ? 1 : 2, n, n % 2 == 1 ? "blog" : "book", n,
                                n % 2 == 1 ? "\tdoi=10/" : "", n == 2 * PARENTS ? "\tnote=last" : "");
    }
    len += (size_t)snprintf(text + len, room - len, "1\tp%d\tbook\tissue=%d\tnote=last\n", 2 * PARENTS + 1, 2 * PARENTS + 1);
    is(haya_library_read(text, len, HAYA_LINES, 1, 2, &library, &fault) == HAYA_OK, "thousands of ancestors");
    free(text);
    const haya_entry entry = {1, 0}, behind = {1, 2 * PARENTS + 2};
    haya_entry parent = {7, 7}, hit = {7, 7}, bound = {7, 7};
    is(haya_entry_parents(library, &entry) == PARENTS + 1, "thousands of parents");
    bool all = true;
    for (size_t step = 1; step <= 2 * PARENTS; step += step % 1000 < 3 || step % 1024 < 3 ? 1 : 97) all &= is_step(library, odd, step, step);
    is(all, "each step has its entry");
    all = true;
    for (size_t n = 0; n < PARENTS; n += 37) {
        all &= haya_entry_parent(library, &entry, n, &parent) == HAYA_OK && parent.place == 1 && parent.step == 2 * n + 1;
        all &= haya_entry_parents(library, &parent) == 1 && haya_entry_parent(library, &parent, 0, &parent) == HAYA_OK && parent.step == 2 * n + 2;
    }
    is(all, "each parent has its step");
    is(haya_entry_parent(library, &entry, PARENTS, &parent) == HAYA_OK && parent.step == 2 * PARENTS + 1, "the last parent");
    is(haya_entry_parents(library, &behind) == 0 && !haya_entry_has(library, &behind, TEXT("issue")), "no step behind the last");
    is(haya_library_next(library, last, &place, &hit, &bound, 1) == HAYA_OK && hit.place == 1 && bound.place == 1 && bound.step == 2 * PARENTS + 1,
       "a name is bound to the last");
    haya_selector_free(odd);
    haya_selector_free(last);
    haya_library_free(library);
}

/* Reads a book with the title A, in any of the formats, behind a byte order mark too. */
static void book(const char *text, uint32_t format) {
    char marked[128];
    snprintf(marked, sizeof marked, "\xef\xbb\xbf%s", text);
    for (int i = 0; i < 2; i++) {
        haya_library *library = library_of(i == 0 ? text : marked, format);
        haya_entry entry = {7, 7};
        is(haya_library_len(library) == 1 && haya_library_get(library, "k", 1, &entry) == HAYA_OK, text);
        field(library, entry, "title", "A");
        haya_library_free(library);
    }
}

static void formats(void) {
    static const char *const texts[] = {
        [HAYA_LINES] = "0\tk\tbook\ttitle=A",
        [HAYA_JSON] = "{\"k\": {\"type\": \"book\", \"title\": \"A\"}}",
        [HAYA_CSL] = "[{\"id\": \"k\", \"type\": \"book\", \"title\": \"A\"}]",
        [HAYA_JSON_LINES] = "{\"key\": \"k\", \"entry\": {\"type\": \"book\", \"title\": \"A\"}}",
        [HAYA_YAML] = "k:\n  type: book\n  title: A\n",
        [HAYA_BIBTEX] = "@book{k, title = {A}}",
    };
    haya_written text = HAYA_NOTHING_WRITTEN;
    haya_library *library = library_of("", HAYA_GUESSED);
    is(haya_library_len(library) == 0, "no bytes of a format that is guessed");
    for (uint32_t format = HAYA_LINES; format <= HAYA_BIBTEX; format++) {
        book(texts[format], format);
        book(texts[format], HAYA_GUESSED);
        bool is_written = format == HAYA_JSON || format == HAYA_JSON_LINES;
        is(haya_library_write(library, format, &text) == (is_written ? HAYA_OK : HAYA_NO_FORMAT), "what is written");
    }
    is(haya_library_write(library, HAYA_GUESSED, &text) == HAYA_NO_FORMAT, "nothing is guessed where it is written");
    haya_written_free(&text);
    haya_library_free(library);
}

static void written(void) {
    const char *paper = "{\"paper\": {\"type\": \"article\", \"title\": \"T\", \"parent\": {\"type\": \"blog\"}}}";
    const char *line = "{\"key\":\"paper\",\"entry\":{\"type\":\"article\",\"title\":\"T\",\"parent\":{\"type\":\"blog\"}}}\n";
    haya_library *library = library_of(paper, HAYA_JSON);
    haya_written text = HAYA_NOTHING_WRITTEN;
    char room[128];
    size_t len;
    is(haya_entry_json(library, &(haya_entry){0, 0}, room, sizeof room, &len) == HAYA_OK && len + 1 == strlen(line)
           && memcmp(room, line, len) == 0, "an entry's JSON");
    is(haya_library_write(library, HAYA_JSON_LINES, &text) == HAYA_OK && says(text.text, line), "lines of JSON");
    is(haya_library_write(library, HAYA_LINES, &text) == HAYA_NO_FORMAT && says(text.text, line), "what isn't written");
    is(haya_library_write(library, HAYA_JSON, &text) == HAYA_OK
           && says(text.text, "{\"paper\":{\"type\":\"article\",\"title\":\"T\",\"parent\":{\"type\":\"blog\"}}}"), "JSON");
    haya_library *again = NULL;
    haya_fault fault = HAYA_NO_FAULT;
    is(haya_library_read(text.text.at, text.text.len, HAYA_JSON, 0, 0, &again, &fault) == HAYA_OK, "it is read again");
    is(haya_library_len(again) == 1, "with its entry");
    for (int i = 0; i < 2; i++) {
        haya_written_free(&text);
        is(text.text.len == 0 && text.bytes == NULL, "freed more than once");
    }
    haya_library_free(again);
    haya_library_free(library);
    library = library_of("[{\"id\": \"x\", \"type\": \"article-journal\", \"title\": \"T\", \"container-title\": \"C\"}]", HAYA_CSL);
    haya_selector *selector = selector_of("p:periodical");
    haya_entry parent = {0, 1};
    bool holds = false;
    is(haya_entry_matches(library, selector, &parent, &holds) == HAYA_OK && holds, "the periodical of an item of CSL-JSON");
    field(library, parent, "title", "C");
    haya_selector_free(selector);
    haya_library_free(library);
}

/* Whether the row of a number has this name and count, or, where the name is NULL, isn't there. */
static bool is_note(const haya_library *library, size_t number, const char *name, uint64_t often) {
    char room[32];
    size_t len = 7;
    uint64_t count = 77;
    uint32_t code = haya_library_note(library, number, room, sizeof room, &len, &count);
    return name == NULL ? code == HAYA_NO_FIELD && len == 0 && count == 77 : code == HAYA_OK && shows(room, len, name) && count == often;
}

/* What is passed over of a text in each format. */
static void notes(void) {
    haya_library *library = library_of(
        "{\"a\": {\"type\": \"book\", \"titel\": 1, \"jahr\": 2}, \"b\": {\"type\": \"book\", \"titel\": 3}}", HAYA_JSON);
    char room[4] = "....";
    size_t len = 7;
    uint64_t count = 7;
    is(haya_library_notes(library) == 2 && is_note(library, 0, "titel", 2) && is_note(library, 1, "jahr", 1), "rows in their order");
    is(is_note(library, 2, NULL, 0) && is_note(library, SIZE_MAX, NULL, 0), "no more rows");
    is(haya_library_note(library, 0, room, 2, &len, &count) == HAYA_OK && len == 5 && count == 2 && memcmp(room, "ti..", 4) == 0, "a name is cut");
    haya_library_free(library);
    library = library_of("[{\"id\": \"a\", \"type\": \"book\", \"source\": \"x\"}, {\"id\": \"b\", \"type\": \"book\", \"source\": \"y\"}]", HAYA_CSL);
    is(haya_library_notes(library) == 1 && is_note(library, 0, "source", 2), "rows of CSL-JSON");
    haya_library_free(library);
    library = library_of("{\"key\": \"a\", \"entry\": {\"type\": \"book\", \"titel\": 1}}\n", HAYA_JSON_LINES);
    is(haya_library_notes(library) == 1 && is_note(library, 0, "titel", 1), "rows of lines of JSON");
    haya_library_free(library);
    library = library_of("a:\n  type: book\n  titel: x\n", HAYA_YAML);
    is(haya_library_notes(library) == 1 && is_note(library, 0, "titel", 1), "rows of YAML");
    haya_library_free(library);
    library = library_of("@book{a, titel = {x}}", HAYA_BIBTEX);
    is(haya_library_notes(library) == 1 && is_note(library, 0, "titel", 1), "rows of a .bib file");
    haya_library_free(library);
    library = library_of("0\ta\tbook\n0\ta\tbook\n", HAYA_LINES);
    is(haya_library_notes(library) == 0 && is_note(library, 0, NULL, 0), "no rows of lines");
    haya_library_free(library);
    haya_selector *selector = selector_of("*");
    is(haya_library_notes((haya_library *)selector) == 0 && is_note((haya_library *)selector, 0, NULL, 0), "nor of a selector");
    haya_selector_free(selector);
}

/* Pushes a text that is refused; the library has the entries a, b and c still, and one row. */
static void not_pushed(haya_library *library, const char *text, size_t len, uint32_t code, const char *pointer, const char *reason) {
    haya_fault fault = HAYA_NO_FAULT;
    haya_entry c = {7, 7};
    is(haya_library_push(library, text, len, &fault) == code && fault.code == code, text);
    is(says(fault.pointer, pointer) && says(fault.reason, reason), reason);
    is(haya_library_len(library) == 3 && haya_library_get(library, TEXT("c"), &c) == HAYA_OK && c.place == 2 && haya_library_notes(library) == 1, text);
    haya_fault_free(&fault);
}

/* A library that is changed. */
static void changes(void) {
    haya_library *library = library_of("0\ta\tbook\ttitle=A\n0\tb\tbook\ttitle=B\n1\tp\tblog\n", HAYA_LINES);
    haya_selector *selector = selector_of("* > x:web");
    haya_fault fault = HAYA_NO_FAULT;
    haya_entry entry = {7, 7}, hit = {7, 7}, bound[1];
    size_t place = 0;
    is(haya_library_push(library, TEXT("{\"c\": {\"type\": \"article\", \"title\": \"C\", \"titel\": 1, \"parent\": {\"type\": \"web\"}}}"), &fault) == HAYA_OK
           && fault.code == HAYA_OK, "an entry is pushed");
    is(haya_library_len(library) == 3 && haya_library_get(library, TEXT("c"), &entry) == HAYA_OK && entry.place == 2 && entry.step == 0, "it is the last");
    field(library, entry, "title", "C");
    is(haya_library_notes(library) == 1 && is_note(library, 0, "titel", 1), "what was passed over of it");
    is(haya_library_next(library, selector, &place, &hit, bound, 1) == HAYA_OK && hit.place == 2 && bound[0].step == 1, "it is a hit");
    not_pushed(library, TEXT("{}"), HAYA_NOT_ONE_ENTRY, "", "");
    not_pushed(library, TEXT("{\"d\": {\"type\": \"book\"}, \"e\": {\"type\": \"book\"}}"), HAYA_NOT_ONE_ENTRY, "", "");
    not_pushed(library, TEXT("{\"d\": {\"type\": \"book\"}, \"d\": {\"type\": \"book\"}}"), HAYA_NAME_TWICE, "", "line 1, column 25: duplicate member");
    not_pushed(library, TEXT("{\"d\": 1}"), HAYA_REFUSED_VALUE, "/d", "/d: expected an object");
    not_pushed(library, TEXT("[]"), HAYA_REFUSED_VALUE, "", ": expected an object");
    not_pushed(library, TEXT(""), HAYA_NOT_JSON, "", "line 1, column 1: invalid JSON");
    not_pushed(library, TEXT("\xff"), HAYA_NOT_TEXT, "", "");
    is(haya_library_push(library, TEXT("{\"b\": {\"type\": \"report\", \"title\": \"D\"}}"), &fault) == HAYA_OK, "an entry with a key that is there");
    is(haya_library_len(library) == 3 && haya_library_get(library, TEXT("b"), &entry) == HAYA_OK && entry.place == 1, "takes its place");
    field(library, entry, "title", "D");
    is(haya_entry_parents(library, &entry) == 0 && haya_library_notes(library) == 0, "with no parent, and no row");
    is(haya_library_remove(library, TEXT("d")) == HAYA_NO_ENTRY && haya_library_remove(library, TEXT("\xff")) == HAYA_NO_ENTRY, "no entry is removed");
    is(haya_library_remove(library, TEXT("a")) == HAYA_OK && haya_library_len(library) == 2, "an entry is removed");
    is(has_key(library, (haya_entry){0, 0}, "b") && has_key(library, (haya_entry){1, 0}, "c"), "the others move up");
    is(haya_library_get(library, TEXT("a"), &entry) == HAYA_NO_ENTRY && haya_library_remove(library, TEXT("a")) == HAYA_NO_ENTRY, "it isn't there");
    is(haya_library_remove(library, TEXT("c")) == HAYA_OK && haya_library_remove(library, TEXT("b")) == HAYA_OK && haya_library_len(library) == 0, "none are left");
    is(haya_library_push(library, TEXT("{\"a\": {\"type\": \"book\"}}"), &fault) == HAYA_OK && haya_library_len(library) == 1, "it is filled again");
    is(haya_library_push((haya_library *)selector, TEXT("{\"a\": {\"type\": \"book\"}}"), &fault) == HAYA_WRONG_KIND && fault.code == HAYA_WRONG_KIND
           && fault.words == NULL && haya_selector_names(selector) == 1, "a selector has no entries");
    is(haya_library_remove((haya_library *)selector, TEXT("a")) == HAYA_WRONG_KIND && haya_selector_names(selector) == 1, "nor are any removed");
    haya_fault_free(&fault);
    haya_selector_free(selector);
    haya_library_free(library);
}

/* Whether a part of a person has these words, or, where they are NULL, the code is this. */
static bool is_part(const haya_library *library, haya_entry entry, const char *name, size_t place, uint32_t part, const char *words, uint32_t code) {
    char room[64];
    size_t len = 7;
    uint32_t got = haya_entry_person(library, &entry, TEXT(name), place, part, room, sizeof room, &len);
    return got == code && (words == NULL ? len == 0 : shows(room, len, words));
}

static bool is_date(const haya_library *library, haya_entry entry, const char *name, haya_date wanted) {
    haya_date date = {7, 7, 7, 7, true};
    return haya_entry_date(library, &entry, TEXT(name), &date) == HAYA_OK && date.year == wanted.year && date.month == wanted.month
           && date.day == wanted.day && date.season == wanted.season && date.approximate == wanted.approximate;
}

static bool is_number(const haya_library *library, haya_entry entry, const char *name, uint32_t code, int32_t wanted) {
    int32_t number = 77;
    return haya_entry_number(library, &entry, TEXT(name), &number) == code && number == wanted;
}

static bool are_pages(const haya_library *library, haya_entry entry, size_t place, uint32_t code, int32_t first, int32_t last) {
    haya_pages pages = {77, 77};
    return haya_entry_page_range(library, &entry, place, &pages) == code && pages.first == first && pages.last == last;
}

/* Persons, dates and numbers in parts. */
static void values(void) {
    haya_library *library = library_of(
        "{\"a\": {\"type\": \"book\", \"author\": [\"van der Kooy, Jr., Ruben\", {\"name\": \"Lee\", \"alias\": \"L\"}], \"editor\": \"UNESCO\","
        " \"affiliated\": [{\"role\": \"translator\", \"names\": [\"A, B\", \"C, D\"]}, {\"role\": \"illustrator\", \"names\": \"E, F\"}],"
        " \"date\": \"~1987-07-05\", \"url\": {\"value\": \"https://a.org\", \"date\": \"2020-02\"}, \"volume\": 9, \"issue\": \"3a\","
        " \"edition\": \"second\", \"page-total\": 120, \"page-range\": \"1-3, 7 & 10a-12\"}, \"b\": {\"type\": \"book\", \"date\": -44}}", HAYA_JSON);
    const haya_entry a = {0, 0}, b = {1, 0}, no = {2, 0};
    char room[4] = "....";
    size_t len = 7;
    is(haya_entry_persons(library, &a, TEXT("author")) == 2 && haya_entry_persons(library, &a, TEXT("editor")) == 1
           && haya_entry_persons(library, &a, TEXT("affiliated")) == 3, "how many persons");
    is(haya_entry_persons(library, &b, TEXT("author")) == 0 && haya_entry_persons(library, &a, TEXT("title")) == 0
           && haya_entry_persons(library, &a, TEXT("\xff")) == 0 && haya_entry_persons(library, &no, TEXT("author")) == 0, "no persons");
    is(is_part(library, a, "author", 0, HAYA_FAMILY, "Kooy", HAYA_OK) && is_part(library, a, "author", 0, HAYA_GIVEN, "Ruben", HAYA_OK)
           && is_part(library, a, "author", 0, HAYA_PREFIX, "van der", HAYA_OK) && is_part(library, a, "author", 0, HAYA_SUFFIX, "Jr.", HAYA_OK), "parts");
    is(is_part(library, a, "author", 0, HAYA_ALIAS, NULL, HAYA_NO_PART) && is_part(library, a, "author", 0, HAYA_ROLE, NULL, HAYA_NO_PART)
           && is_part(library, a, "author", 0, 6, NULL, HAYA_NO_PART) && is_part(library, a, "author", 1, HAYA_GIVEN, NULL, HAYA_NO_PART), "no such parts");
    is(is_part(library, a, "author", 1, HAYA_ALIAS, "L", HAYA_OK) && is_part(library, a, "editor", 0, HAYA_FAMILY, "UNESCO", HAYA_OK), "an alias");
    is(is_part(library, a, "affiliated", 1, HAYA_FAMILY, "C", HAYA_OK) && is_part(library, a, "affiliated", 1, HAYA_ROLE, "translator", HAYA_OK)
           && is_part(library, a, "affiliated", 2, HAYA_GIVEN, "F", HAYA_OK) && is_part(library, a, "affiliated", 2, HAYA_ROLE, "illustrator", HAYA_OK), "roles");
    is(is_part(library, a, "author", 2, HAYA_FAMILY, NULL, HAYA_NO_FIELD) && is_part(library, a, "affiliated", 3, HAYA_FAMILY, NULL, HAYA_NO_FIELD)
           && is_part(library, a, "title", 0, HAYA_FAMILY, NULL, HAYA_NO_FIELD) && is_part(library, a, "\xff", 0, HAYA_FAMILY, NULL, HAYA_NO_FIELD)
           && is_part(library, no, "author", 0, HAYA_FAMILY, NULL, HAYA_NO_ENTRY), "no such persons");
    is(haya_entry_person(library, &a, TEXT("author"), 0, HAYA_GIVEN, room, 2, &len) == HAYA_OK && len == 5 && memcmp(room, "Ru..", 4) == 0, "a part is cut");
    is(is_date(library, a, "date", (haya_date){1987, 7, 5, 0, true}) && is_date(library, a, "url", (haya_date){2020, 2, 0, 0, false})
           && is_date(library, b, "date", (haya_date){-44, 0, 0, 0, false}), "dates");
    haya_date date = {77, 1, 2, 3, false};
    is(haya_entry_date(library, &b, TEXT("url"), &date) == HAYA_NO_FIELD && haya_entry_date(library, &a, TEXT("title"), &date) == HAYA_NO_FIELD
           && haya_entry_date(library, &a, TEXT("\xff"), &date) == HAYA_NO_FIELD && haya_entry_date(library, &no, TEXT("date"), &date) == HAYA_NO_ENTRY
           && date.year == 77 && date.season == 3, "no dates");
    is(is_number(library, a, "volume", HAYA_OK, 9) && is_number(library, a, "page-total", HAYA_OK, 120), "numbers");
    is(is_number(library, a, "issue", HAYA_NOT_NUMBER, 77) && is_number(library, a, "edition", HAYA_NOT_NUMBER, 77), "what is no number alone");
    is(is_number(library, a, "chapter", HAYA_NO_FIELD, 77) && is_number(library, a, "title", HAYA_NO_FIELD, 77)
           && is_number(library, a, "\xff", HAYA_NO_FIELD, 77) && is_number(library, no, "volume", HAYA_NO_ENTRY, 77), "no numbers");
    is(haya_entry_page_ranges(library, &a) == 3 && haya_entry_page_ranges(library, &b) == 0 && haya_entry_page_ranges(library, &no) == 0, "how many pages");
    is(are_pages(library, a, 0, HAYA_OK, 1, 3) && are_pages(library, a, 1, HAYA_OK, 7, 7) && are_pages(library, a, 2, HAYA_NOT_NUMBER, 77, 77)
           && are_pages(library, a, 3, HAYA_NO_FIELD, 77, 77) && are_pages(library, no, 0, HAYA_NO_ENTRY, 77, 77), "pages");
    haya_library_free(library);
}

static void messages(void) {
    static const uint32_t codes[] = {0, 1, 2, 3, 4, 5, 6, 7, 8, 9, 10, 11, 101, 102, 103, 104, 105, 201, 202, 203, 204, 205, 206, 207, 208, 209, 210};
    char room[64];
    is(haya_version() == HAYA_VERSION && haya_version_least() <= HAYA_VERSION, "the version");
    for (size_t i = 0; i < sizeof codes / sizeof *codes; i++) {
        size_t len = haya_message(codes[i], room, sizeof room);
        is(len > 0 && len <= sizeof room && !shows(room, len, "no such code"), "each code has words");
    }
    is(shows(room, haya_message(100, room, sizeof room), "no such code"), "no code");
    is(shows(room, haya_message(UINT32_MAX, room, sizeof room), "no such code"), "the greatest number");
    memset(room, '.', sizeof room);
    is(haya_message(HAYA_OUT_OF_MEMORY, room, 3) == 13 && memcmp(room, "out.", 4) == 0, "words are cut to their room");
}

int main(void) {
    inputs();
    selectors();
    hits();
    entries();
    forms();
    many();
    formats();
    written();
    notes();
    changes();
    values();
    messages();
    printf("%d passed, %d failed\n", passed, failed);
    return failed == 0 ? 0 : 1;
}
