/* Refuses each request for memory of a run in turn: what was asked is there, or the code is out of memory. So it does in a run over a
 * library of 6,000 entries, with each request of 40,000 bytes and more, where there is no word `small`. Linked with --wrap=malloc,--wrap=realloc, the two below are
 * the archive's calls alone. */
#include "hayagriva.h"

#include <stdio.h>
#include <stdlib.h>
#include <string.h>

void *__real_malloc(size_t size);
void *__real_realloc(void *block, size_t size);

static size_t asked, refused, answered;
/* Which request is refused, of those of so many bytes at least. */
static size_t nth, least;

static bool is_refused(size_t size) { return size >= least && ++asked == nth; }

void *__wrap_malloc(size_t size) { return is_refused(size) ? NULL : __real_malloc(size); }

void *__wrap_realloc(void *block, size_t size) { return is_refused(size) ? NULL : __real_realloc(block, size); }

static void must(bool holds, const char *what) {
    if (!holds) {
        printf("request %zu refused: %s\n0 passed, 1 failed\n", nth, what);
        exit(1);
    }
}

#define TEXT(words) (words), strlen(words)

/* Done, or out of memory; counts which. */
static bool is_done(uint32_t code, uint32_t done, const char *what) {
    must(code == done || code == HAYA_OUT_OF_MEMORY, what);
    *(code == done ? &answered : &refused) += 1;
    return code == done;
}

static const char *const lines = "0\tdependence\tarticle\tdoi=10.1145/24039.24041\tauthor=Kwan, Kevin\n1\ttoplas\tperiodical\n"
                                 "0\tfeminism\tarticle\tlanguage=en\n1\taeon\tblog\ttitle=A {Text}\n";
static const char *const json = "{\"paper\": {\"type\": \"article\", \"title\": {\"value\": \"The {Text} of $x$\", \"short\": \"{Text}\"},"
                                " \"parent\": {\"type\": \"blog\"}}}";

static void ask(const haya_library *library, haya_fault *fault) {
    haya_selector *selector = NULL;
    haya_entry hit = {7, 7}, bound[2];
    size_t used, place = 0;
    bool holds = false;
    if (is_done(haya_selector_read(TEXT("article[doi] > (a:book | p:periodical)"), &used, &selector, fault), HAYA_OK, "a selector")) {
        if (is_done(haya_library_next(library, selector, &place, &hit, bound, 2), HAYA_OK, "a hit")) {
            must(place == 1 && hit.place == 0 && bound[0].place == SIZE_MAX && bound[1].step == 1, "the hit");
            if (is_done(haya_library_next(library, selector, &place, &hit, bound, 2), HAYA_END, "the end")) {
                must(place == 2, "behind the last hit");
            }
        } else {
            must(place == 0 && hit.place == 7, "no hit");
        }
        is_done(haya_entry_matches(library, selector, &(haya_entry){0, 0}, &holds), HAYA_OK, "a test");
    } else {
        must(selector == NULL && fault->code == HAYA_OUT_OF_MEMORY, "no selector");
    }
    haya_selector_free(selector);
    selector = NULL;
    if (is_done(haya_selector_read(TEXT("* > boook"), &used, &selector, fault), HAYA_UNKNOWN_TYPE, "an unknown type")
        && fault->code == HAYA_UNKNOWN_TYPE) {
        must(fault->name.len == 5 && memcmp(fault->name.at, "boook", 5) == 0 && fault->offset == 4, "the unknown type");
    }
}

static void look(const haya_library *library) {
    haya_entry entry = {0, 0}, parent = {7, 7};
    haya_written written = HAYA_NOTHING_WRITTEN;
    char room[64];
    size_t len;
    if (is_done(haya_entry_text(library, &entry, TEXT("author"), room, sizeof room, &len), HAYA_OK, "a text")) {
        must(len == 12 && memcmp(room, "Kwan, Kevin\n", len) == 0, "the text");
    }
    if (is_done(haya_entry_parent(library, &entry, 0, &parent), HAYA_OK, "a parent")) {
        must(parent.place == 0 && parent.step == 1, "the parent");
    }
    is_done(haya_entry_json(library, &entry, room, sizeof room, &len), HAYA_OK, "JSON");
    if (!is_done(haya_library_write(library, HAYA_JSON_LINES, &written), HAYA_OK, "lines of JSON")) {
        must(written.bytes == NULL && written.text.len == 0, "nothing is written");
    }
    is_done(haya_library_write(library, HAYA_JSON, &written), HAYA_OK, "the file format");
    haya_written_free(&written);
    must(haya_library_len(library) == 2 && haya_entry_has(library, &entry, TEXT("doi")), "the library stays");
}

/* The title in each form. */
static void forms(const haya_library *library) {
    static const char *const texts[] = {[HAYA_MARKED_UP] = "The {Text} of $x$", [HAYA_PLAIN] = "The Text of $x$", [HAYA_SHORT] = "Text"};
    char room[64];
    size_t len;
    for (uint32_t form = HAYA_MARKED_UP; form <= HAYA_SHORT; form++) {
        if (is_done(haya_entry_text_as(library, &(haya_entry){0, 0}, TEXT("title"), form, room, sizeof room, &len), HAYA_OK, "a form")) {
            must(len == strlen(texts[form]) && memcmp(room, texts[form], len) == 0, "the form");
        } else {
            must(len == 0, "no form");
        }
    }
}

/* Changes a library of two entries, and looks whether it stays where memory is refused. */
static void change(haya_library *library, haya_fault *fault) {
    haya_entry entry = {7, 7};
    size_t before = haya_library_len(library);
    if (is_done(haya_library_push(library, TEXT("{\"new\": {\"type\": \"book\", \"titel\": 1}}"), fault), HAYA_OK, "an entry is pushed")) {
        must(haya_library_len(library) == before + 1 && haya_library_notes(library) == 1, "it is there");
        must(haya_library_remove(library, TEXT("new")) == HAYA_OK, "it is removed");
    } else {
        must(fault->code == HAYA_OUT_OF_MEMORY && haya_library_notes(library) == 0, "nothing is pushed");
    }
    if (is_done(haya_library_push(library, TEXT("{\"feminism\": {\"type\": \"report\"}}"), fault), HAYA_OK, "an entry with a key that is there")) {
        must(!haya_entry_has(library, &(haya_entry){1, 0}, TEXT("language")), "it takes the place");
    } else {
        must(haya_entry_has(library, &(haya_entry){1, 0}, TEXT("language")), "the entry stays");
    }
    is_done(haya_library_push(library, TEXT("{\"new\": 1}"), fault), HAYA_REFUSED_VALUE, "no entry");
    must(haya_library_len(library) == before && haya_library_get(library, TEXT("new"), &entry) == HAYA_NO_ENTRY, "the library stays");
}

static void run(void) {
    haya_library *library = NULL, *other = NULL;
    haya_fault fault = HAYA_NO_FAULT;
    if (is_done(haya_library_read(TEXT(lines), HAYA_LINES, 0, 0, &library, &fault), HAYA_OK, "lines")) {
        ask(library, &fault);
        look(library);
        change(library, &fault);
    } else {
        must(library == NULL && fault.code == HAYA_OUT_OF_MEMORY && fault.line == 0, "no library");
    }
    if (is_done(haya_library_read(TEXT(json), HAYA_JSON, 0, 0, &other, &fault), HAYA_OK, "JSON")) forms(other);
    if (is_done(haya_library_read(TEXT("{\"a\": {\"type\": \"book\", \"titel\": 1, \"jahr\": 2}}"), HAYA_JSON, 0, 0, &other, &fault), HAYA_OK, "what is passed over")) {
        must(haya_library_notes(other) == 2, "its rows");
    }
    if (is_done(haya_library_read(TEXT("[{\"type\": \"book\"}]"), HAYA_CSL, 0, 0, &other, &fault), HAYA_REFUSED_VALUE, "CSL-JSON")
        && fault.code == HAYA_REFUSED_VALUE) {
        must(fault.pointer.len == 5 && memcmp(fault.pointer.at, "/0/id", 5) == 0, "the place");
    }
    is_done(haya_library_read(TEXT("{"), HAYA_JSON, 0, 0, &other, &fault), HAYA_NOT_JSON, "no JSON");
    is_done(haya_library_read(TEXT("{"), HAYA_JSON_LINES, 0, 0, &other, &fault), HAYA_NOT_JSON, "no lines of JSON");
    is_done(haya_library_read(TEXT("0\ta\tboook"), HAYA_LINES, 0, 0, &other, &fault), HAYA_LINE_TYPE, "no lines");
    is_done(haya_library_read(TEXT("{\"items\": [{\"id\": \"k\", \"type\": \"book\"}]}"), HAYA_GUESSED, 0, 0, &other, &fault), HAYA_OK, "a guess");
    is_done(haya_library_read(TEXT("k:\n  type: book\n"), HAYA_YAML, 0, 0, &other, &fault), HAYA_OK, "YAML");
    is_done(haya_library_read(TEXT("k: book"), HAYA_YAML, 0, 0, &other, &fault), HAYA_REFUSED_VALUE, "a value in YAML");
    is_done(haya_library_read(TEXT("k: a: b"), HAYA_YAML, 0, 0, &other, &fault), HAYA_NOT_YAML, "no YAML");
    is_done(haya_library_read(TEXT("@book{k, title = {A}}"), HAYA_BIBTEX, 0, 0, &other, &fault), HAYA_OK, "a .bib file");
    is_done(haya_library_read(TEXT("@book{k"), HAYA_BIBTEX, 0, 0, &other, &fault), HAYA_NOT_BIBTEX, "no .bib file");
    haya_fault_free(&fault);
    haya_library_free(library);
    haya_library_free(other);
}

enum { MANY = 6000, LONG = 60000 };

/* A text that isn't freed: `first`, then `number` times `again`, which has one %d for the number. */
static char *repeated(const char *first, const char *again, int number) {
    size_t room = strlen(first) + (size_t)number * (strlen(again) + 8) + 1, len = strlen(first);
    char *text = __real_malloc(room);
    if (text == NULL) exit(1);
    memcpy(text, first, len + 1);
#pragma GCC diagnostic push
#pragma GCC diagnostic ignored "-Wformat-nonliteral"
    for (int n = 1; n <= number; n++) len += (size_t)snprintf(text + len, room - len, again, n);
#pragma GCC diagnostic pop
    return text;
}

/* A text that isn't freed: `first`, LONG letters, and `last`. */
static char *filled(const char *first, const char *last) {
    char *text = __real_malloc(strlen(first) + LONG + strlen(last) + 1);
    if (text == NULL) exit(1);
    strcpy(text, first);
    memset(text + strlen(first), 'x', LONG);
    strcpy(text + strlen(first) + LONG, last);
    return text;
}

static const char *many_lines, *many_json, *many_csl, *many_yaml, *many_bibtex, *long_line, *long_selector;

/* Reads a text in which all is right. */
static bool reads(const char *text, uint32_t format, size_t entries, haya_library **library, haya_fault *fault) {
    if (!is_done(haya_library_read(TEXT(text), format, 3, 4, library, fault), HAYA_OK, "much text")) {
        must(*library == NULL && fault->code == HAYA_OUT_OF_MEMORY && fault->line == 0 && fault->column == 0, "no library of much text");
        return false;
    }
    must(haya_library_len(*library) == entries, "each entry of much text");
    return true;
}

/* Reads much text in each format, writes it, and asks of an entry with a long title, and of a long selector. */
static void run_many(void) {
    haya_library *library = NULL, *other = NULL;
    haya_selector *selector = NULL;
    haya_fault fault = HAYA_NO_FAULT;
    haya_written written = HAYA_NOTHING_WRITTEN;
    haya_entry hit = {7, 7}, bound = {7, 7};
    static char room[LONG];
    size_t len, place = 0;
    if (reads(many_lines, HAYA_LINES, MANY, &library, &fault)) {
        is_done(haya_library_write(library, HAYA_JSON_LINES, &written), HAYA_OK, "much as lines of JSON");
        is_done(haya_library_write(library, HAYA_JSON, &written), HAYA_OK, "much as JSON");
        must(haya_library_len(library) == MANY && haya_library_get(library, TEXT("k6000"), &hit) == HAYA_OK && hit.place == MANY - 1, "the last");
    }
    haya_written_free(&written);
    if (reads(many_json, HAYA_JSON, MANY, &other, &fault)) haya_library_free(other), other = NULL;
    if (reads(many_csl, HAYA_CSL, MANY, &other, &fault)) haya_library_free(other), other = NULL;
    if (reads(many_yaml, HAYA_YAML, MANY, &other, &fault)) haya_library_free(other), other = NULL;
    if (reads(many_bibtex, HAYA_BIBTEX, MANY, &other, &fault)) haya_library_free(other), other = NULL;
    if (reads(long_line, HAYA_LINES, 1, &other, &fault)) {
        if (is_done(haya_entry_text(other, &(haya_entry){0, 0}, TEXT("title"), room, sizeof room, &len), HAYA_OK, "a long text")) {
            must(len == LONG && room[0] == 'x' && memcmp(room, room + 1, LONG - 1) == 0, "the long text");
        }
        for (uint32_t form = HAYA_PLAIN; form <= HAYA_SHORT; form++) {
            if (is_done(haya_entry_text_as(other, &(haya_entry){0, 0}, TEXT("title"), form, room, sizeof room, &len), HAYA_OK, "a long form")) {
                must(len == LONG && room[0] == 'x' && memcmp(room, room + 1, LONG - 1) == 0, "the long form");
            }
        }
        is_done(haya_entry_json(other, &(haya_entry){0, 0}, room, sizeof room, &len), HAYA_OK, "long JSON");
    }
    if (is_done(haya_selector_read(TEXT(long_selector), &len, &selector, &fault), HAYA_OK, "a long selector")) {
        must(len == strlen(long_selector), "its end");
        if (library != NULL && is_done(haya_library_next(library, selector, &place, &hit, &bound, 1), HAYA_OK, "its hit")) {
            must(place == 1 && hit.place == 0, "the first hit");
        }
    }
    haya_fault_free(&fault);
    haya_selector_free(selector);
    haya_library_free(library);
    haya_library_free(other);
}

static void refuse_each(void (*call)(void)) {
    nth = 0;
    do {
        nth++;
        asked = 0;
        call();
    } while (asked >= nth);
}

int main(int count, char **words) {
    bool is_small = count > 1 && strcmp(words[1], "small") == 0;
    many_lines = repeated("", "0\tk%d\tbook\ttitle=The title\n", MANY);
    many_json = repeated("{\"k0\": {\"type\": \"book\"}", ", \"k%d\": {\"type\": \"book\"}", MANY - 1);
    strcat((char *)many_json, "}");
    many_csl = repeated("[{\"id\": \"k0\", \"type\": \"book\"}", ", {\"id\": \"k%d\", \"type\": \"book\"}", MANY - 1);
    strcat((char *)many_csl, "]");
    many_yaml = repeated("", "k%d:\n  type: book\n", MANY);
    many_bibtex = repeated("", "@book{k%d}\n", MANY);
    long_line = filled("0\tk\tbook\ttitle=", "");
    long_selector = filled("", ":book");
    refuse_each(run);
    size_t small = nth;
    least = 40000;
    nth = 0;
    if (!is_small) {
        refuse_each(run_many);
        must(nth > 20, "a run that asks for much");
    }
    printf("%zu requests, and %zu large ones, each refused in turn: %zu codes of out of memory, %zu answers\n%zu passed, 0 failed\n", small, nth,
           refused, answered, small + nth);
    return 0;
}
