/* asks SELECTOR: reads a library in lines from standard input and the selector, and makes each call of the library for C that asks: of
 * each hit, of each entry that a name of the selector is bound to there, and of each of the hit's parents. It prints how many bytes
 * these calls said. */
#include "hayagriva.h"

#include <stdio.h>
#include <stdlib.h>
#include <string.h>

static haya_library *library;
static haya_selector *selector;
static size_t said;
static char room[1 << 12];

/* Makes each call that asks of one entry. */
static void ask(haya_entry entry) {
    size_t len = 0;
    bool holds = false;
    haya_entry_key(library, &entry, room, sizeof room, &len), said += len;
    haya_entry_type(library, &entry, room, sizeof room, &len), said += len;
    if (haya_entry_text(library, &entry, "title", 5, room, sizeof room, &len) == HAYA_OK) said += len;
    said += haya_entry_has(library, &entry, "doi", 3);
    if (haya_entry_matches(library, selector, &entry, &holds) == HAYA_OK) said += holds;
}

int main(int count, char **words) {
    static char text[1 << 24];
    haya_fault fault = HAYA_NO_FAULT;
    haya_entry hit, parent;
    size_t len = fread(text, 1, sizeof text, stdin), used, place = 0;
    if (count != 2 || haya_library_read(text, len, HAYA_LINES, 1, 2, &library, &fault) != HAYA_OK ||
        haya_selector_read(words[1], strlen(words[1]), &used, &selector, &fault) != HAYA_OK) {
        return 1;
    }
    size_t names = haya_selector_names(selector);
    haya_entry *bound = calloc(names + 1, sizeof *bound);
    if (bound == NULL) return 1;
    for (size_t n = 0; n < names; n++) haya_selector_name(selector, n, room, sizeof room, &len), said += len;
    while (haya_library_next(library, selector, &place, &hit, bound, names) == HAYA_OK) {
        ask(hit);
        haya_entry_json(library, &hit, room, sizeof room, &len), said += len;
        for (size_t n = 0; n < names; n++) {
            if (bound[n].place != HAYA_NOWHERE.place) ask(bound[n]);
        }
        for (size_t n = haya_entry_parents(library, &hit); n-- > 0;) {
            if (haya_entry_parent(library, &hit, n, &parent) == HAYA_OK) ask(parent);
        }
    }
    free(bound);
    haya_selector_free(selector);
    haya_library_free(library);
    printf("%zu\n", said);
    return said > 0 ? 0 : 1;
}
