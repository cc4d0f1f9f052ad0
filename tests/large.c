/* large lines|json|csl|json-lines|yaml|bibtex|guessed[,FIRST,SECOND] SELECTOR [NAME]: prints the hits that the library for C finds in
 * the library on standard input, as hayagriva_query does; with a NAME also how many parents each has and the text of its field of this
 * name, each behind a tab. It asks each hit again whether the selector holds there, and ends with status 1 where it doesn't. FIRST and
 * SECOND are the keys that the library hashes with, or else 1 and 2. */
#include "hayagriva.h"

#include <stdio.h>
#include <stdlib.h>
#include <string.h>

/* A text in room that grows with need. */
typedef struct room {
    char *at;
    size_t len, room;
} room;

static bool has_room(room *text) {
    if (text->len <= text->room && text->at != NULL) return true;
    free(text->at);
    text->room = text->len;
    text->at = malloc(text->room + 1);
    return false;
}

static void put(const room *text) { fwrite(text->at, 1, text->len, stdout); }

/* A name of the selector, and the slot of what it stands for. */
typedef struct named {
    room name;
    size_t slot;
} named;

static int in_byte_order(const void *one, const void *other) {
    const named *a = one, *b = other;
    int order = memcmp(a->name.at, b->name.at, a->name.len < b->name.len ? a->name.len : b->name.len);
    return order != 0 ? order : (a->name.len > b->name.len) - (a->name.len < b->name.len);
}

/* Reads standard input to its end. */
static char *read_all(size_t *len) {
    size_t room = 1 << 20, got;
    char *text = malloc(room);
    *len = 0;
    while (text != NULL && (got = fread(text + *len, 1, room - *len, stdin)) > 0) {
        *len += got;
        if (*len == room) text = realloc(text, room *= 2);
    }
    return text;
}

/* Reads the format in front of a comma, and the keys behind it. */
static uint32_t format_of(const char *word, uint64_t keys[2]) {
    static const char *const names[] = {"lines", "json", "csl", "json-lines", "yaml", "bibtex", "guessed"};
    static const uint32_t formats[] = {HAYA_LINES, HAYA_JSON, HAYA_CSL, HAYA_JSON_LINES, HAYA_YAML, HAYA_BIBTEX, HAYA_GUESSED};
    char *end = strchr(word, ',');
    size_t len = end != NULL ? (size_t)(end - word) : strlen(word);
    for (int i = 0; end != NULL && i < 2; i++) keys[i] = strtoull(end + 1, &end, 10);
    for (size_t i = 0; i < sizeof formats / sizeof *formats; i++) {
        if (strlen(names[i]) == len && memcmp(names[i], word, len) == 0) return formats[i];
    }
    return UINT32_MAX;
}

/* Prints the key of an entry. */
static bool put_key(const haya_library *library, const haya_entry *entry, room *text) {
    uint32_t code;
    do code = haya_entry_key(library, entry, text->at, text->room, &text->len);
    while (code == HAYA_OK && !has_room(text));
    if (code == HAYA_OK) put(text);
    return code == HAYA_OK;
}

/* Prints what the entry has beside it. */
static bool put_entry(const haya_library *library, const haya_entry *entry, const char *name, room *text) {
    uint32_t code;
    do code = haya_entry_text(library, entry, name, strlen(name), text->at, text->room, &text->len);
    while (code == HAYA_OK && !has_room(text));
    if (code != HAYA_OK) return false;
    /* It has no signs and no short form: so it is the same in each form, and the last one is printed. */
    for (uint32_t form = HAYA_PLAIN; form <= HAYA_SHORT; form++) {
        size_t len = text->len;
        code = haya_entry_text_as(library, entry, name, strlen(name), form, text->at, text->room, &text->len);
        if (code != HAYA_OK || text->len != len) return false;
    }
    size_t parents = haya_entry_parents(library, entry);
    haya_entry last;
    if (parents > 0 && haya_entry_parent(library, entry, parents - 1, &last) != HAYA_OK) return false;
    printf("\t%zu\t", parents);
    put(text);
    return true;
}

/* Puts the selector's names into byte order, each once, and answers how many these are. */
static size_t read_names(const haya_selector *selector, named *names) {
    size_t all = haya_selector_names(selector), count = 0;
    for (size_t slot = 0; slot < all; slot++) {
        room *name = &names[slot].name;
        names[slot].slot = slot;
        do haya_selector_name(selector, slot, name->at, name->room, &name->len);
        while (!has_room(name));
    }
    qsort(names, all, sizeof *names, in_byte_order);
    for (size_t n = 0; n < all; n++) {
        if (count == 0 || in_byte_order(&names[count - 1], &names[n]) != 0) names[count++] = names[n];
    }
    return count;
}

int main(int count, char **words) {
    haya_library *library = NULL;
    haya_selector *selector = NULL;
    haya_fault fault = HAYA_NO_FAULT;
    room text = {malloc(1), 0, 1};
    haya_entry hit;
    size_t len, used, place = 0;
    bool holds = false;
    char *input = read_all(&len);
    if (count < 3 || input == NULL || text.at == NULL) return 2;
    uint64_t keys[2] = {1, 2};
    uint32_t format = format_of(words[1], keys);
    bool is_done = haya_library_read(input, len, format, keys[0], keys[1], &library, &fault) == HAYA_OK &&
                   haya_selector_read(words[2], strlen(words[2]), &used, &selector, &fault) == HAYA_OK;
    free(input);
    size_t all = is_done ? haya_selector_names(selector) : 0;
    named *names = calloc(all + 1, sizeof *names);
    haya_entry *bound = calloc(all + 1, sizeof *bound);
    if (names == NULL || bound == NULL) return 2;
    size_t named_once = is_done ? read_names(selector, names) : 0;
    uint32_t code = is_done ? HAYA_OK : fault.code;
    while (is_done && (code = haya_library_next(library, selector, &place, &hit, bound, all)) == HAYA_OK) {
        is_done = haya_entry_matches(library, selector, &hit, &holds) == HAYA_OK && holds && put_key(library, &hit, &text);
        for (size_t n = 0; is_done && n < named_once; n++) {
            const haya_entry *entry = &bound[names[n].slot];
            if (entry->place == HAYA_NOWHERE.place) continue;
            putchar('\t'), put(&names[n].name), putchar('=');
            is_done = put_key(library, entry, &text);
        }
        if (is_done && words[3] != NULL) is_done = put_entry(library, &hit, words[3], &text);
        putchar('\n');
    }
    haya_selector_free(selector);
    haya_library_free(library);
    haya_fault_free(&fault);
    return code == HAYA_END ? 0 : 1;
}
