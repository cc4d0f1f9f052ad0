/* SELECTOR [FIELD FORM] < LIBRARY: prints the hits as the program hayagriva_query does, over the C library alone; behind the
 * key of each the text of a field that is set, in the form `marked-up`, `plain` or `short`. */
#include "hayagriva.h"

#include <stdio.h>
#include <stdlib.h>
#include <string.h>

enum { ROOM = 64 };

/* A code in words. */
static void print_words(uint32_t code) {
    char room[ROOM];
    size_t len = haya_message(code, room, sizeof room);
    fwrite(room, 1, len < sizeof room ? len : sizeof room, stderr);
}

/* The field whose text is asked for, or NULL, and the number of its form. */
static const char *field;
static uint32_t form;

static uint32_t field_text(const haya_library *library, const haya_entry *entry, char *room, size_t room_len, size_t *len) {
    return haya_entry_text_as(library, entry, field, strlen(field), form, room, room_len, len);
}

/* Prints what a call answers behind `first`, in more room where it asks for that. The answer is a code. */
typedef uint32_t (*asks)(const haya_library *, const haya_entry *, char *, size_t, size_t *);

static uint32_t print_text(const char *first, asks ask, const haya_library *library, const haya_entry *entry) {
    size_t len = 0;
    char *text = malloc(ROOM);
    uint32_t code = text == NULL ? HAYA_OUT_OF_MEMORY : ask(library, entry, text, ROOM, &len);
    if (code == HAYA_OK && len > ROOM) {
        size_t room = len;
        free(text);
        text = malloc(room);
        code = text == NULL ? HAYA_OUT_OF_MEMORY : ask(library, entry, text, room, &len);
    }
    if (code == HAYA_OK) {
        fputs(first, stdout);
        fwrite(text, 1, len, stdout);
    }
    free(text);
    return code;
}

/* A name of the selector, and its number. */
typedef struct named {
    char *name;
    size_t len, number;
} named;

static int in_byte_order(const void *one, const void *other) {
    const named *a = one, *b = other;
    int order = memcmp(a->name, b->name, a->len < b->len ? a->len : b->len);
    return order != 0 ? order : (a->len > b->len) - (a->len < b->len);
}

/* The selector's names in byte order, each once: NULL where memory ran out. */
static named *names_of(const haya_selector *selector, size_t *count) {
    size_t all = haya_selector_names(selector);
    named *names = calloc(all + 1, sizeof *names);
    *count = 0;
    for (size_t number = 0; names != NULL && number < all; number++) {
        char room[1];
        size_t len = 0;
        haya_selector_name(selector, number, room, sizeof room, &len);
        names[number] = (named){malloc(len + 1), len, number};
        if (names[number].name != NULL) {
            haya_selector_name(selector, number, names[number].name, len + 1, &len);
        }
    }
    if (names != NULL && all > 0) {
        qsort(names, all, sizeof *names, in_byte_order);
        *count = 1;
        for (size_t number = 1; number < all; number++) {
            if (in_byte_order(&names[*count - 1], &names[number]) == 0) {
                free(names[number].name);
            } else {
                names[(*count)++] = names[number];
            }
        }
    }
    return names;
}

/* Prints the hits. The answer is a code. */
static uint32_t print_hits(const haya_library *library, const haya_selector *selector) {
    size_t all = haya_selector_names(selector), count = 0, place = 0;
    named *names = names_of(selector, &count);
    haya_entry *bound = calloc(all + 1, sizeof *bound);
    haya_entry hit;
    uint32_t code = names == NULL || bound == NULL ? HAYA_OUT_OF_MEMORY : HAYA_OK;
    while (code == HAYA_OK && (code = haya_library_next(library, selector, &place, &hit, bound, all + 1)) == HAYA_OK) {
        code = print_text("", haya_entry_key, library, &hit);
        if (code == HAYA_OK && field != NULL && (code = print_text("\t", field_text, library, &hit)) == HAYA_NO_FIELD) {
            code = HAYA_OK;
        }
        for (size_t n = 0; code == HAYA_OK && n < count; n++) {
            const haya_entry *entry = &bound[names[n].number];
            if (entry->place != HAYA_NOWHERE.place) {
                printf("\t%.*s", (int)names[n].len, names[n].name);
                code = print_text("=", haya_entry_key, library, entry);
            }
        }
        putchar('\n');
    }
    for (size_t n = 0; names != NULL && n < count; n++) {
        free(names[n].name);
    }
    free(names);
    free(bound);
    return code;
}

/* All that comes on standard input. */
static char *read_input(size_t *len) {
    size_t room = 1 << 16;
    char *bytes = malloc(room);
    *len = 0;
    while (bytes != NULL) {
        size_t more = fread(bytes + *len, 1, room - *len, stdin);
        *len += more;
        if (more == 0) {
            break;
        }
        if (*len == room) {
            room *= 2;
            char *longer = realloc(bytes, room);
            if (longer == NULL) {
                free(bytes);
            }
            bytes = longer;
        }
    }
    return bytes;
}

/* Says what is wrong as the program does. */
static int complain(const haya_fault *fault) {
    if (fault->line != 0) {
        fprintf(stderr, "line %zu: ", fault->line);
    }
    print_words(fault->code);
    if (fault->name.len != 0) {
        fprintf(stderr, ": `%.*s`", (int)fault->name.len, fault->name.at);
    }
    fputc('\n', stderr);
    return 1;
}

/* Asks the library, and prints the hits or what is wrong. */
static int answer(const haya_library *library, const char *words, haya_fault *fault) {
    haya_selector *selector = NULL;
    size_t used;
    if (haya_selector_read(words, strlen(words), &used, &selector, fault) != HAYA_OK) {
        return complain(fault);
    }
    fault->code = print_hits(library, selector);
    haya_selector_free(selector);
    return fault->code == HAYA_END ? 0 : complain(fault);
}

/* Takes the field and the form that are asked for, if there is such a form. */
static bool is_form(const char *name, const char *word) {
    static const char *const forms[] = {[HAYA_MARKED_UP] = "marked-up", [HAYA_PLAIN] = "plain", [HAYA_SHORT] = "short"};
    for (field = name, form = HAYA_MARKED_UP; form <= HAYA_SHORT; form++) {
        if (strcmp(word, forms[form]) == 0) {
            return true;
        }
    }
    return false;
}

int main(int count, char **words) {
    bool is_asked = count == 2 || (count == 4 && is_form(words[2], words[3]));
    if (!is_asked || haya_version() < HAYA_VERSION || haya_version_least() > HAYA_VERSION) {
        fputs("usage: client SELECTOR [FIELD marked-up|plain|short]\n", stderr);
        return 2;
    }
    size_t len;
    char *bytes = read_input(&len);
    if (bytes == NULL) {
        return 1;
    }
    haya_library *library = NULL;
    haya_fault fault = HAYA_NO_FAULT;
    uint32_t code = haya_library_read(bytes, len, HAYA_LINES, 0, 0, &library, &fault);
    free(bytes);
    int status = code == HAYA_OK ? answer(library, words[1], &fault) : complain(&fault);
    haya_library_free(library);
    haya_fault_free(&fault);
    return status;
}
