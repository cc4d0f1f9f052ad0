/* leaks lines|json|csl|json-lines|yaml|bibtex|guessed FILE..: reads each file, which has a fault behind entries that are good, where a
 * library was read before and where there was none, and asks the first. Ends with status 1 where a file is read without a fault.
 * Whoever runs it counts what isn't freed. */
#include "hayagriva.h"

#include <stdio.h>
#include <stdlib.h>
#include <string.h>

static uint32_t format_of(const char *word) {
    static const char *const names[] = {"guessed", "lines", "json", "csl", "json-lines", "yaml", "bibtex"};
    for (uint32_t format = HAYA_GUESSED; format <= HAYA_BIBTEX; format++) {
        if (strcmp(word, names[format]) == 0) return format;
    }
    return UINT32_MAX;
}

/* Reads the text in the place of a library, and answers whether it was refused and the library kept as it was. */
static bool is_refused(uint32_t format, const char *text, size_t len, haya_library **library, haya_fault *fault) {
    const haya_library *before = *library;
    uint32_t code = haya_library_read(text, len, format, 1, 2, library, fault);
    return code != HAYA_OK && code != HAYA_OUT_OF_MEMORY && fault->code == code && *library == before;
}

/* Whether the library is written, twice into the same place, and as what isn't written nothing is. */
static bool is_written(const haya_library *library) {
    haya_written text = HAYA_NOTHING_WRITTEN;
    bool all = true;
    for (int i = 0; all && i < 2; i++) {
        uint32_t code = haya_library_write(library, i == 0 ? HAYA_JSON : HAYA_JSON_LINES, &text);
        all = code == HAYA_OUT_OF_MEMORY || (code == HAYA_OK && text.text.len > 0 && haya_library_write(library, HAYA_CSL, &text) == HAYA_NO_FORMAT);
    }
    haya_written_free(&text);
    return all;
}

/* Whether the library has its one entry still, where the selector doesn't hold. */
static bool is_kept(const haya_library *library, const haya_selector *selector) {
    haya_entry hit;
    size_t place = 0;
    return haya_library_len(library) == 1 && haya_library_next(library, selector, &place, &hit, &hit, 0) == HAYA_END;
}

int main(int count, char **words) {
    static char text[1 << 20];
    haya_library *kept = NULL;
    haya_selector *selector = NULL;
    haya_fault fault = HAYA_NO_FAULT;
    size_t used;
    bool all = count > 2 && haya_library_read("0\tkept\tbook\n", 12, HAYA_LINES, 1, 2, &kept, &fault) == HAYA_OK &&
               haya_selector_read("a:* > (b:* & c:*)", 17, &used, &selector, &fault) == HAYA_OK;
    for (int at = 2; all && at < count; at++) {
        haya_library *own = NULL;
        FILE *file = fopen(words[at], "rb");
        if (file == NULL) return 2;
        size_t len = fread(text, 1, sizeof text, file);
        uint32_t format = format_of(words[1]);
        fclose(file);
        if (!is_refused(format, text, len, &kept, &fault) || !is_kept(kept, selector) || !is_written(kept) || !is_refused(format, text, len, &own, &fault)) {
            printf("read without a fault: %s\n", words[at]);
            all = false;
        }
        haya_library_free(own);
    }
    haya_selector_free(selector);
    haya_library_free(kept);
    haya_fault_free(&fault);
    return all ? 0 : 1;
}
