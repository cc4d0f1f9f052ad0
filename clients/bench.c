/* How much of a processor it takes to ask a library. */
#include "hayagriva.h"

#include <stdio.h>
#include <string.h>
#include <time.h>

/* Milliseconds of the processor so far. */
static double now(void) { return (double)clock() * 1e3 / CLOCKS_PER_SEC; }

int main(void) {
    const char *text = "0\tdependence\tarticle\tdoi=10.1145/24039.24041\n1\ttoplas\tperiodical\tissn=0164-0925\n"
                       "0\tfeminism\tarticle\tlanguage=en\n1\taeon\tblog\n";
    const char *words = "article[doi] > p:periodical";
    haya_library *library = NULL;
    haya_selector *selector = NULL;
    haya_fault fault = HAYA_NO_FAULT;
    haya_entry hit = {0, 0}, bound[1];
    size_t used, found = 0, read = 0, bytes = 0, have = 0;
    char room[64];
    if (haya_library_read(text, strlen(text), HAYA_LINES, 1, 2, &library, &fault) != HAYA_OK
        || haya_selector_read(words, strlen(words), &used, &selector, &fault) != HAYA_OK) {
        return 1;
    }
    double begun = now();
    for (int i = 0; i < 100000; i++) {
        size_t place = 0;
        while (haya_library_next(library, selector, &place, &hit, bound, 1) == HAYA_OK) {
            found++;
        }
    }
    double asked = now();
    for (int i = 0; i < 100000; i++) {
        read += haya_selector_read(words, strlen(words), &used, &selector, &fault) == HAYA_OK;
    }
    double selected = now();
    for (int i = 0; i < 1000000; i++) {
        size_t len;
        bytes += haya_entry_key(library, bound, room, sizeof room, &len) == HAYA_OK ? len : 0;
    }
    double walked = now();
    for (int i = 0; i < 1000000; i++) {
        have += haya_entry_has(library, bound, "issn", 4);
    }
    double looked = now();
    printf("100,000 queries by a selector that was read: %.0f ms (%zu hits)\n", asked - begun, found);
    printf("100,000 selectors: %.0f ms (%zu read)\n", selected - asked, read);
    printf("1,000,000 keys of a parent: %.0f ms (%zu bytes)\n", walked - selected, bytes);
    printf("1,000,000 looks at a parent: %.0f ms (%zu have the name)\n", looked - walked, have);
    haya_selector_free(selector);
    haya_library_free(library);
    return 0;
}
