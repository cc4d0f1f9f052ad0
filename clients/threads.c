/* Two threads that ask one library by one selector, for helgrind: the last line is `N passed, N failed`. */
#include "hayagriva.h"

#include <pthread.h>
#include <stdio.h>
#include <stdlib.h>
#include <string.h>

enum { ROUNDS = 200 };

static haya_library *library;
static haya_selector *selector;

static void *ask(void *wrong) {
    for (int i = 0; i < ROUNDS; i++) {
        haya_entry hit = {7, 7}, bound[1] = {{7, 7}}, parent = {7, 7};
        size_t place = 0, len = 0;
        char room[64];
        bool holds = false, is_right = haya_library_len(library) == 2;
        is_right &= haya_library_next(library, selector, &place, &hit, bound, 1) == HAYA_OK && hit.place == 0 && bound[0].step == 1;
        is_right &= haya_library_next(library, selector, &place, &hit, bound, 1) == HAYA_END;
        is_right &= haya_entry_key(library, bound, room, sizeof room, &len) == HAYA_OK && len == 6 && memcmp(room, "toplas", 6) == 0;
        is_right &= haya_entry_text(library, &hit, "doi", 3, room, sizeof room, &len) == HAYA_OK && len == 19;
        is_right &= haya_entry_text_as(library, &hit, "title", 5, HAYA_PLAIN, room, sizeof room, &len) == HAYA_OK && len == 7;
        is_right &= haya_entry_json(library, &hit, room, sizeof room, &len) == HAYA_OK;
        is_right &= haya_entry_matches(library, selector, &hit, &holds) == HAYA_OK && holds;
        is_right &= haya_entry_parent(library, &hit, 0, &parent) == HAYA_OK && haya_entry_has(library, &parent, "issn", 4);
        is_right &= haya_selector_names(selector) == 1 && haya_library_notes(library) == 0;
        *(int *)wrong += !is_right;
    }
    return NULL;
}

int main(void) {
    const char *text = "0\tdependence\tarticle\ttitle=The {PDG}\tdoi=10.1145/24039.24041\n1\ttoplas\tperiodical\tissn=0164-0925\n"
                       "0\tfeminism\tarticle\tlanguage=en\n1\taeon\tblog\n";
    const char *words = "article[doi] > p:periodical";
    haya_fault fault = HAYA_NO_FAULT;
    size_t used;
    int wrong[2] = {0, 0};
    pthread_t threads[2];
    if (haya_library_read(text, strlen(text), HAYA_LINES, 1, 2, &library, &fault) != HAYA_OK
        || haya_selector_read(words, strlen(words), &used, &selector, &fault) != HAYA_OK) {
        return 1;
    }
    for (int i = 0; i < 2; i++) {
        if (pthread_create(&threads[i], NULL, ask, &wrong[i]) != 0) {
            return 1;
        }
    }
    for (int i = 0; i < 2; i++) {
        pthread_join(threads[i], NULL);
    }
    haya_selector_free(selector);
    haya_library_free(library);
    int failed = wrong[0] + wrong[1];
    printf("%d passed, %d failed\n", 2 * ROUNDS - failed, failed);
    return failed == 0 ? 0 : 1;
}
