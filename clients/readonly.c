/* Reads a library and a selector into memory of its own, makes that read-only, and asks: a call that wrote there would end the
 * process. Linked with --wrap=malloc,--wrap=realloc,--wrap=free: the archive's requests alone come here. The last line is
 * `N passed, N failed`. */
#define _DEFAULT_SOURCE
#include "hayagriva.h"

#include <stdio.h>
#include <stdlib.h>
#include <string.h>
#include <sys/mman.h>

void *__real_malloc(size_t size);
void *__real_realloc(void *block, size_t size);
void __real_free(void *block);

enum { ROOM = 1 << 20 };

static char *room_of_library;
static size_t taken;
static bool is_read = false;

static bool is_ours(const char *block) { return block >= room_of_library && block < room_of_library + ROOM; }

/* Blocks are taken one behind the other, each behind its size. */
void *__wrap_malloc(size_t size) {
    if (is_read) {
        return __real_malloc(size);
    }
    size_t begin = (taken + 31) / 16 * 16;
    if (begin + size > ROOM) {
        return NULL;
    }
    memcpy(room_of_library + begin - sizeof size, &size, sizeof size);
    taken = begin + size;
    return room_of_library + begin;
}

void *__wrap_realloc(void *block, size_t size) {
    if (block == NULL || !is_ours(block)) {
        return block == NULL ? __wrap_malloc(size) : __real_realloc(block, size);
    }
    size_t had;
    memcpy(&had, (char *)block - sizeof had, sizeof had);
    void *longer = __wrap_malloc(size);
    return longer == NULL ? NULL : memcpy(longer, block, had < size ? had : size);
}

void __wrap_free(void *block) {
    if (!is_ours(block)) {
        __real_free(block);
    }
}

int main(void) {
    const char *text = "{\"dependence\": {\"type\": \"article\", \"title\": {\"value\": \"The {PDG}\", \"short\": \"{PDG}\"}, \"serial-number\": {\"doi\": \"10.1145/24039.24041\"}, \"titel\": 1, "
                       "\"parent\": {\"type\": \"periodical\", \"serial-number\": {\"issn\": \"0164-0925\"}}}}";
    const char *words = "article[doi] > p:periodical";
    haya_library *library = NULL;
    haya_selector *selector = NULL;
    haya_fault fault = HAYA_NO_FAULT;
    haya_written written = HAYA_NOTHING_WRITTEN;
    haya_entry hit = {7, 7}, bound[1] = {{7, 7}}, other = {7, 7};
    size_t used, len, place = 0;
    uint64_t count = 0;
    char room[64];
    bool holds = false;
    int passed = 0;
    room_of_library = mmap(NULL, ROOM, PROT_READ | PROT_WRITE, MAP_PRIVATE | MAP_ANONYMOUS, -1, 0);
    if (room_of_library == MAP_FAILED || haya_library_read(text, strlen(text), HAYA_JSON, 1, 2, &library, &fault) != HAYA_OK
        || haya_selector_read(words, strlen(words), &used, &selector, &fault) != HAYA_OK || !is_ours((char *)library)
        || !is_ours((char *)selector) || mprotect(room_of_library, ROOM, PROT_READ) != 0) {
        return 1;
    }
    is_read = true;
    passed += haya_library_len(library) == 1;
    passed += haya_library_get(library, "dependence", 10, &other) == HAYA_OK;
    passed += haya_library_notes(library) == 1;
    passed += haya_library_note(library, 0, room, sizeof room, &len, &count) == HAYA_OK && count == 1;
    passed += haya_library_next(library, selector, &place, &hit, bound, 1) == HAYA_OK;
    passed += haya_library_next(library, selector, &place, &hit, bound, 1) == HAYA_END;
    passed += haya_library_write(library, HAYA_JSON_LINES, &written) == HAYA_OK;
    passed += haya_library_write(library, HAYA_JSON, &written) == HAYA_OK;
    passed += haya_entry_key(library, bound, room, sizeof room, &len) == HAYA_OK;
    passed += haya_entry_type(library, bound, room, sizeof room, &len) == HAYA_OK;
    passed += haya_entry_parents(library, &hit) == 1;
    passed += haya_entry_parent(library, &hit, 0, &other) == HAYA_OK;
    passed += haya_entry_has(library, &other, "issn", 4);
    passed += haya_entry_text(library, &hit, "doi", 3, room, sizeof room, &len) == HAYA_OK;
    passed += haya_entry_text_as(library, &hit, "title", 5, HAYA_SHORT, room, sizeof room, &len) == HAYA_OK && len == 3;
    passed += haya_entry_json(library, &hit, room, sizeof room, &len) == HAYA_OK;
    passed += haya_entry_matches(library, selector, &hit, &holds) == HAYA_OK && holds;
    passed += haya_selector_names(selector) == 1;
    passed += haya_selector_name(selector, 0, room, sizeof room, &len) == HAYA_OK;
    haya_written_free(&written);
    printf("%d passed, %d failed\n", passed, 19 - passed);
    return passed == 19 ? 0 : 1;
}
