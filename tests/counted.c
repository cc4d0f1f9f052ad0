/* Counts the blocks of memory that a program takes and doesn't give back. It is linked beside dist/start.c, with
 * -Wl,--wrap=malloc,--wrap=realloc,--wrap=free, and writes their number, at the end, into the file that KEPT names. Where REFUSED is
 * a number, the request of that number is refused. The file that ASKED names gets the number of all requests. */
#include <fcntl.h>
#include <stdio.h>
#include <stdlib.h>
#include <unistd.h>

void *__real_malloc(size_t size);
void *__real_realloc(void *at, size_t size);
void __real_free(void *at);

static long blocks, requests, refused;

/* The constructor of start.c may ask before this is set, and then nothing is refused. */
__attribute__((constructor)) static void read_words(void) {
    const char *number = getenv("REFUSED");
    refused = number != NULL ? atol(number) : 0;
}

static int is_refused(void) { return ++requests == refused; }

void *__wrap_malloc(size_t size) {
    if (is_refused()) return NULL;
    void *at = __real_malloc(size);
    blocks += at != NULL;
    return at;
}

void *__wrap_realloc(void *at, size_t size) {
    if (is_refused()) return NULL;
    void *to = __real_realloc(at, size);
    blocks += to != NULL && at == NULL;
    return to;
}

void __wrap_free(void *at) {
    blocks -= at != NULL;
    __real_free(at);
}

/* Writes the number into the file that the word of the environment names, if it is there. */
static void put(const char *word, long number) {
    const char *name = getenv(word);
    char text[32];
    int file = name != NULL ? open(name, O_WRONLY | O_CREAT | O_TRUNC, 0644) : -1;
    if (file < 0) return;
    int len = snprintf(text, sizeof text, "%ld\n", number);
    if (write(file, text, (size_t)len) != len) _exit(9);
    close(file);
}

__attribute__((destructor)) static void tell(void) { put("KEPT", blocks), put("ASKED", requests); }
