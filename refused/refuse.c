/* Loaded before the C library into a test program, this runs each call that a test marks again and again: with its first
   request for memory refused, with its second, and so on until none is refused, and then with all of them refused. Each
   run is a copy of the process as it stands where the call begins, so making the values is never refused. The test goes
   on from there with nothing refused. Each run is one line on standard output:

       run N|all refused|given ANSWER       ANSWER is normal, out-of-memory, or none and how the process ended

   and a call's first line is `call MEMORY`, behind the line that the test prints, which names it. What the test tells is
   told by requests of sizes that no block has: crates/NAME/src/refused/marks.rt has the same. */
/* A program that marks nothing is run so as a whole where REFUSE_EACH is set: `lines` runs it once for each line of
   standard input, which is then all of its input, and `all` once with all of it. It is out of memory where it ends with
   a status other than 0, its last line on standard error says so, and what it printed are whole lines of what it prints
   otherwise; where it ends with the status 1 it may leave out a hint instead. Its normal answer is the status and all that
   it prints and says where nothing is refused. */
#define _GNU_SOURCE
#include <errno.h>
#include <fcntl.h>
#include <signal.h>
#include <stdio.h>
#include <stdlib.h>
#include <string.h>
#include <sys/mman.h>
#include <sys/stat.h>
#include <sys/wait.h>
#include <unistd.h>

/* The odd size by which a test asks whether somebody listens, and the bytes of `refused` and one more. */
#define LISTENS 0x7265
enum mark { NO_MARK, TAKEN, NOT_TAKEN, MAYBE, OFTEN, OPTIONAL, ENDS, NORMAL, OUT_OF_MEMORY, MARKS };
#define FIRST_MARK 0x7265667573656400UL

/* More requests than these are tried at some places alone, where the test says so; otherwise it is a fault. */
#define SOME 12
#define MOST 100000
#define SECONDS 60

/* No request has this number. */
#define NONE (-1UL)

/* Of glibc: what it gives where nobody stands before it. */
void *__libc_malloc(size_t);
void *__libc_calloc(size_t, size_t);
void *__libc_realloc(void *, size_t);
void *__libc_memalign(size_t, size_t);

/* What the process of a run leaves for the one that waits for it. */
static struct told { unsigned long requests; int answer; } *told;

static int is_run, is_within, refuses_all;
static unsigned long nth;

static int is_refused(void) {
    if (!is_within) return 0;
    told->requests++;
    if (!refuses_all && told->requests != nth) return 0;
    errno = ENOMEM;
    return 1;
}

static void say(const char *line, int length) {
    while (length > 0) {
        ssize_t n = write(STDOUT_FILENO, line, length);
        if (n < 0 && errno == EINTR) continue;
        if (n < 0) _exit(99);
        line += n, length -= n;
    }
}

/* Says what the run answered that refused the nth request, or all, and ended so. */
static void say_run(int ended) {
    char line[160], name[24], answer[64];
    int refused = refuses_all ? told->requests > 0 : told->requests >= nth;
    snprintf(name, sizeof name, refuses_all ? "all" : nth == NONE ? "none" : "%lu", nth);
    if (told->answer == NORMAL) snprintf(answer, sizeof answer, "normal");
    else if (told->answer == OUT_OF_MEMORY) snprintf(answer, sizeof answer, "out-of-memory");
    else if (WIFSIGNALED(ended)) snprintf(answer, sizeof answer, "none, ended by signal %d", WTERMSIG(ended));
    else snprintf(answer, sizeof answer, "none, ended with status %d", WEXITSTATUS(ended));
    say(line, snprintf(line, sizeof line, "run %s %s %s\n", name, refused ? "refused" : "given", answer));
}

/* Makes a copy of the process that refuses the request number n, or all where n is 0. Answers whether this is the copy;
   the other has waited for it, and said what it answered. */
static int is_copy(unsigned long n) {
    int ended = 0;
    *told = (struct told){0, 0};
    nth = n, refuses_all = n == 0;
    pid_t child = fork();
    if (child < 0) _exit(98);
    if (child == 0) {
        is_run = is_within = 1;
        alarm(SECONDS);
        return 1;
    }
    while (waitpid(child, &ended, 0) < 0 && errno == EINTR) {}
    say_run(ended);
    return 0;
}

/* Runs the call that begins here, with each request refused in turn and with all refused. Answers whether this is one of
   the runs. */
static int runs_each(void) {
    for (unsigned long n = 1; n <= MOST; n++) {
        if (is_copy(n)) return 1;
        if (told->requests < n) break;
    }
    return is_copy(0);
}

/* The same for a call of many requests: the first, the last and ten between are refused, and then the one behind the
   last, which there isn't. */
static int runs_some(void) {
    unsigned long most;
    if (is_copy(NONE)) return 1;
    most = told->requests;
    for (unsigned long at = 0; at < SOME && most > 0; at++) {
        if (is_copy(1 + (most - 1) * at / (SOME - 1))) return 1;
    }
    return is_copy(most + 1) || is_copy(0);
}

static void begin(enum mark memory) {
    static const char *const names[] = {[TAKEN] = "call taken\n", [NOT_TAKEN] = "call not-taken\n",
                                        [MAYBE] = "call maybe\n", [OFTEN] = "call often\n",
                                        [OPTIONAL] = "call optional\n"};
    if (is_run) return; /* a test that begins a call within a call has no answer for the first */
    if (told == NULL) {
        told = mmap(NULL, sizeof *told, PROT_READ | PROT_WRITE, MAP_SHARED | MAP_ANONYMOUS, -1, 0);
        if (told == MAP_FAILED) _exit(97);
    }
    say(names[memory], strlen(names[memory]));
    if (memory == OFTEN) runs_some();
    else runs_each();
}

/* Hears a request of this size: whether it is a mark. */
static int is_mark(size_t size) {
    enum mark mark = size - FIRST_MARK;
    if (size < FIRST_MARK || size >= FIRST_MARK + MARKS || mark == NO_MARK) return 0;
    if (mark == ENDS) {
        is_within = 0;
    } else if (mark == NORMAL || mark == OUT_OF_MEMORY) {
        if (is_run && is_within) _exit(96);
        if (is_run) told->answer = mark, _exit(0);
    } else {
        begin(mark);
    }
    errno = ENOMEM;
    return 1;
}

void *malloc(size_t size) {
    if (size == LISTENS && !is_within) return NULL;
    return is_mark(size) || is_refused() ? NULL : __libc_malloc(size);
}

void *calloc(size_t count, size_t size) { return is_refused() ? NULL : __libc_calloc(count, size); }

void *realloc(void *at, size_t size) { return is_refused() ? NULL : __libc_realloc(at, size); }

void *memalign(size_t align, size_t size) { return is_refused() ? NULL : __libc_memalign(align, size); }

void *aligned_alloc(size_t align, size_t size) { return memalign(align, size); }

int posix_memalign(void **at, size_t align, size_t size) {
    void *given;
    if (align < sizeof(void *) || (align & (align - 1)) != 0) return EINVAL;
    given = memalign(align, size);
    if (given != NULL) *at = given;
    return given != NULL ? 0 : ENOMEM;
}

/* What a program leaves: its status, and what it printed and said, in files of memory. */
static struct left { int status, files[2]; char *texts[2]; size_t sizes[2]; } normally, now;

static char *mapped(int file, size_t *size) {
    struct stat found;
    if (fstat(file, &found) != 0) _exit(95);
    *size = found.st_size;
    return *size == 0 ? "" : mmap(NULL, *size, PROT_READ, MAP_SHARED, file, 0);
}

static int ends_with(const char *text, size_t size, const char *end) {
    size_t length = strlen(end);
    return size >= length && memcmp(text + size - length, end, length) == 0;
}

static int is_alike(int at) {
    return now.sizes[at] == normally.sizes[at] && memcmp(now.texts[at], normally.texts[at], now.sizes[at]) == 0;
}

/* Whether what is printed of a list, an element a line, ends where an element may: the comma behind it comes with the next. */
static int is_list_up_to(size_t size) {
    const char *all = normally.texts[0];
    if (normally.sizes[0] < 2 || (all[0] != '[' && all[0] != '{') || all[1] != '\n') return 0;
    return size == normally.sizes[0] || all[size] == '\n' || all[size] == ',';
}

static int answer_of(void) {
    const char *out = now.texts[0];
    size_t size = now.sizes[0];
    if (now.status == normally.status && is_alike(0)) {
        if (is_alike(1)) return NORMAL;
        /* A hint is left out: it is said where nothing is found. */
        if (WIFEXITED(now.status) && WEXITSTATUS(now.status) == 1 && now.sizes[1] < normally.sizes[1] &&
            memcmp(now.texts[1], normally.texts[1], now.sizes[1]) == 0) return OUT_OF_MEMORY;
    }
    if (!WIFEXITED(now.status) || WEXITSTATUS(now.status) == 0) return NO_MARK;
    if (!ends_with(now.texts[1], now.sizes[1], "out of memory\n")) return NO_MARK;
    if (size > normally.sizes[0] || memcmp(out, normally.texts[0], size) != 0) return NO_MARK;
    return size == 0 || out[size - 1] == '\n' || is_list_up_to(size) ? OUT_OF_MEMORY : NO_MARK;
}

/* Runs the program over this input in a copy, with the request number n refused, all where n is 0, or none. Answers
   whether this is the copy; the other has waited for it. */
static int is_program(const char *input, size_t size, unsigned long n) {
    pid_t child;
    *told = (struct told){0, 0};
    nth = n, refuses_all = n == 0;
    for (int at = 0; at < 2; at++) now.files[at] = memfd_create("left", 0);
    child = fork();
    if (child < 0) _exit(98);
    if (child == 0) {
        int file = memfd_create("input", 0);
        for (size_t sent = 0; sent < size;) {
            ssize_t count = write(file, input + sent, size - sent);
            if (count <= 0) _exit(94);
            sent += count;
        }
        lseek(file, 0, SEEK_SET);
        dup2(file, STDIN_FILENO), dup2(now.files[0], STDOUT_FILENO), dup2(now.files[1], STDERR_FILENO);
        is_run = is_within = 1;
        alarm(SECONDS);
        return 1;
    }
    while (waitpid(child, &now.status, 0) < 0 && errno == EINTR) {}
    for (int at = 0; at < 2; at++) now.texts[at] = mapped(now.files[at], &now.sizes[at]);
    return 0;
}

static void let_go(struct left *left) {
    for (int at = 0; at < 2; at++) {
        if (left->sizes[at] != 0) munmap(left->texts[at], left->sizes[at]);
        close(left->files[at]);
    }
}

/* Tells of the run, whose request n was refused. */
static void say_answer(unsigned long n) {
    nth = n, refuses_all = n == 0;
    told->answer = answer_of();
    say_run(now.status);
    let_go(&now);
}

/* Of so many requests, the first ones are refused, fewer where the input is large, and then some up to the last. */
#define FIRST_ONES 400
#define FIRST_OF_LARGE 40
#define LARGE 65536

/* Runs the program over this input with each request refused in turn. Answers whether this is one of the runs. */
static int runs_program(const char *input, size_t size) {
    unsigned long most, step, n, first = size > LARGE ? FIRST_OF_LARGE : FIRST_ONES;
    if (is_program(input, size, NONE)) return 1;
    normally = now, most = told->requests;
    step = most > first ? (most - first) / SOME + 1 : 1;
    for (n = 1; n <= most; n += n < first ? 1 : step) {
        if (is_program(input, size, n)) return 1;
        say_answer(n);
    }
    if (is_program(input, size, most + 1)) return 1;
    say_answer(most + 1);
    if (is_program(input, size, 0)) return 1;
    say_answer(0);
    let_go(&normally);
    return 0;
}

/* The kind of a line, up to its first tab, and the rest. */
static void say_row(const char *line, size_t size) {
    const char *tab = memchr(line, '\t', size);
    size_t kind = tab ? (size_t)(tab - line) : size, rest = tab ? size - kind - 1 : 0;
    say("row ", 4), say(line, kind), say(": ", 2), say(tab ? tab + 1 : "", rest < 100 ? rest : 100);
    say("\ncall optional\n", 15);
}

__attribute__((constructor)) static void run_programs(void) {
    static char input[1 << 23];
    const char *how = getenv("REFUSE_EACH"), *what = getenv("REFUSE_NAME");
    size_t size = 0, at = 0, length;
    ssize_t count;
    if (how == NULL) return;
    told = mmap(NULL, sizeof *told, PROT_READ | PROT_WRITE, MAP_SHARED | MAP_ANONYMOUS, -1, 0);
    if (told == MAP_FAILED) _exit(97);
    while ((count = read(STDIN_FILENO, input + size, sizeof input - size)) > 0) size += count;
    if (strcmp(how, "all") == 0) {
        say("row ", 4), say(what, strlen(what)), say("\ncall optional\n", 15);
        if (runs_program(input, size)) return;
    } else {
        for (; at < size; at += length) {
            const char *end = memchr(input + at, '\n', size - at);
            length = end ? (size_t)(end - input) - at + 1 : size - at;
            say_row(input + at, end ? length - 1 : length);
            if (runs_program(input + at, length)) return;
        }
    }
    say("test result: ok\n", 16);
    _exit(0);
}
