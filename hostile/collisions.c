/* collisions NUMBER FIRST SECOND [list]: prints so many names of seven characters, a line each, that go to the same place of a map which
 * hashes with these two keys (crates/hayagriva/src/hash_keys.rt), as long as it has no more than 2^13 groups, which take 73,728 names. A
 * hasher of SipHash-1-3 takes the two keys in as numbers, then the name and a byte of 255; the map takes the two halves of the
 * hash with `^`, and of that the lowest bits for the group. With `list` the map's keys are lists of one name: their length is taken
 * in first. */
#include <stdint.h>
#include <stdio.h>
#include <stdlib.h>
#include <string.h>

enum { BITS = 13, LETTERS = 36, LENGTH = 7 };

static const char letters[] = "abcdefghijklmnopqrstuvwxyz0123456789";

typedef struct sip { uint64_t a, b, c, d; } sip;

static inline uint64_t turned(uint64_t word, int by) { return word << by | word >> (64 - by); }

static inline sip round_of(sip s) {
    s.a += s.b, s.c += s.d;
    s.b = turned(s.b, 13) ^ s.a, s.d = turned(s.d, 16) ^ s.c;
    s.a = turned(s.a, 32);
    s.c += s.b, s.a += s.d;
    s.b = turned(s.b, 17) ^ s.c, s.d = turned(s.d, 21) ^ s.a;
    s.c = turned(s.c, 32);
    return s;
}

static inline sip with_word(sip s, uint64_t word) {
    s.d ^= word;
    s = round_of(s);
    s.a ^= word;
    return s;
}

/* The hash of seven bytes, the first of them lowest, behind so many words. */
static inline uint32_t hash_of(sip s, uint64_t name, uint64_t words) {
    s = with_word(s, name | UINT64_C(0xff) << 56);
    s = with_word(s, (words + 1) * 8 << 56);
    s.c ^= 0xff;
    s = round_of(round_of(round_of(s)));
    uint64_t hash = s.a ^ s.b ^ s.c ^ s.d;
    return (uint32_t)(hash ^ hash >> 32);
}

/* The name with this number: the letters of the number, the last of them at the end. */
static void spell(uint64_t number, char *name, int length) {
    for (int i = length; i-- > 0; number /= LETTERS) name[i] = letters[number % LETTERS];
}

int main(int count, char **words) {
    sip keyed = {UINT64_C(0x736f6d6570736575), UINT64_C(0x646f72616e646f6d), UINT64_C(0x6c7967656e657261), UINT64_C(0x7465646279746573)};
    if (count < 4) return 2;
    keyed = with_word(with_word(keyed, strtoull(words[2], NULL, 10)), strtoull(words[3], NULL, 10));
    long wanted = atol(words[1]);
    uint64_t behind = 2;
    if (count == 5 && strcmp(words[4], "list") == 0) keyed = with_word(keyed, 1), behind = 3;
    for (uint64_t front = 0; wanted > 0; front++) {
        char name[LENGTH + 1] = {0};
        uint64_t word = 0;
        spell(front, name, LENGTH - 2);
        memcpy(&word, name, LENGTH - 2);
        for (int i = 0; i < LETTERS * LETTERS && wanted > 0; i++) {
            uint64_t end = (uint64_t)letters[i / LETTERS] << 40 | (uint64_t)letters[i % LETTERS] << 48;
            if ((hash_of(keyed, word | end, behind) & ((1 << BITS) - 1)) != 0) continue;
            printf("%s%c%c\n", name, letters[i / LETTERS], letters[i % LETTERS]);
            wanted--;
        }
    }
    return 0;
}
