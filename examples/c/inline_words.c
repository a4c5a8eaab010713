// The steps on words of include/lwkt_word.h, on each word with any flags, any count and a generation at an end or between: the digest of
// what they answer has to be the one below, on any processor. Each answer has to be that of the library too, and so on random words, two
// million or as many as the first argument says; WITHOUT_LIBRARY leaves the library out. It writes a line for each thing that isn't so,
// with an argument the digest of the random words, and last a line that counts.
#include <inttypes.h>
#include <stdio.h>
#include <stdlib.h>

#include "lwkt_word.h"
#ifndef WITHOUT_LIBRARY
#include "lwkt.h"
#endif

#define DIGEST_OF_CORNERS UINT64_C(0x672d5b1ee87343a3)
#define RANDOM_WORDS 2000000
#define STEPS 8

typedef uint32_t step(uint64_t word, uint64_t *next);

// The steps whose names begin so, all in one form, in an array.
#define STEPS_OF(PREFIX, ARRAY)                                                                                     \
    static uint32_t ARRAY##_alone(uint64_t word, uint64_t *next) { return PREFIX##share(word, true, next); }        \
    static uint32_t ARRAY##_not_alone(uint64_t word, uint64_t *next) { return PREFIX##share(word, false, next); }   \
    static uint32_t ARRAY##_mark(uint64_t word, uint64_t *next) { return *next = PREFIX##mark(word), 0; }           \
    static step *const ARRAY[STEPS] = {PREFIX##take, ARRAY##_alone,    ARRAY##_not_alone,  PREFIX##again,           \
                                       ARRAY##_mark, PREFIX##give_one, PREFIX##give_clean, PREFIX##give_written};

STEPS_OF(lwkt_inline_word_, here)
#ifdef WITHOUT_LIBRARY
#define wanted here
#else
STEPS_OF(lwkt_word_, wanted)
#endif

static const char *const names[STEPS] = {"take", "share, alone", "share", "again", "mark", "give_one", "give_clean", "give_written"};
static int passed, failed;
static uint64_t digest, others[STEPS], written_at_refusals, wrong_parts, seed = 2026;

static void count(int good, const char *what, const char *which) {
    good ? (passed += 1) : (failed += 1, printf("inline_words: %s%s\n", what, which));
}

static void add(uint64_t value) {
    digest = (digest ^ value) * UINT64_C(1099511628211);
    digest ^= digest >> 32;
}

// All steps on a word, and its parts.
static void try_word(uint64_t word) {
    for (int i = 0; i < STEPS; i += 1) {
        uint64_t next = ~word, wanted_next = ~word;
        uint32_t refused = here[i](word, &next), wanted_refused = wanted[i](word, &wanted_next);
        others[i] += refused != wanted_refused || next != wanted_next;
        written_at_refusals += refused != 0 && next != ~word;
        add(refused);
        add(next);
    }
    lwkt_inline_tok_word parts = lwkt_inline_tok_word_parts(word);
    wrong_parts += parts.generation != LWKT_WORD_GENERATION(word) || parts.count != LWKT_WORD_COUNT(word) ||
                   parts.exclusive != ((word & LWKT_WORD_EXCLUSIVE) != 0) || parts.mark != ((word & LWKT_WORD_MARK) != 0) ||
                   lwkt_inline_tok_word_make(parts.exclusive, parts.mark, parts.count, parts.generation) != word;
}

static void try_corners(void) {
    const uint64_t last = UINT64_C(70368744177663), generations[] = {0, 1, last / 2, last - 1, last};
    for (size_t i = 0; i < sizeof generations / sizeof *generations; i += 1) {
        for (uint64_t word = generations[i] << 18; word <= (generations[i] << 18 | 262143); word += 1) {
            try_word(word);
            if (word == UINT64_MAX) break;
        }
    }
}

static uint64_t random_bits(void) {
    seed += UINT64_C(0x9e3779b97f4a7c15);
    uint64_t bits = (seed ^ seed >> 30) * UINT64_C(0xbf58476d1ce4e5b9);
    bits = (bits ^ bits >> 27) * UINT64_C(0x94d049bb133111eb);
    return bits ^ bits >> 31;
}

// Half of the words have no count, a full one or the last generation.
static void try_random(unsigned long words) {
    const uint64_t full = UINT64_C(65535) << 2, last = UINT64_C(70368744177663) << 18;
    for (; words > 0; words -= 1) {
        uint64_t word = random_bits(), kind = random_bits() % 8;
        try_word(kind == 0 ? word & ~full : kind == 1 ? word | full : kind == 2 ? word | last : kind == 3 ? (word & ~full) | last : word);
    }
}

int main(int many, char **arguments) {
    char told[17];
    try_corners();
    snprintf(told, sizeof told, "%016" PRIx64, digest);
    count(digest == DIGEST_OF_CORNERS, "the digest of the corners is ", told);
    digest = 0;
    try_random(many > 1 ? strtoul(arguments[1], NULL, 10) : RANDOM_WORDS);
    if (many > 1) printf("inline_words: the digest of the random words is %016" PRIx64 "\n", digest);
    for (int i = 0; i < STEPS; i += 1) count(others[i] == 0, "not as the library: ", names[i]);
    count(written_at_refusals == 0, "a step that was refused stored a word", "");
    count(wrong_parts == 0, "the parts of a word", "");
    printf("%d passed, %d failed\n", passed, failed);
    return failed != 0;
}
