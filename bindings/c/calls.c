/* Random calls against a plain model: texts of 0 to 100,000 bytes, bytes that are not UTF-8, ends out of order, too few
 * codes, null pointers with the length 0, and allocations that fail; handles of shared names, with and without names. And
 * texts that are crafted against a seed. Prints the calls of each kind; ends with 1 at the first difference. */
#include "elsa.h"
#include <stdio.h>
#include <stdlib.h>
#include <string.h>
#include <time.h>

void *__real_malloc(size_t n);
void *__real_realloc(void *p, size_t n);
static long failing = -1, refused = 0;

static bool fails(void) {
    if (failing < 0 || failing-- != 0) return false;
    refused++;
    return true;
}
void *__wrap_malloc(size_t n) { return fails() ? NULL : __real_malloc(n); }
void *__wrap_realloc(void *p, size_t n) { return fails() ? NULL : __real_realloc(p, n); }

#define MUST(fact)                                                                   \
    do {                                                                             \
        if (!(fact)) {                                                               \
            fprintf(stderr, "call %zu, line %d: %s\n", call, __LINE__, #fact);       \
            exit(1);                                                                 \
        }                                                                            \
    } while (0)

static uint64_t state = 88172645463325252u;
static size_t below(size_t n) {
    state ^= state << 13;
    state ^= state >> 7;
    state ^= state << 17;
    return (size_t)(state % n);
}

static bool is_utf8(const uint8_t *p, size_t n) {
    for (size_t i = 0; i < n;) {
        uint8_t b = p[i];
        size_t more = b < 0x80 ? 0 : b >= 0xc2 && b < 0xe0 ? 1 : b >= 0xe0 && b < 0xf0 ? 2 : b >= 0xf0 && b < 0xf5 ? 3 : 9;
        if (more == 9 || n - i <= more) return false;
        for (size_t k = 1; k <= more; k++)
            if ((p[i + k] & 0xc0) != 0x80) return false;
        if ((b == 0xe0 && p[i + 1] < 0xa0) || (b == 0xed && p[i + 1] > 0x9f)) return false;
        if ((b == 0xf0 && p[i + 1] < 0x90) || (b == 0xf4 && p[i + 1] > 0x8f)) return false;
        i += more + 1;
    }
    return true;
}

#define LONGEST 100000
static uint8_t block[2 * LONGEST];

/* Writes a text, which may be no UTF-8, and returns its length. */
static size_t random_text(uint8_t *p) {
    size_t n = below(200) == 0 ? below(LONGEST) : below(7), used = 0;
    while (used < n) {
        if (below(5) == 0 && used + 2 <= n) {
            p[used++] = 0xc3;
            p[used++] = 0xa9;
        } else
            p[used++] = (uint8_t)('a' + below(3));
    }
    if (n > 0 && below(20) == 0) p[below(n)] = (uint8_t)(128 + below(128));
    return n;
}

/* The pointer, or null in half of the cases in which nothing is there. */
#define SOME(p, n) ((n) == 0 && below(2) == 0 ? NULL : (p))

typedef struct { uint8_t *p; size_t n; } name;
static name *names;
static size_t count;

static size_t place(const uint8_t *p, size_t n) {
    for (size_t i = 0; i < count; i++)
        if (names[i].n == n && memcmp(names[i].p, p, n) == 0) return i;
    return count;
}

static void add(const uint8_t *p, size_t n) {
    names[count].p = __real_malloc(n + 1);
    memcpy(names[count].p, p, n);
    names[count++].n = n;
}

/* The processor time of numbering 3,000 texts that have one hash under the seed which sets the factor of their bytes 24 to 31
 * to zero. */
static clock_t crafted(elsa_seed seed) {
    static uint8_t texts[3000 * 48];
    static size_t ends[3000], codes[3000];
    size_t done = 0, call = 0;
    for (size_t i = 0; i < 3000; i++) {
        char text[49];
        snprintf(text, sizeof text, "%024zuelsaseed%016d", i, 0);
        memcpy(texts + 48 * i, text, 48);
        ends[i] = 48 * (i + 1);
    }
    clock_t begun = clock();
    MUST(elsa_factorize(texts, sizeof texts, ends, 3000, codes, 3000, &done, &seed) == ELSA_OK && codes[2999] == 2999);
    elsa_dictionary words = ELSA_SEEDED(seed.start, seed.factor);
    MUST(elsa_dictionary_put_many(&words, texts, sizeof texts, ends, 3000, codes, 3000, &done) == ELSA_OK && done == 3000);
    MUST(words.seed.start == seed.start && words.seed.factor == seed.factor);
    elsa_dictionary_free(&words);
    MUST(words.seed.start == seed.start && words.seed.factor == seed.factor);
    return clock() - begun;
}

static void try_seeds(void) {
    size_t call = 0;
    const uint64_t zero = 0x9E3779B97F4A7C15, letters = 0x6465657361736c65; /* "elsaseed" */
    elsa_seed known = {5, letters ^ zero}, other = {5, letters ^ zero ^ 1};
    MUST(crafted(other) * 5 < crafted(known));
}

#define HANDLES 3

/* Random calls by some handles, of which those with names share them. One thread is never told that another adds a text. */
static void try_shared(size_t calls) {
    elsa_shared handles[HANDLES] = {ELSA_UNSHARED, ELSA_UNSHARED, ELSA_UNSHARED};
    bool has[HANDLES] = {false};
    size_t kinds[6] = {0}, sharing = 0;
    const long begun = refused;
    for (size_t call = 0; call < calls; call++) {
        const size_t kind = below(40) == 0 ? 4 + below(2) : below(4), me = below(HANDLES), you = below(HANDLES);
        size_t code = 77, n = random_text(block);
        const bool valid = is_utf8(block, n), failed = kind != 1 && below(3) == 0;
        kinds[kind]++;
        const long before = refused;
        if (kind == 0 || kind == 1) {
            const size_t at = place(block, n);
            failing = failed ? (long)below(4) : -1;
            const uint32_t fault = elsa_shared_try_put(&handles[me], SOME(block, n), n, &code);
            failing = -1;
            if (!valid) MUST(fault == ELSA_NOT_UTF8);
            else if (!has[me]) MUST(fault == ELSA_NO_NAMES);
            else if (refused > before) MUST(fault == ELSA_MEMORY && at == count);
            else MUST(fault == ELSA_OK && code == at);
            if (fault != ELSA_OK) MUST(code == 77);
            else if (at == count) add(block, n);
        } else if (kind == 2) {
            const bool found = elsa_shared_find(&handles[me], SOME(block, n), n, &code);
            MUST(found == (valid && has[me] && place(block, n) < count));
            MUST(code == (found ? place(block, n) : 77));
        } else if (kind == 3) {
            const uint8_t *text = block;
            size_t len = 77, wanted = below(8) == 0 ? below(SIZE_MAX) : below(count + 2);
            const bool found = elsa_shared_at(&handles[me], wanted, &text, &len);
            MUST(found == (has[me] && wanted < count));
            if (found) MUST(len == names[wanted].n && (len == 0 || memcmp(text, names[wanted].p, len) == 0));
            else MUST(len == 77 && text == block);
        } else if (kind == 4) {
            elsa_shared_free(&handles[me]);
            sharing -= has[me];
            has[me] = false;
            if (sharing == 0)
                while (count > 0) free(names[--count].p);
        } else if (sharing == 0) {
            const elsa_seed seed = {below(SIZE_MAX), below(SIZE_MAX)};
            failing = failed ? (long)below(5) : -1;
            const uint32_t fault = elsa_shared_new(&handles[me], &seed);
            failing = -1;
            MUST(fault == (refused > before ? ELSA_MEMORY : ELSA_OK));
            has[me] = fault == ELSA_OK;
            sharing += has[me];
        } else if (me != you && !(has[you] && sharing == 1)) {
            failing = failed ? 0 : -1;
            const uint32_t fault = elsa_shared_again(&handles[me], &handles[you]);
            failing = -1;
            MUST(fault == (!has[me] ? ELSA_NO_NAMES : refused > before ? ELSA_MEMORY : ELSA_OK));
            sharing -= has[you];
            has[you] = fault == ELSA_OK;
            sharing += has[you];
            if (sharing == 0)
                while (count > 0) free(names[--count].p);
        }
        for (size_t i = 0; i < HANDLES; i++) MUST(elsa_shared_len(&handles[i]) == (has[i] ? count : 0));
    }
    for (size_t i = 0; i < HANDLES; i++) {
        elsa_shared_free(&handles[i]);
        elsa_shared_free(&handles[i]);
    }
    while (count > 0) free(names[--count].p);
    printf("shared: put %zu, find %zu, at %zu, free %zu, new and again %zu; %ld allocations failed\n", kinds[0] + kinds[1],
        kinds[2], kinds[3], kinds[4], kinds[5], refused - begun);
}

int main(int argc, char **argv) {
    size_t calls = argc > 1 ? (size_t)atol(argv[1]) : 10000, kinds[6] = {0};
    names = __real_malloc((calls * 30 + 1) * sizeof *names);
    elsa_dictionary words = ELSA_EMPTY;
    try_seeds();
    for (size_t call = 0; call < calls; call++) {
        size_t kind = below(6), code = 77, n = random_text(block);
        kinds[kind]++;
        bool valid = is_utf8(block, n);
        if (kind == 0) {
            size_t at = place(block, n);
            failing = below(3) == 0 ? (long)below(4) : -1;
            long before = refused;
            uint32_t fault = elsa_dictionary_put(&words, SOME(block, n), n, &code);
            failing = -1;
            if (!valid) MUST(fault == ELSA_NOT_UTF8 && code == 77);
            else if (refused > before) MUST(fault == ELSA_MEMORY && code == 77 && at == count);
            else {
                MUST(fault == ELSA_OK && code == at);
                if (at == count) add(block, n);
            }
        } else if (kind == 1) {
            bool found = elsa_dictionary_find(&words, SOME(block, n), n, &code);
            MUST(found == (valid && place(block, n) < count));
            MUST(code == (found ? place(block, n) : 77));
        } else if (kind == 2) {
            const uint8_t *text = block;
            size_t len = 77, wanted = below(8) == 0 ? below(SIZE_MAX) : below(count + 2);
            bool found = elsa_dictionary_at(&words, wanted, &text, &len);
            MUST(found == (wanted < count));
            if (found) MUST(len == names[wanted].n && (len == 0 || memcmp(text, names[wanted].p, len) == 0));
            else MUST(len == 77 && text == block);
        } else {
            size_t ends[20], codes[20], first[20], texts = below(20), room = below(9) == 0 ? below(20) : 20, done = 77, bytes = 0;
            for (size_t i = 0; i < texts; i++) {
                if (bytes < LONGEST) bytes += random_text(block + bytes);
                ends[i] = below(60) == 0 ? below(bytes + 3) : below(300) == 0 ? SIZE_MAX : bytes;
            }
            for (size_t i = 0; i < 20; i++) codes[i] = 77;
            size_t wanted = texts, start = 0, kept = count, distinct = 0;
            uint32_t expected = room < texts ? ELSA_TOO_FEW_CODES : ELSA_OK;
            failing = kind == 3 && below(3) == 0 ? (long)below(8) : -1;
            long before = refused;
            elsa_seed seed = {below(SIZE_MAX), below(SIZE_MAX)};
            const uint8_t *at = SOME(block, bytes);
            const size_t *ended = SOME(ends, texts);
            size_t *written = SOME(codes, room);
            uint32_t fault = kind == 3 ? elsa_dictionary_put_many(&words, at, bytes, ended, texts, written, room, &done)
                                       : elsa_factorize(at, bytes, ended, texts, written, room, &done, &seed);
            failing = -1;
            bool out = refused > before;
            if (expected == ELSA_TOO_FEW_CODES) wanted = 0;
            for (size_t i = 0; i < wanted; i++) {
                if (ends[i] < start || ends[i] > bytes) expected = ELSA_ENDS_OUT_OF_ORDER;
                else if (!is_utf8(block + start, ends[i] - start)) expected = ELSA_NOT_UTF8;
                if (expected != ELSA_OK) {
                    wanted = i;
                    break;
                }
                if (out && i == done) break;
                if (kind == 3) {
                    size_t at = place(block + start, ends[i] - start);
                    if (at == count) add(block + start, ends[i] - start);
                    MUST(codes[i] == at);
                } else {
                    size_t j = 0, begin = 0;
                    while (j < i && !(ends[j] - begin == ends[i] - start && memcmp(block + begin, block + start, ends[i] - start) == 0))
                        begin = ends[j++];
                    MUST(codes[i] == (j < i ? codes[j] : distinct));
                    if (j == i) first[distinct++] = i;
                }
                start = ends[i];
            }
            if (out && done < wanted) MUST(fault == ELSA_MEMORY);
            else if (out) MUST(fault == expected || (fault == ELSA_MEMORY && done == 0));
            else MUST(fault == expected && done == wanted);
            if (fault == ELSA_TOO_FEW_CODES) MUST(done == 0);
            for (size_t i = done; i < 20; i++) MUST(codes[i] == 77);
            if (kind > 3 && fault == ELSA_OK) {
                size_t found[20], slots = below(3) == 0 ? below(20) : 20, least = slots < distinct ? slots : distinct;
                MUST(elsa_firsts(SOME(codes, done), done, SOME(found, slots), slots) == least);
                MUST(memcmp(found, first, least * sizeof *found) == 0);
            }
            MUST(kind == 3 || count == kept);
        }
        MUST(elsa_dictionary_len(&words) == count);
        if (below(2000) == 0) {
            elsa_dictionary_free(&words);
            words.seed.start = below(SIZE_MAX);
            words.seed.factor = below(SIZE_MAX);
            while (count > 0) free(names[--count].p);
        }
    }
    elsa_dictionary_free(&words);
    elsa_dictionary_free(&words);
    while (count > 0) free(names[--count].p);
    const long failed = refused;
    try_shared(calls);
    free(names);
    printf("put %zu, find %zu, at %zu, put_many %zu, factorize %zu; %ld allocations failed\n", kinds[0], kinds[1], kinds[2],
        kinds[3], kinds[4] + kinds[5], failed);
    return 0;
}
