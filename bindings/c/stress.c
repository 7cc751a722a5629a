/* Random calls of four threads on handles of the same names, for so many seconds: stress SECONDS [SEED]. The threads compare
 * the code of each text in one table: a text has one code, a code one text, and what a thread has put is found by all. At the
 * end of a round each handle is freed. Prints the calls; ends with 1 at the first difference. */
#include "elsa.h"
#include <pthread.h>
#include <sched.h>
#include <stdatomic.h>
#include <stdio.h>
#include <stdlib.h>
#include <string.h>
#include <time.h>

#define THREADS 4
#define MOST 200000
#define NONE SIZE_MAX

/* The code of each text, and the text of each code, as the threads have seen them. */
static _Atomic size_t code_of[MOST], text_of[MOST];
static elsa_shared handles[THREADS];
static size_t texts, calls_of[THREADS], busy_of[THREADS];
static uint64_t seed;

#define MUST(fact)                                                                                          \
    do {                                                                                                    \
        if (!(fact)) {                                                                                      \
            fprintf(stderr, "seed %llu, line %d: %s\n", (unsigned long long)seed, __LINE__, #fact);         \
            exit(1);                                                                                        \
        }                                                                                                   \
    } while (0)

static size_t below(uint64_t *state, size_t n) {
    *state ^= *state << 13;
    *state ^= *state >> 7;
    *state ^= *state << 17;
    return (size_t)(*state % n);
}

/* Writes a text with this number, of 1 to 900 bytes. */
static size_t written(char *text, size_t number) {
    size_t len = (size_t)snprintf(text, 32, "%zu", number);
    if (number % 97 == 0)
        while (len < number % 900) text[len++] = '.';
    return len;
}

/* Notes a code of a text, and compares it with what the other threads have noted. */
static void note(size_t number, size_t code) {
    size_t none = NONE;
    MUST(code < texts);
    if (!atomic_compare_exchange_strong(&code_of[number], &none, code)) MUST(none == code);
    none = NONE;
    if (!atomic_compare_exchange_strong(&text_of[code], &none, number)) MUST(none == number);
}

static void *work(void *given) {
    const size_t me = (size_t)((elsa_shared *)given - handles);
    elsa_shared *mine = given, other = ELSA_UNSHARED;
    uint64_t state = seed * 4 + me + 1;
    char text[1000];
    size_t count = 0;
    const size_t calls = 1000 + below(&state, 4 * texts);
    for (size_t call = 0; call < calls; call++) {
        /* low numbers are frequent, as words are */
        const size_t number = below(&state, 1 + below(&state, texts)), len = written(text, number), kind = below(&state, 100);
        const uint8_t *bytes = (const uint8_t *)text, *at;
        size_t code = 77, length = 77;
        if (kind < 50) {
            uint32_t fault;
            while ((fault = elsa_shared_try_put(mine, bytes, len, &code)) == ELSA_BUSY) {
                MUST(code == 77);
                busy_of[me]++;
                sched_yield();
            }
            MUST(fault == ELSA_OK);
            note(number, code);
        } else if (kind < 75) {
            const size_t known = atomic_load(&code_of[number]);
            const bool found = elsa_shared_find(mine, bytes, len, &code);
            MUST(found || (known == NONE && code == 77));
            if (found) note(number, code);
        } else if (kind < 97) {
            const size_t wanted = below(&state, texts + 2);
            const size_t known = wanted < texts ? atomic_load(&text_of[wanted]) : NONE;
            const bool found = elsa_shared_at(mine, wanted, &at, &length);
            MUST(found || known == NONE);
            if (found && known != NONE) {
                const size_t wrote = written(text, known);
                MUST(length == wrote && memcmp(at, text, wrote) == 0);
            }
        } else if (kind < 99) {
            const size_t now = elsa_shared_len(mine);
            MUST(count <= now && now <= texts);
            count = now;
        } else {
            /* goes on by another handle of the same names */
            MUST(elsa_shared_again(mine, &other) == ELSA_OK);
            elsa_shared_free(mine);
            MUST(elsa_shared_again(&other, mine) == ELSA_OK);
            elsa_shared_free(&other);
        }
    }
    calls_of[me] += calls;
    return NULL;
}

int main(int argc, char **argv) {
    const double seconds = argc > 1 ? atof(argv[1]) : 1;
    seed = argc > 2 ? strtoull(argv[2], NULL, 10) : (uint64_t)time(NULL);
    const uint64_t first = seed;
    const time_t begun = time(NULL);
    size_t rounds = 0;
    do {
        seed = first * 1000003 + rounds++;
        uint64_t state = seed + 1;
        texts = 1 + below(&state, below(&state, 3) == 0 ? MOST : 2000);
        for (size_t i = 0; i < texts; i++) {
            atomic_store(&code_of[i], NONE);
            atomic_store(&text_of[i], NONE);
        }
        const elsa_seed secret = {below(&state, SIZE_MAX), below(&state, SIZE_MAX)};
        MUST(elsa_shared_new(&handles[0], &secret) == ELSA_OK);
        for (size_t i = 1; i < THREADS; i++) MUST(elsa_shared_again(&handles[0], &handles[i]) == ELSA_OK);
        pthread_t threads[THREADS];
        for (size_t i = 0; i < THREADS; i++) MUST(pthread_create(&threads[i], NULL, work, &handles[i]) == 0);
        for (size_t i = 0; i < THREADS; i++) MUST(pthread_join(threads[i], NULL) == 0);
        size_t known = 0;
        for (size_t i = 0; i < texts; i++) known += atomic_load(&code_of[i]) != NONE;
        for (size_t i = 0; i < THREADS; i++) {
            MUST(elsa_shared_len(&handles[i]) == known);
            for (size_t code = 0; code < known; code++) MUST(atomic_load(&text_of[code]) != NONE);
        }
        for (size_t i = 0; i < THREADS; i++) elsa_shared_free(&handles[i]);
    } while ((double)(time(NULL) - begun) < seconds);
    size_t calls = 0, busy = 0;
    for (size_t i = 0; i < THREADS; i++) {
        calls += calls_of[i];
        busy += busy_of[i];
    }
    printf("%zu calls of %d threads in %zu rounds from seed %llu, %zu times busy: none failed\n", calls, THREADS, rounds,
        (unsigned long long)first, busy);
    return 0;
}
