/* Four threads give codes to the same texts, each in an order of its own, and compare their codes afterwards: a text has one
 * code in all threads, and each code is of one text. */
#include "elsa.h"
#include <pthread.h>
#include <sched.h>
#include <stdio.h>
#include <stdlib.h>
#include <string.h>
#include <sys/random.h>

#define THREADS 4
#define MOST 1000003

static elsa_shared handles[THREADS];
static size_t *codes[THREADS], texts = 20011;

static size_t text_of(char *text, size_t number) { return (size_t)snprintf(text, 32, "name-%zu", number); }

static void fail(const char *what, size_t number) {
    fprintf(stderr, "%s: %zu\n", what, number);
    exit(1);
}

/* What a program does for each text: it calls again while another thread adds one. */
static size_t intern(elsa_shared *names, const char *text, size_t len) {
    size_t code;
    uint32_t fault;
    while ((fault = elsa_shared_try_put(names, (const uint8_t *)text, len, &code)) == ELSA_BUSY) sched_yield();
    if (fault != ELSA_OK) fail("fault", fault);
    return code;
}

static void *work(void *given) {
    const size_t me = (size_t)((elsa_shared *)given - handles);
    char text[32];
    for (size_t i = 0; i < texts; i++) {
        const size_t number = (i * (2 * me + 1) * 7 + me * 1000) % texts, len = text_of(text, number);
        codes[me][number] = intern(given, text, len);
        size_t again, length;
        const uint8_t *at;
        if (!elsa_shared_find(given, (const uint8_t *)text, len, &again) || again != codes[me][number]) fail("lost", number);
        if (!elsa_shared_at(given, again, &at, &length) || length != len || memcmp(at, text, len) != 0) fail("differs", number);
    }
    return NULL;
}

int main(int argc, char **argv) {
    if (argc > 1) texts = (size_t)atol(argv[1]);
    if (texts == 0 || texts > MOST || texts % 7 == 0 || texts % 3 == 0 || texts % 5 == 0) fail("no number of texts", texts);
    elsa_seed seed;
    if (getrandom(&seed, sizeof seed, 0) != sizeof seed) return 1;
    if (elsa_shared_new(&handles[0], &seed) != ELSA_OK) return 1;
    pthread_t threads[THREADS];
    for (size_t i = 0; i < THREADS; i++) {
        if (i > 0 && elsa_shared_again(&handles[0], &handles[i]) != ELSA_OK) return 1;
        codes[i] = calloc(texts, sizeof *codes[i]);
        if (codes[i] == NULL) return 1;
    }
    for (size_t i = 0; i < THREADS; i++)
        if (pthread_create(&threads[i], NULL, work, &handles[i]) != 0) return 1;
    for (size_t i = 0; i < THREADS; i++) pthread_join(threads[i], NULL);
    bool *used = calloc(texts, sizeof *used);
    if (used == NULL) return 1;
    for (size_t number = 0; number < texts; number++) {
        const size_t code = codes[0][number];
        for (size_t i = 1; i < THREADS; i++)
            if (codes[i][number] != code) fail("two codes", number);
        if (code >= texts || used[code]) fail("two texts", code);
        used[code] = true;
    }
    printf("%d threads, %zu texts, %zu codes\n", THREADS, texts, elsa_shared_len(&handles[0]));
    free(used);
    for (size_t i = 0; i < THREADS; i++) {
        free(codes[i]);
        elsa_shared_free(&handles[i]);
    }
    return 0;
}
