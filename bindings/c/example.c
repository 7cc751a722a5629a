/* Gives numbers to words, by one call and by a dictionary that is kept. */
#include "elsa.h"
#include <stdio.h>
#include <string.h>
#include <sys/random.h>

int main(void) {
    /* "pear", "apple", "pear", "fig" in one block of bytes, with their ends */
    const char *block = "pearapplepearfig";
    const size_t ends[] = {4, 9, 13, 16};
    size_t codes[4], firsts[4], done;
    /* the secret of the hash, against texts that are crafted to collide */
    elsa_seed seed;
    if (getrandom(&seed, sizeof seed, 0) != sizeof seed) return 1;
    uint32_t fault = elsa_factorize((const uint8_t *)block, strlen(block), ends, 4, codes, 4, &done, &seed);
    if (fault != ELSA_OK) {
        fprintf(stderr, "factorize: fault %u at text %zu\n", (unsigned)fault, done);
        return 1;
    }
    size_t count = elsa_firsts(codes, 4, firsts, 4);
    printf("%zu texts, %zu codes:", done, count);
    for (size_t i = 0; i < 4; i++) printf(" %zu", codes[i]);
    printf("\n");

    elsa_dictionary words = ELSA_SEEDED(seed.start, seed.factor);
    size_t code, len;
    const uint8_t *text;
    fault = elsa_dictionary_put(&words, (const uint8_t *)"fig", 3, &code);
    if (fault == ELSA_OK) fault = elsa_dictionary_put(&words, (const uint8_t *)"plum", 4, &code);
    if (fault != ELSA_OK) return 1;
    if (elsa_dictionary_at(&words, code, &text, &len)) printf("code %zu is %.*s\n", code, (int)len, (const char *)text);
    printf("fig is %s\n", elsa_dictionary_find(&words, (const uint8_t *)"fig", 3, &code) ? "known" : "new");
    fault = elsa_dictionary_put(&words, (const uint8_t *)"\xff", 1, &code);
    printf("a byte 255: fault %u, %zu texts\n", (unsigned)fault, elsa_dictionary_len(&words));
    elsa_dictionary_free(&words);
    return 0;
}
