/* The calls of elsa.h. The proved code takes no null pointer, so these pass it an address where a caller passes null with
 * the length 0. tools/bindings writes this file from crates/elsa_c. */
#include "elsa.h"

static uint64_t nothing; /* no byte of it is read or written */

uint32_t proved_elsa_factorize(const uint8_t *bytes, size_t bytes_len, const size_t *ends, size_t ends_len, size_t *codes, size_t codes_len, size_t *done, const elsa_seed *seed);
uint32_t elsa_factorize(const uint8_t *bytes, size_t bytes_len, const size_t *ends, size_t ends_len, size_t *codes, size_t codes_len, size_t *done, const elsa_seed *seed) {
    return proved_elsa_factorize(bytes ? bytes : (void *)&nothing, bytes_len, ends ? ends : (void *)&nothing, ends_len, codes ? codes : (void *)&nothing, codes_len, done, seed);
}

size_t proved_elsa_firsts(const size_t *codes, size_t codes_len, size_t *firsts, size_t firsts_len);
size_t elsa_firsts(const size_t *codes, size_t codes_len, size_t *firsts, size_t firsts_len) {
    return proved_elsa_firsts(codes ? codes : (void *)&nothing, codes_len, firsts ? firsts : (void *)&nothing, firsts_len);
}

uint32_t proved_elsa_dictionary_put(elsa_dictionary *dictionary, const uint8_t *text, size_t text_len, size_t *code);
uint32_t elsa_dictionary_put(elsa_dictionary *dictionary, const uint8_t *text, size_t text_len, size_t *code) {
    return proved_elsa_dictionary_put(dictionary, text ? text : (void *)&nothing, text_len, code);
}

uint32_t proved_elsa_dictionary_put_many(elsa_dictionary *dictionary, const uint8_t *bytes, size_t bytes_len, const size_t *ends, size_t ends_len, size_t *codes, size_t codes_len, size_t *done);
uint32_t elsa_dictionary_put_many(elsa_dictionary *dictionary, const uint8_t *bytes, size_t bytes_len, const size_t *ends, size_t ends_len, size_t *codes, size_t codes_len, size_t *done) {
    return proved_elsa_dictionary_put_many(dictionary, bytes ? bytes : (void *)&nothing, bytes_len, ends ? ends : (void *)&nothing, ends_len, codes ? codes : (void *)&nothing, codes_len, done);
}

bool proved_elsa_dictionary_find(elsa_dictionary *dictionary, const uint8_t *text, size_t text_len, size_t *code);
bool elsa_dictionary_find(elsa_dictionary *dictionary, const uint8_t *text, size_t text_len, size_t *code) {
    return proved_elsa_dictionary_find(dictionary, text ? text : (void *)&nothing, text_len, code);
}

bool proved_elsa_dictionary_at(elsa_dictionary *dictionary, size_t code, const uint8_t **text, size_t *len);
bool elsa_dictionary_at(elsa_dictionary *dictionary, size_t code, const uint8_t **text, size_t *len) {
    return proved_elsa_dictionary_at(dictionary, code, text, len);
}

size_t proved_elsa_dictionary_len(elsa_dictionary *dictionary);
size_t elsa_dictionary_len(elsa_dictionary *dictionary) {
    return proved_elsa_dictionary_len(dictionary);
}

void proved_elsa_dictionary_free(elsa_dictionary *dictionary);
void elsa_dictionary_free(elsa_dictionary *dictionary) {
    proved_elsa_dictionary_free(dictionary);
}

uint32_t proved_elsa_shared_new(elsa_shared *names, const elsa_seed *seed);
uint32_t elsa_shared_new(elsa_shared *names, const elsa_seed *seed) {
    return proved_elsa_shared_new(names, seed);
}

uint32_t proved_elsa_shared_again(elsa_shared *names, elsa_shared *other);
uint32_t elsa_shared_again(elsa_shared *names, elsa_shared *other) {
    return proved_elsa_shared_again(names, other);
}

bool proved_elsa_shared_find(elsa_shared *names, const uint8_t *text, size_t text_len, size_t *code);
bool elsa_shared_find(elsa_shared *names, const uint8_t *text, size_t text_len, size_t *code) {
    return proved_elsa_shared_find(names, text ? text : (void *)&nothing, text_len, code);
}

uint32_t proved_elsa_shared_try_put(elsa_shared *names, const uint8_t *text, size_t text_len, size_t *code);
uint32_t elsa_shared_try_put(elsa_shared *names, const uint8_t *text, size_t text_len, size_t *code) {
    return proved_elsa_shared_try_put(names, text ? text : (void *)&nothing, text_len, code);
}

bool proved_elsa_shared_at(elsa_shared *names, size_t code, const uint8_t **text, size_t *len);
bool elsa_shared_at(elsa_shared *names, size_t code, const uint8_t **text, size_t *len) {
    return proved_elsa_shared_at(names, code, text, len);
}

size_t proved_elsa_shared_len(elsa_shared *names);
size_t elsa_shared_len(elsa_shared *names) {
    return proved_elsa_shared_len(names);
}

void proved_elsa_shared_free(elsa_shared *names);
void elsa_shared_free(elsa_shared *names) {
    proved_elsa_shared_free(names);
}
