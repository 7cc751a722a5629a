/* Numbers for texts, a dictionary that is kept, and names that threads share. tools/bindings writes this file from
 * crates/elsa_c.
 *
 * Each call is total in its data: any bytes, ends and codes may be passed. The caller owes that each pointer is valid
 * for the length that is passed with it (any address and null for the length 0), that what is written overlaps nothing
 * else that is passed, and that one dictionary, or one handle, is used by one call at a time. */
#ifndef ELSA_H
#define ELSA_H

#include <stdbool.h>
#include <stddef.h>
#include <stdint.h>

#ifdef __cplusplus
extern "C" {
#endif

/* The secret of the hash that finds texts: fill it with random bytes, as of getrandom. A seed of zeros, or any that
 * is public, is only for texts that are not crafted: 20,000 crafted texts under a known seed take seconds. */
typedef struct elsa_seed {
    uint64_t start, factor;
} elsa_seed;

/* Texts that are kept, each with its code. One that is zeroed has none; calls fill it. Never copy one that has texts.
 * The seed may be set while it has none. */
typedef struct elsa_dictionary {
    void *texts;
    bool kept;
    elsa_seed seed;
} elsa_dictionary;

/* A handle of names that threads share, each with its code: a text has one code in all handles of the same names. One
 * that is zeroed has no names. Each thread has a handle of its own, or takes turns at one: a handle may move to another
 * thread, but two calls on one handle never overlap. Never copy one that has names. */
typedef struct elsa_shared {
    void *names;
    bool kept;
} elsa_shared;

#define ELSA_EMPTY {0, false, {0, 0}}
#define ELSA_UNSHARED {0, false}
#define ELSA_SEEDED(start, factor) {0, false, {start, factor}}

/* What a call returns that may fail. */
enum {
    ELSA_OK = 0, /* The call succeeded. */
    ELSA_MEMORY = 1, /* An allocation failed. */
    ELSA_NOT_UTF8 = 2, /* A text is not UTF-8. */
    ELSA_ENDS_OUT_OF_ORDER = 3, /* An end is before the end of the text before it, or past the bytes. */
    ELSA_FULL = 4, /* There are 2^32 - 1 texts, and this one is new. */
    ELSA_TOO_FEW_CODES = 5, /* The array of codes has fewer elements than there are texts, so no text was coded. */
    ELSA_BUSY = 6, /* Another thread adds a text, and the call does not wait for it: call again. */
    ELSA_NO_NAMES = 7 /* The handle has no names: it is zeroed, or was freed. */
};

/* Writes the code of each text of a block to codes: equal texts have equal codes, from 0 on in the order of first
 * texts. Text i ends before ends[i] and begins where the one before it ends.
 *
 * done receives the number of texts that have their codes. The codes after them are unchanged. seed is the secret
 * of the hash. Returns 0 if all texts have theirs, and else the number of a fault.
 *
 * Cost: O(1) hashed for each text, and a copy of each new one, which is freed at the end. */
uint32_t elsa_factorize(const uint8_t *bytes, size_t bytes_len, const size_t *ends, size_t ends_len, size_t *codes, size_t codes_len, size_t *done, const elsa_seed *seed);

/* Writes to firsts the index at which each code occurs first, for codes as elsa_factorize writes them: the text
 * with code c is text firsts[c].
 *
 * Returns the number of codes, or the number of elements of firsts if that is smaller. */
size_t elsa_firsts(const size_t *codes, size_t codes_len, size_t *firsts, size_t firsts_len);

/* Writes the code of a text to code. A new text is copied, and has the next code.
 *
 * Returns 0, or the number of a fault: then nothing has changed. */
uint32_t elsa_dictionary_put(elsa_dictionary *dictionary, const uint8_t *text, size_t text_len, size_t *code);

/* Writes the code of each text of a block to codes, as elsa_factorize does. New texts are copied, and have the
 * next codes.
 *
 * done receives the number of texts that have their codes. They keep them if the call ends at a fault, and the
 * codes after them are unchanged. Returns 0 if all texts have theirs, and else the number of the fault. */
uint32_t elsa_dictionary_put_many(elsa_dictionary *dictionary, const uint8_t *bytes, size_t bytes_len, const size_t *ends, size_t ends_len, size_t *codes, size_t codes_len, size_t *done);

/* Returns whether the dictionary has a text, and writes its code to code if it does. */
bool elsa_dictionary_find(elsa_dictionary *dictionary, const uint8_t *text, size_t text_len, size_t *code);

/* Returns whether the dictionary has a text with this code, and writes its address and its length to text and len
 * if it does. The bytes stay there until the dictionary is freed. */
bool elsa_dictionary_at(elsa_dictionary *dictionary, size_t code, const uint8_t **text, size_t *len);

/* Returns the number of texts. */
size_t elsa_dictionary_len(elsa_dictionary *dictionary);

/* Frees all texts. The dictionary then has none, and may be used again or freed again. */
void elsa_dictionary_free(elsa_dictionary *dictionary);

/* Makes names a handle of new names, of which there are none. Names that it had are freed, if no other handle has
 * them. seed is the secret of the hash.
 *
 * Returns 0, or the number of a fault: then the handle has no names. */
uint32_t elsa_shared_new(elsa_shared *names, const elsa_seed *seed);

/* Makes other a handle of the same names, for another thread. Names that it had are freed, if no other handle has
 * them. other must not be names.
 *
 * Returns 0, or the number of a fault: then other has no names. */
uint32_t elsa_shared_again(elsa_shared *names, elsa_shared *other);

/* Returns whether a text is among the names, and writes its code to code if it is. It takes no lock and waits for
 * no thread. A handle without names has no text. */
bool elsa_shared_find(elsa_shared *names, const uint8_t *text, size_t text_len, size_t *code);

/* Writes the code of a text to code. A text that no thread has put is copied, and has the next code. The call
 * waits for no thread.
 *
 * Returns 0, or the number of a fault: then this call has added nothing. After Busy, call again. */
uint32_t elsa_shared_try_put(elsa_shared *names, const uint8_t *text, size_t text_len, size_t *code);

/* Returns whether there is a text with this code, and writes its address and its length to text and len if there
 * is. The bytes stay there until the last handle of the names is freed. It takes no lock and waits for no thread. */
bool elsa_shared_at(elsa_shared *names, size_t code, const uint8_t **text, size_t *len);

/* Returns the number of names. It takes no lock and waits for no thread. */
size_t elsa_shared_len(elsa_shared *names);

/* Frees a handle, and the names with their last handle. The handle then has no names, and may be freed again. */
void elsa_shared_free(elsa_shared *names);

#ifdef __cplusplus
}
#endif

#endif
