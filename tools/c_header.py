"""Writes bindings/c/elsa.h and border.c from the exports of elsa_c: its functions, the structs that they take, and the faults."""
import re, textwrap

from repository import root

SOURCES = root / "crates" / "elsa_c" / "src"
HEADER = root / "bindings" / "c" / "elsa.h"
BORDER = root / "bindings" / "c" / "border.c"
EXPORT = re.compile(
    r'((?:^///[^\n]*\n)+)#\[unsafe\(no_mangle\)\]\npub extern "C" fn (\w+)\(([^)]*)\)(?: -> (\w+))?', re.M
)
TYPES = {"usize": "size_t", "u32": "uint32_t", "bool": "bool", None: "void"}
TOP = """/* Numbers for texts, a dictionary that is kept, and names that threads share. tools/bindings writes this file from
 * crates/elsa_c.
 *
 * Each call is total in its data: any bytes, ends and codes may be passed. The caller owes that each pointer is valid
 * for the length that is passed with it (any address and null for the length 0), that what is written overlaps nothing
 * else that is passed, and that one dictionary, or one handle, is used by one call at a time. */
#ifndef ELSA_H
#define ELSA_H

#include <stdbool.h>
#include <stddef.h>
#include <stdint.h>

#ifdef __cplusplus
extern "C" {
#endif

/* The secret of the hash that finds texts: fill it with random bytes, as of getrandom. A seed of zeros, or any that
 * is public, is only for texts that are not crafted: 20,000 crafted texts under a known seed take seconds. */
typedef struct elsa_seed {
    uint64_t start, factor;
} elsa_seed;

/* Texts that are kept, each with its code. One that is zeroed has none; calls fill it. Never copy one that has texts.
 * The seed may be set while it has none. */
typedef struct elsa_dictionary {
    void *texts;
    bool kept;
    elsa_seed seed;
} elsa_dictionary;

/* A handle of names that threads share, each with its code: a text has one code in all handles of the same names. One
 * that is zeroed has no names. Each thread has a handle of its own, or takes turns at one: a handle may move to another
 * thread, but two calls on one handle never overlap. Never copy one that has names. */
typedef struct elsa_shared {
    void *names;
    bool kept;
} elsa_shared;

#define ELSA_EMPTY {0, false, {0, 0}}
#define ELSA_UNSHARED {0, false}
#define ELSA_SEEDED(start, factor) {0, false, {start, factor}}

/* What a call returns that may fail. */
"""
BORDER_TOP = """/* The calls of elsa.h. The proved code takes no null pointer, so these pass it an address where a caller passes null with
 * the length 0. tools/bindings writes this file from crates/elsa_c. */
#include "elsa.h"

static uint64_t nothing; /* no byte of it is read or written */
"""
END = """
#ifdef __cplusplus
}
#endif

#endif
"""


def comment(text):
    """A doc comment as a comment of C, without links."""
    lines = [it.removeprefix("///").strip() for it in text.strip().splitlines()]
    plain = re.sub(r"\[`(\w+)`\]", r"\1", " ".join(it or "\n" for it in lines)).replace("`", "")
    plain = re.sub(r" ?# Cost ", "Cost: ", plain)
    parts = [it.strip() for it in plain.split("\n") if it.strip()]
    body = "\n *\n * ".join("\n * ".join(textwrap.wrap(it, 112)) for it in parts)
    return f"/* {body} */"


def parameter(text):
    """A parameter as C has it: a slice is a pointer and a length, and an allocator has no bytes."""
    name, kind = (it.strip() for it in text.split(":", 1))
    for found, made in [
        (r"&\[u8\]", f"const uint8_t *{name}, size_t {name}_len"),
        (r"&\[usize\]", f"const size_t *{name}, size_t {name}_len"),
        (r"&mut \[usize\]", f"size_t *{name}, size_t {name}_len"),
        (r"&mut usize", f"size_t *{name}"),
        (r"&mut \*const u8", f"const uint8_t **{name}"),
        (r"&mut Dictionary", f"elsa_dictionary *{name}"),
        (r"&mut Shared", f"elsa_shared *{name}"),
        (r"&Seed", f"const elsa_seed *{name}"),
        (r"usize", f"size_t {name}"),
        (r"Global", ""),
    ]:
        if re.fullmatch(found, kind):
            return made
    raise SystemExit(f"c_header: no type of C is known for {text!r} in crates/elsa_c/src/lib.rt")


def faults():
    """The faults with their numbers, names and comments."""
    text = (SOURCES / "fault.rt").read_text()
    numbers = dict(re.findall(r"Fault::(\w+) => (\d+)", text))
    sentence = dict((name, line) for line, name in re.findall(r"    /// ([^\n]+)\n    (\w+),", text))
    snake = {it: re.sub(r"(?<!^)([A-Z])", r"_\1", it).upper() for it in numbers}
    return [(int(number), f"ELSA_{snake[name]}", sentence[name]) for name, number in numbers.items()]


def exports():
    """The exports in their order: the comment, the name, the parameters of C and the result."""
    for sentence, name, parameters, result in EXPORT.findall((SOURCES / "lib.rt").read_text()):
        given = [parameter(it) for it in parameters.split(",") if it.strip()]
        yield sentence, name, [it for it in given if it], TYPES[result or None]


def header():
    numbers = [(0, "ELSA_OK", "The call succeeded."), *faults()]
    values = "".join(
        f"    {name} = {number}{',' if name != numbers[-1][1] else ''} /* {sentence} */\n" for number, name, sentence in numbers
    )
    calls = "".join(
        f"\n{comment(sentence)}\n{result} {name}({', '.join(given)});\n" for sentence, name, given, result in exports()
    )
    return f"{TOP}enum {{\n{values}}};\n{calls}{END}"


def border():
    """The functions of the header in C, each of which calls the proved one, whose name begins with `proved_`."""
    text = BORDER_TOP
    for _, name, given, result in exports():
        names = [re.search(r"\w+$", it)[0] for part in given for it in part.split(", ")]
        passed = [f"{it} ? {it} : (void *)&nothing" if f"{it}_len" in names else it for it in names]
        returned = "return " if result != "void" else ""
        taken = ", ".join(given)
        text += f"\n{result} proved_{name}({taken});\n{result} {name}({taken}) {{\n"
        text += f"    {returned}proved_{name}({', '.join(passed)});\n}}\n"
    return text
