"""Names crafted against the hashes of `elsa intern`, and how they spread in a model of its table. The model is written
from specs/Seeded.antt of crates/elsa_hash, not from its code."""
import itertools, random, struct, sys

MASK = 2**64 - 1
TWO_WORDS = struct.Struct("<2Q")
# The fixed second factor and the fixed start of std's FoldHasher.
FACTOR, START = 0x9E3779B97F4A7C15, 0x243F6A8885A308D3
LETTERS = b"abcdefghijklmnopqrstuvwxyz0123456789"
SIZE = 48


def fold(a, b):
    product = a * b
    return (product & MASK) ^ (product >> 64)


def word(data, at):
    return int.from_bytes(data[at : at + 8], "little")


def short_word(data):
    n = len(data)
    if n >= 4:
        return int.from_bytes(data[:4], "little") | int.from_bytes(data[n - 4 :], "little") << 32
    return data[0] | data[n // 2] << 8 | data[n - 1] << 16 if n else 0


def write(state, factor, data, begun):
    """The state after one write; `begun` returns the state before a piece of more than 8 bytes."""
    n = len(data)
    if n <= 8:
        return fold(state ^ short_word(data), factor ^ 2 * n)
    state, at = begun(state, factor, n) & MASK, 0
    while n - at > 16:
        one, other = TWO_WORDS.unpack_from(data, at)
        product = (one ^ state) * (other ^ factor)
        state = product & MASK ^ product >> 64
        at += 16
    return fold(word(data, max(n - 16, 0)) ^ state, word(data, n - 8) ^ factor)


def seeded_name(seed):
    """The hash of a name: of its bytes alone."""
    return lambda data: write(seed[0], seed[1], data, lambda s, f, n: s + n * f)


def seeded(seed):
    """The hash of a text: its bytes, followed by the byte 255."""
    return lambda data: write(seeded_name(seed)(data), seed[1], b"\xff", None)


def of_numbers(seed, numbers):
    """The hash of numbers of eight bytes, with one write for each; a slice is its length and its items."""
    state = seed[0]
    for number in numbers:
        state = write(state, seed[1], number.to_bytes(8, "little"), None)
    return state


def fixed(_seed):
    return lambda data: write(START, FACTOR, data, lambda s, f, n: s + n)


def seeded_start(seed):
    """A hash with a secret start and a known factor."""
    return lambda data: write(seed[0], FACTOR, data, lambda s, f, n: s + n)


def steps(hashes):
    """The steps of inserting these keys: the probed buckets, and the keys that are compared since their hashes agree in
    the bits that the table stores."""
    count = 8
    while count // 4 * 3 < len(hashes):
        count *= 2
    slots, taken = [None] * count, 0
    for key in hashes:
        short = (key ^ key >> 32) & 0xFFFFFFFF
        at, taken = short & count - 1, taken + 1
        while slots[at] is not None:
            taken += 2 if slots[at] == short else 1
            at = (at + 1) & count - 1
        slots[at] = short
    return taken


def digits(number, count):
    out = bytearray()
    for _ in range(count):
        number, digit = divmod(number, len(LETTERS))
        out.append(LETTERS[digit])
    return bytes(out)


def one_hash(chance):
    """The first 24 bytes of texts that all have one hash under FoldHasher: the state after the first 16 bytes, combined
    with the next 8 bytes, makes a factor zero."""
    while True:
        first = bytes(chance.choices(LETTERS, k=16))
        text = fold(word(first, 0) ^ (START + SIZE & MASK), word(first, 8) ^ FACTOR).to_bytes(8, "little")
        try:
            text.decode()
        except UnicodeDecodeError:
            continue
        if b"\n" not in text:
            return first + text


def of_fixed(chance, k, front=[]):
    front or front.append(one_hash(chance))
    return front[0] + digits(k, 8) + b"sixteen bytes..."


def of_zero(chance, k):
    """The second word makes a known factor zero. Not a text."""
    return digits(k, 8) + FACTOR.to_bytes(8, "little") + bytes(SIZE - 16)


def of_rotation(chance, k):
    """A known factor of 1 leaves the first word in the state unchanged, and the third word removes it. Not a text."""
    first = digits(k, 8)
    return first + (FACTOR ^ 1).to_bytes(8, "little") + first + (FACTOR ^ 1).to_bytes(8, "little") + bytes(16)


def of_one_word(at):
    def name(chance, k):
        name = bytearray(b"x" * SIZE)
        name[at : at + 4] = digits(k, 4)
        return bytes(name)

    return name


def of_case(chance, k):
    """Upper and lower case: two names differ in some of 24 bits."""
    return (
        bytes(letter ^ (0x20 if k >> place & 1 else 0) for place, letter in enumerate(b"abcdefghijklmnopqrstuvwx"))
        + b"q" * 24
    )


def of_repeat(chance, k):
    return digits(k, 8) * 6


def of_swap(chance, k):
    one, other = digits(k // 2, 8), digits(k // 2 + 1_000_000, 8)
    return ((one + other) if k % 2 else (other + one)) * 3


def of_lengths(chance, k):
    """Words that stay the same while the length grows. Not of one length."""
    return digits(k // 8, 4)[::-1] + b"a" * (9 + k % 8)


def of_random(chance, k):
    return bytes(chance.choices(LETTERS, k=SIZE))


TEXTS = {
    "word at 0": of_one_word(0),
    "word at 4": of_one_word(4),
    "word at 12": of_one_word(12),
    "word at 28": of_one_word(28),
    "word at 44": of_one_word(44),
    "case": of_case,
    "repeat": of_repeat,
    "swap": of_swap,
}
BYTES = {"zero": of_zero, "rotation": of_rotation, "lengths": of_lengths}


def names(family, count):
    chance = random.Random(7)
    if family == "seeded":
        return [make(chance, k) for k, make in zip(range(count), itertools.cycle(TEXTS.values()))]
    return [{"fixed": of_fixed, "random": of_random, **TEXTS, **BYTES}[family](chance, k) for k in range(count)]


def judge(count=18_000, seeds=4):
    """Inserts the names of each family into the model of the table, with several seeds. `SeededHasher` may need at most
    twice the steps of random hashes, and hashes with a weaker secret must need many more."""
    chance = random.Random(20261123)
    wanted, wrong = 0, []
    seeds = [(chance.getrandbits(64), chance.getrandbits(64)) for _ in range(seeds)]
    least = steps([chance.getrandbits(64) for _ in range(count)])
    for family in ["fixed", "seeded", "random", *TEXTS, *BYTES]:
        keys = names(family, count)
        if len(set(keys)) != count:
            sys.exit(f"two names of the family '{family}' are equal")
        worst = max(steps([hash_of(key) for key in keys]) for hash_of in map(seeded_name, seeds)) / least
        print(f"{family}: {worst:.2f} times the steps of random hashes")
        wanted += worst <= 2
        wrong += [f"{family}: {worst:.2f} times the steps of random hashes, at most 2 are allowed"] if worst > 2 else []
    for weak, family in ((fixed, "fixed"), (fixed, "zero"), (seeded_start, "zero"), (seeded_start, "rotation")):
        keys = names(family, 2000)
        taken = steps([weak(seeds[0])(key) for key in keys]) / steps([chance.getrandbits(64) for _ in keys])
        print(f"{weak.__name__} hash, {family}: {taken:.0f} times")
        wanted += taken > 100
        wrong += [f"{weak.__name__} hash, {family}: {taken:.0f} times, more than 100 expected"] if taken <= 100 else []
    print("\n".join([*wrong, f"{wanted} families passed"]))
    return not wrong


def show_names(family, count):
    sys.stdout.buffer.write(b"".join(b"put " + name + b"\n" for name in names(family, int(count))))
    return True


def show_vectors():
    texts = "|a|ab|name7|lonely|12345678|best friend|sixteen bytes...|seventeen bytes.."
    texts += "|the quick brown fox jumps over the lazy dog|été"
    for seed in ((0, 1), (START, FACTOR), (0x0123456789ABCDEF, 0xFEDCBA9876543210)):
        shown = f"{seed[0]:#x} {seed[1]:#x}"
        for text in texts.split("|"):
            print(f"{shown} {text!r} {seeded(seed)(text.encode()):#x}")
        slice_hash = of_numbers(seed, [3, 1, 2, 3])
        print(f"{shown} 7u64 {of_numbers(seed, [7]):#x}, and the slice [1, 2, 3] of u64 {slice_hash:#x}")
    return True
