"""Hostile inputs for a program that replies to lines as `elsa intern` does: each kind of line, broken UTF-8, lengths
around the powers of two, mixtures."""
import pathlib, random

root = pathlib.Path(__file__).resolve().parent.parent.parent
BROKEN = b"\xff|\xc0\x80|\xc3|\xe2\x82|\xed\xa0\x80|\xf0\x9f\x98|\xf4\x90\x80\x80|\x80|\xf8\x88\x80\x80\x80".split(b"|")
FINE = ["é", "€", "😀", "\u0000", "\r", "\ufeff", "\u2028", "\x7f", "\U0010ffff", "\ud7ff", "\ue000"]
NUMBERS = "0|1|00|0001|007|+1|-0|-1|1 | 1|1.0|0x1|١||18446744073709551615|18446744073709551616|99999999999999999999".split("|")
NUMBERS += ["0" * 40 + "1", *("0" * 100 + f"1844674407370955161{it}" for it in "56"), "1" * 300]
WORDS = "|put|put |put  |put a|put a | put a|Put a|PUT a|puta|put\ta|put a\r|put \r|put \0|put é|find|find |find a|find  a"
WORDS += "|find a\r|finda|at|at |len|len | len|LEN|len\r|lens|le|l"


def fixed_lines():
    yield from (it.encode() for it in WORDS.split("|"))
    for number in NUMBERS:
        yield b"at " + number.encode()
    for piece in FINE:
        yield b"put " + piece.encode("utf-8", "surrogatepass")
        yield b"put x" + piece.encode("utf-8", "surrogatepass") + b"y"
    for broken in BROKEN:
        for before in ["", "p", "put", "put ", "put a", "put é", "at ", "at 0", "find ", "len"]:
            for after in ["", "a", "é", " "]:
                yield before.encode() + broken + after.encode()


def cases(seed, quick):
    chance = random.Random(seed)
    names = root / "examples" / "names.txt"
    if names.exists():
        yield "examples/names.txt", names.read_bytes()
    lines = list(fixed_lines())
    yield "nothing", b""
    yield "one line end", b"\n"
    yield "each kind of line", b"\n".join(lines) + b"\n"
    yield "each kind of line, without the last line end", b"\n".join(lines)
    yield "each kind of line, CR before each line end", b"\r\n".join(lines) + b"\r\n"
    for last in [b"put a", b"len", b"at 0", b"find a", b"x", b"\xff", b"\r"]:
        yield f"last line {last!r} with no line end", b"put a\n" + last
    for size in sorted({(1 << k) + off for k in range(0, 18) for off in (-1, 0, 1)} | {8187, 8188, 8189, 16383, 16385}):
        if size < 0 or (quick and size > 20000):
            continue
        text = bytes(chance.choice(b"abcdefghij ") for _ in range(size))
        body = (
            b"put " + text + b"\nat 0\nfind " + text + b"\n" + text + b"\nput " + text[:-1] + b"\xff\nlen\nput b\nlen"
        )
        yield f"texts of {size} bytes", body
    for count in range(3 if quick else 20):
        parts = []
        for _ in range(chance.randrange(1, 3000)):
            kind = chance.random()
            if kind < 0.5:
                parts.append(b"put " + b"name%d" % chance.randrange(400))
            elif kind < 0.65:
                parts.append(b"find " + b"name%d" % chance.randrange(500))
            elif kind < 0.8:
                parts.append(b"at %d" % chance.randrange(500))
            elif kind < 0.85:
                parts.append(bytes(chance.randrange(256) for _ in range(chance.randrange(40))))
            else:
                parts.append(chance.choice(lines))
        yield f"mixture {count}", b"\n".join(parts) + chance.choice([b"", b"\n", b"\n\n"])
    # enough names for the engine to load the table for several lines ahead
    many = [b"put n%d" % number for number in range(70_000)]
    for _ in range(10_000):
        number = chance.randrange(75_000)
        many.append(chance.choice([b"put n%d", b"find n%d", b"put m%d", b"at %d"]) % number)
        many += [chance.choice(lines)] if chance.random() < 0.05 else []
    yield "70,000 names and a mixture", b"\n".join(many)
    if not quick:
        long = bytes(chance.choice(b"abcdefghijklmnop") for _ in range(10_000_000))
        parts = [b"put " + long, b"len", b"put " + long, b"at 0", long, b"at " + b"0" * 10_000_000]
        yield "lines of 10 MB", b"\n".join([*parts, b"put " + long + b"\xc3"])
        yield "a million random bytes", bytes(chance.randrange(256) for _ in range(1_000_000))
