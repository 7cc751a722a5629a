"""A plain model of `elsa intern`: its replies, computed from their definition only, slowly and without the program.

The input's bytes are cut after each byte 10; a last piece without a byte 10 is a line if it isn't empty. Names are a
list, which is empty at first.
  put TEXT   the index of TEXT in the list; TEXT is added at the end if it is absent ('too many names' if it is absent
             and there are 2^32 - 1)
  find TEXT  the index of TEXT, or 'none'
  at N       the name at index N, or 'none'; N is one or more ASCII digits, at most 2^64 - 1
  len        the number of names
Any other line, and one that is not UTF-8, is a 'bad line'. TEXT is everything after the one space, and may be empty.
"""


def reply_to(line: bytes, places: dict, names: list) -> bytes:
    try:
        line.decode("utf-8", "strict")
    except UnicodeDecodeError:
        return b"bad line"
    if line.startswith(b"put "):
        name = line[4:]
        if name not in places:
            if len(names) == 2**32 - 1:
                return b"too many names"
            places[name] = len(names)
            names.append(name)
        return b"%d" % places[name]
    if line.startswith(b"find "):
        name = line[5:]
        return b"%d" % places[name] if name in places else b"none"
    if line.startswith(b"at "):
        digits = line[3:]
        if digits == b"" or any(d not in b"0123456789" for d in digits):
            return b"bad line"
        number = 0
        for digit in digits.lstrip(b"0"):
            number = number * 10 + digit - 48
            if number >= 2**64:
                return b"bad line"
        return names[number] if number < len(names) else b"none"
    if line == b"len":
        return b"%d" % len(names)
    return b"bad line"


def answer_lines(data: bytes) -> bytes:
    pieces = data.split(b"\n")
    if pieces[-1] == b"":
        pieces.pop()
    places, names = {}, []
    return b"".join(reply_to(piece, places, names) + b"\n" for piece in pieces)
