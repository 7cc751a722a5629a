"""Numbers for texts, by the proved code of elsa_c: `factorize(texts)`, `Interner`, and `SharedInterner` for threads.

Codes are arrays of int64: of NumPy if it is installed, and else of the module `array`. Hashes have a secret, as those of
str have: the wrapper takes it from os.urandom. The shared object libelsa_c.so is next to this file, or at the path in
ELSA_SO.
"""
import ctypes
import numbers
import operator
import os
import pathlib
import sys
import threading
import time
import weakref
from array import array
from collections import deque
from collections.abc import Mapping
from itertools import accumulate
from typing import Any, Iterable, Iterator, List, Optional, Sequence, Tuple, Union, overload

try:
    import numpy
except ImportError:
    numpy = None

__version__ = "0.5.0.dev0"
__all__ = [
    "ClosedInterner",
    "Fault",
    "Interner",
    "OutOfMemory",
    "SharedInterner",
    "factorize",
    "factorize_block",
    "firsts",
]

Block = Union[bytes, bytearray, memoryview, Any]
Codes = Sequence[int]

# A PyDLL keeps the GIL during a call. So no two calls are inside the library at once, and nothing that a call reads changes;
# in a Python without a GIL each dictionary has a lock, each call of a shared interner has a handle of its own, and what
# others could write is copied before it is passed.
_so = ctypes.PyDLL(os.environ.get("ELSA_SO", str(pathlib.Path(__file__).resolve().parent / "libelsa_c.so")))
# The same library by calls that release the GIL, for elsa_factorize: its dictionary ends with the call, and no other thread
# can write what it reads.
_released = ctypes.CDLL(_so._name)
_size, _numbers_at = ctypes.c_size_t, ctypes.c_void_p
# ctypes.string_at has an int for the size, which a text of 2 GiB exceeds.
_bytes_at = ctypes.PYFUNCTYPE(ctypes.py_object, ctypes.c_void_p, ctypes.c_ssize_t)(
    ("PyBytes_FromStringAndSize", ctypes.pythonapi)
)

FAULTS = {
    1: "an allocation failed",
    2: "a text is not UTF-8",
    3: "an end is before the one before it, or past the bytes",
    4: "there are 2^32 - 1 texts",
}


class _Seed(ctypes.Structure):
    _fields_ = [("start", ctypes.c_uint64), ("factor", ctypes.c_uint64)]


def _secret() -> _Seed:
    return _Seed.from_buffer_copy(os.urandom(16))


class _Dictionary(ctypes.Structure):
    """The struct of C. It frees its texts at its own end: ctypes refuses to copy a struct that has a pointer."""

    _fields_ = [("texts", ctypes.c_void_p), ("kept", ctypes.c_bool), ("seed", _Seed)]

    def __del__(self, free=_so.elsa_dictionary_free, at=ctypes.byref):
        free(at(self))


class _Shared(ctypes.Structure):
    """A handle of shared names, as C has it. It is freed at its own end."""

    _fields_ = [("names", ctypes.c_void_p), ("kept", ctypes.c_bool)]

    def __del__(self, free=_so.elsa_shared_free, at=ctypes.byref):
        free(at(self))


_held = ctypes.POINTER(_Dictionary)
_sharing = ctypes.POINTER(_Shared)
_found = ctypes.POINTER(_size)
for _name, _result, _given in [
    (
        "elsa_factorize",
        ctypes.c_uint32,
        [ctypes.c_char_p, _size, _numbers_at, _size, _numbers_at, _size, _found, ctypes.POINTER(_Seed)],
    ),
    ("elsa_firsts", _size, [_numbers_at, _size, _numbers_at, _size]),
    ("elsa_dictionary_put", ctypes.c_uint32, [_held, ctypes.c_char_p, _size, _found]),
    (
        "elsa_dictionary_put_many",
        ctypes.c_uint32,
        [_held, ctypes.c_char_p, _size, _numbers_at, _size, _numbers_at, _size, _found],
    ),
    ("elsa_dictionary_find", ctypes.c_bool, [_held, ctypes.c_char_p, _size, _found]),
    ("elsa_dictionary_at", ctypes.c_bool, [_held, _size, ctypes.POINTER(ctypes.c_void_p), _found]),
    ("elsa_dictionary_len", _size, [_held]),
    ("elsa_dictionary_free", None, [_held]),
    ("elsa_shared_new", ctypes.c_uint32, [_sharing, ctypes.POINTER(_Seed)]),
    ("elsa_shared_again", ctypes.c_uint32, [_sharing, _sharing]),
    ("elsa_shared_find", ctypes.c_bool, [_sharing, ctypes.c_char_p, _size, _found]),
    ("elsa_shared_try_put", ctypes.c_uint32, [_sharing, ctypes.c_char_p, _size, _found]),
    ("elsa_shared_at", ctypes.c_bool, [_sharing, _size, ctypes.POINTER(ctypes.c_void_p), _found]),
    ("elsa_shared_len", _size, [_sharing]),
    ("elsa_shared_free", None, [_sharing]),
]:
    for _library in (_so, _released):
        getattr(_library, _name).restype, getattr(_library, _name).argtypes = _result, _given


class Fault(ValueError):
    """Why a call stopped. `done` is the number of texts that have their codes, and `codes` has these."""

    def __init__(self, number: int, codes: Codes) -> None:
        super().__init__(f"{FAULTS[number]}, at text {len(codes)}")
        self.number, self.done, self.codes = number, len(codes), codes

    def __reduce__(self) -> Any:
        return type(self), (self.number, self.codes), vars(self)


class OutOfMemory(Fault, MemoryError):
    """The fault of an allocation that failed. It is a MemoryError too."""


class ClosedInterner(ValueError):
    """A call of a SharedInterner that was closed."""


def _fault(number: int, codes: Codes) -> Fault:
    return OutOfMemory(number, codes) if number == 1 else Fault(number, codes)


def _room(count: int) -> Any:
    """An array of `count` numbers that nobody else has."""
    return numpy.empty(count, numpy.int64) if numpy is not None else array("q", bytes(8 * count))


def _address(own: Any) -> int:
    return own.ctypes.data if numpy is not None and isinstance(own, numpy.ndarray) else own.buffer_info()[0]


def _integers(values: Any) -> array:
    """The integers of an iterable, or of a buffer of one dimension, as an array of 64 bits that nobody else has."""
    try:
        view = memoryview(values)
    except TypeError:
        return array("q", values)
    with view:
        if view.ndim != 1 or view.format not in tuple("bBhHiIlLqQnN"):
            raise TypeError(f"not a list of integers: {view.ndim} dimensions of the format {view.format!r}")
        if view.itemsize == 8 and view.c_contiguous:
            return array("q", view.tobytes())
        return array("q", view.tolist())


def _bytes(block: Any) -> bytes:
    """The bytes of a block. Those that others could write are copied."""
    if type(block) is bytes:
        return block
    with memoryview(block) as view:
        if view.ndim != 1 or view.itemsize != 1 or view.format not in ("B", "b", "c"):
            raise TypeError(f"not a block of bytes: {view.ndim} dimensions of the format {view.format!r}")
        return view.tobytes()


def _in_utf8(texts: List[str], at: Sequence[int]) -> List[bytes]:
    """The texts in UTF-8. Each is a str, and of no other class. `at` has their indices, for the message of a failure."""
    try:
        return [it.encode() for it in texts]
    except UnicodeEncodeError as why:
        index = next(index for index, it in zip(at, texts) if it is why.object)
        raise UnicodeEncodeError(*why.args[:4], f"{why.reason}, in text {index}") from None


def _block(texts: List[str], at: Sequence[int]) -> Tuple[bytes, Any]:
    """The texts as one block of bytes and their ends, by _in_utf8."""
    joined = "".join(texts)
    if joined.isascii():
        block, parts = joined.encode(), texts
    else:
        parts = _in_utf8(texts, at)
        block = b"".join(parts)
    if numpy is not None:
        return block, numpy.fromiter(map(len, parts), numpy.int64, len(parts)).cumsum()
    return block, array("q", accumulate(map(len, parts)))


def _codes(call: Any, block: bytes, ends: Any, *handle: Any, seed: Tuple[Any, ...] = ()) -> Any:
    """The codes that a call writes for a block. `ends` is an array that nobody else has."""
    codes, done = _room(len(ends)), _size()
    room = _address(codes)
    number = call(*handle, block, len(block), _address(ends), len(ends), room, len(codes), done, *seed)
    if number:
        raise _fault(number, codes[: done.value])
    return codes


def _is_missing(it: Any) -> bool:
    """Whether it is None or NaN, or what pandas has for them."""
    if it is None or isinstance(it, numbers.Real) and it != it:
        return True
    pandas = sys.modules.get("pandas")
    return pandas is not None and (it is getattr(pandas, "NA", None) or it is getattr(pandas, "NaT", None))


def _listed(texts: Iterable[Any]) -> List[Any]:
    """The texts by their order, as a list that nobody else has: of Arrow's arrays by their own call."""
    kind = type(texts)
    if isinstance(texts, (str, Mapping)) or getattr(texts, "ndim", 1) != 1 or hasattr(kind, "columns"):
        raise TypeError(
            f"not a list of texts: {kind.__name__}. Pass [text] for one text, list(it.values()) or list(it) for a dict, "
            "and one column, such as frame['name'], for a table"
        )
    made = getattr(kind, "to_pylist", None)
    return list(texts if made is None else made(texts))


def _present(texts: List[Any]) -> Tuple[List[int], List[str]]:
    """The indices of the texts that are not None or NaN, and these texts."""
    at, plain = [], []
    for index, it in enumerate(texts):
        if isinstance(it, str):
            at.append(index)
            plain.append(str.__str__(it))
        elif not _is_missing(it):
            raise TypeError(f"text {index} is no str, None or NaN: {type(it).__name__}")
    return at, plain


def _numbered(texts: List[Any], block_codes: Any) -> Tuple[Any, List[Any], Any]:
    """The codes of a list in which None and NaN have -1, the texts without these, and their codes."""
    if set(map(type, texts)) <= {str}:
        codes = block_codes(*_block(texts, range(len(texts))))
        return codes, texts, codes
    at, plain = _present(texts)
    known = block_codes(*_block(plain, at))
    codes = array("q", [-1]) * len(texts)
    for index, code in zip(at, known):
        codes[index] = code
    if numpy is not None:
        codes = numpy.array(codes, numpy.int64)
    return codes, [texts[it] for it in at], known


def _factorized(block: bytes, ends: Any) -> Any:
    return _codes(_released.elsa_factorize, block, ends, seed=(_secret(),))


def factorize_block(block: Block, ends: Iterable[int]) -> Codes:
    """Returns the code of each text of a block of bytes, in which text i ends before ends[i].

    Equal texts have equal codes, from 0 on in the order of first texts. Raises Fault at the first text that has none.
    """
    return _factorized(_bytes(block), _integers(ends))


def firsts(codes: Iterable[int]) -> Codes:
    """Returns the index at which each code occurs first, for codes of a factorize call."""
    given = _integers(codes)
    found = _room(len(given))
    return found[: _so.elsa_firsts(_address(given), len(given), _address(found), len(found))]


def factorize(texts: Iterable[Optional[str]]) -> Tuple[Codes, List[str]]:
    """Returns the codes of some texts and the distinct texts in the order of their codes, as pandas.factorize does.

    None and NaN have the code -1, and are not among the texts.
    """
    codes, present, known = _numbered(_listed(texts), _factorized)
    return codes, [present[it] for it in firsts(known).tolist()]


def _encoded(text: Any) -> bytes:
    if not isinstance(text, str):
        raise TypeError(f"a text is a str, not {type(text).__name__}")
    return str.encode(text)


class _Texts:
    """A sequence of texts, each with a code."""

    __slots__ = ()

    def __len__(self) -> int:
        raise NotImplementedError

    def _find(self, text: bytes, code: Any) -> bool:
        """Writes the code of a text to `code`, and returns whether it has one."""
        raise NotImplementedError

    def _at(self, code: int) -> Optional[bytes]:
        """The text with this code."""
        raise NotImplementedError

    def __reduce__(self) -> Any:
        return type(self), (list(self),), getattr(self, "__dict__", None)

    def __repr__(self) -> str:
        count, name = len(self), type(self).__name__
        return f"{name}({self[:]})" if count <= 10 else f"<{name} of {count} texts>"

    def get(self, text: str, default: Optional[int] = None) -> Optional[int]:
        """Returns the code of a text, or `default` if it was never put."""
        try:
            given, code = _encoded(text), _size()
        except UnicodeEncodeError:
            return default
        return code.value if self._find(given, code) else default

    def __contains__(self, text: object) -> bool:
        return isinstance(text, str) and self.get(text) is not None

    @overload
    def __getitem__(self, code: int) -> str: ...
    @overload
    def __getitem__(self, code: slice) -> List[str]: ...
    def __getitem__(self, code):
        """Returns the text with this code; one below 0 counts from the end. Raises IndexError if there is none."""
        if isinstance(code, slice):
            return [self[it] for it in range(*code.indices(len(self)))]
        wanted = operator.index(code)
        count = len(self)
        if not -count <= wanted < count:
            raise IndexError(f"there is no text {wanted}: {count} texts")
        found = self._at(wanted % count)
        if found is None:
            raise IndexError(f"there is no text {wanted}")
        return found.decode()

    def __iter__(self) -> Iterator[str]:
        return (self[code] for code in range(len(self)))


def _read(call: Any, handle: Any, code: int) -> Optional[bytes]:
    """A copy of the text with this code, by a call of C. Nobody frees the text meanwhile."""
    at, length = ctypes.c_void_p(), _size()
    return _bytes_at(at, length.value) if call(handle, code, at, length) else None


# All interners by their addresses. In the child of a fork they have new locks: the threads that held the old ones are not
# there. No call of the library was in progress: a fork takes the GIL, and a call that uses names keeps it.
_interners: Any = weakref.WeakValueDictionary()


def _unlock_in_child() -> None:
    for it in list(_interners.values()):
        it._lock = threading.RLock()


os.register_at_fork(after_in_child=_unlock_in_child)


def _lock_for(interner: Any) -> Any:
    _interners[id(interner)] = interner
    return threading.RLock()


class Interner(_Texts):
    """Texts, each with a code: the first has 0, the next 1, and so on. Threads may share it; their calls take turns.

    It is a sequence of its texts. A copy, and one that was pickled, has the same texts with the same codes.
    """

    __slots__ = ("_raw", "_lock", "__weakref__")

    def __new__(cls, *_given: Any, **_named: Any) -> "Interner":
        made = super().__new__(cls)
        made._raw, made._lock = _Dictionary(None, False, _secret()), _lock_for(made)
        return made

    def __init__(self, texts: Iterable[Optional[str]] = ()) -> None:
        self.put_many(texts)

    def __len__(self) -> int:
        with self._lock:
            return _so.elsa_dictionary_len(self._raw)

    def put(self, text: str) -> int:
        """Returns the code of a text, which is kept if it is new."""
        given, code = _encoded(text), _size()
        with self._lock:
            number = _so.elsa_dictionary_put(self._raw, given, len(given), code)
        if number:
            raise _fault(number, [])
        return code.value

    def put_many(self, texts: Iterable[Optional[str]]) -> Codes:
        """Returns the codes of some texts, which are kept if they are new. None and NaN have the code -1."""
        return _numbered(_listed(texts), self._put)[0]

    def put_block(self, block: Block, ends: Iterable[int]) -> Codes:
        """Returns the codes of the texts of a block, in which text i ends before ends[i].

        Raises Fault at the first text that has none; the texts before it are kept.
        """
        return self._put(_bytes(block), _integers(ends))

    def _put(self, block: bytes, ends: Any) -> Any:
        with self._lock:
            return _codes(_so.elsa_dictionary_put_many, block, ends, self._raw)

    def _find(self, text: bytes, code: Any) -> bool:
        with self._lock:
            return _so.elsa_dictionary_find(self._raw, text, len(text), code)

    def _at(self, code: int) -> Optional[bytes]:
        with self._lock:
            return _read(_so.elsa_dictionary_at, self._raw, code)


# What a call returns that did not wait while another thread put a text.
_BUSY = 6


class SharedInterner(_Texts):
    """Texts, each with a code, which threads share: a text has one code, whichever thread puts it first.

    The calls of threads need not take turns: in a Python without a GIL they run at once. It is a sequence of its texts. A
    copy, and one that was pickled, has the same texts with the same codes, and shares nothing with the original. It can be
    closed, also by `with`; calls raise ClosedInterner then.
    """

    __slots__ = ("_first", "_lock", "_free", "__weakref__")

    def __new__(cls, *_given: Any, **_named: Any) -> "SharedInterner":
        made = super().__new__(cls)
        # Others are made of the first handle, under the lock, so that it is given to one call at a time. Those that no call
        # has are in the deque, whose calls are atomic.
        made._first, made._lock, made._free = _Shared(), _lock_for(made), deque()
        number = _so.elsa_shared_new(made._first, _secret())
        if number:
            raise _fault(number, [])
        return made

    def __init__(self, texts: Iterable[Optional[str]] = ()) -> None:
        at, plain = _present(_listed(texts))
        for it in _in_utf8(plain, at):
            self._put(it)

    def _take(self) -> _Shared:
        """A handle for one call."""
        try:
            handle = self._free.pop()
        except IndexError:
            handle = _Shared()
            with self._lock:
                first = self._first
                number = 0 if first is None else _so.elsa_shared_again(first, handle)
            if number:
                raise _fault(number, [])
        if self._first is None:
            raise ClosedInterner("the interner was closed")
        return handle

    def _give(self, handle: _Shared) -> None:
        """Keeps the handle for the next call, or frees it if the interner was closed meanwhile."""
        self._free.append(handle)
        if self._first is None:
            self._free.clear()

    def close(self) -> None:
        """Frees the texts, once the calls of other threads have returned. It may be called again."""
        with self._lock:
            self._first = None
        self._free.clear()

    def __enter__(self) -> "SharedInterner":
        return self

    def __exit__(self, *_why: Any) -> None:
        self.close()

    def __len__(self) -> int:
        handle = self._take()
        count = _so.elsa_shared_len(handle)
        self._give(handle)
        return count

    def put(self, text: str) -> int:
        """Returns the code of a text, which is kept if it is new."""
        return self._put(_encoded(text))

    def _put(self, given: bytes) -> int:
        code = _size()
        handle = self._take()
        number = _so.elsa_shared_try_put(handle, given, len(given), code)
        while number == _BUSY:
            time.sleep(0)
            number = _so.elsa_shared_try_put(handle, given, len(given), code)
        self._give(handle)
        if number:
            raise _fault(number, [])
        return code.value

    def _find(self, text: bytes, code: Any) -> bool:
        handle = self._take()
        found = _so.elsa_shared_find(handle, text, len(text), code)
        self._give(handle)
        return found

    def _at(self, code: int) -> Optional[bytes]:
        handle = self._take()
        found = _read(_so.elsa_shared_at, handle, code)
        self._give(handle)
        return found
