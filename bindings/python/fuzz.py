"""Random calls of elsa_proved by several threads, of which many pass what is no text, no code and no block.

usage: fuzz.py SECONDS [THREADS [SEED]]

All threads share one interner and one SharedInterner, and each has its own objects too. In every second round the calls of
the library run at once, as they do in a Python without a GIL; in the others the threads fork, too. A pool of processes, by
fork and by spawn in turn, has tasks of all threads. Results are compared with plain Python. The last line has the number
of calls; the status is 1 at the first wrong result, unexpected exception or process that doesn't end, whose seed is
printed. A fault of memory ends the process: run it with the sanitized shared object, of which it doesn't fork
(`tools/bindings --unproved DIR` writes DIR/sanitized/libelsa_c_asan.so), or under valgrind.
"""
import array
import copy
import ctypes
import itertools
import multiprocessing
import os
import pickle
import random
import signal
import sys
import threading
import time
import traceback

import elsa_proved
from elsa_proved import Fault, Interner, SharedInterner, factorize, factorize_block, firsts

numpy = elsa_proved.numpy
try:
    import pandas
except ImportError:
    pandas = None
# The greatest number of seconds of a round, which has interners of its own.
ROUND = 20
# The seconds after which a child or a task of a pool hangs, also on a machine with a high load.
HANGS = 300
# What a call may raise for a wrong argument.
REFUSED = (TypeError, ValueError, IndexError, OverflowError, BufferError, NotImplementedError, ZeroDivisionError)


class Differs(Exception):
    pass


def overlapping():
    """The library by a CDLL, which releases the GIL during a call."""
    own = elsa_proved._so
    other = ctypes.CDLL(own._name)
    for name, call in vars(own).items():
        if name.startswith("elsa_"):
            getattr(other, name).restype, getattr(other, name).argtypes = call.restype, call.argtypes
    return other


def must(fact, *shown):
    if not fact:
        raise Differs(repr(shown)[:2000])


class Liar(str):
    def __len__(self):
        return 10**6

    def __eq__(self, other):
        return True

    def __hash__(self):
        return 7

    def encode(self, *_):
        return b"\xff" * 100


class Index:
    """An index that calls other code."""

    def __init__(self, value, call):
        self.value, self.call = value, call

    def __index__(self):
        self.call()
        return self.value


class Stops:
    """An iterable that stops by an exception, or that says that it is longer."""

    def __init__(self, items, stops):
        self.items, self.stops = items, stops

    def __len__(self):
        return 10**6

    def __iter__(self):
        yield from self.items
        if self.stops:
            raise ValueError("stopped")


def factorized(texts):
    seen = {}
    codes = [-1 if it is None or it != it else seen.setdefault(it, len(seen)) for it in texts]
    return codes, list(seen)


def numbered(block, ends):
    """The codes of a block by a dict, and the number of the fault that ends it."""
    seen, codes, start = {}, [], 0
    for end in ends:
        if end < start or end > len(block):
            return codes, 3
        try:
            text = block[start:end].decode()
        except UnicodeDecodeError:
            return codes, 2
        codes.append(seen.setdefault(text, len(seen)))
        start = end
    return codes, 0


def codes_of(call, *given):
    """The codes that a call returns, and the number of its fault."""
    try:
        return list(call(*given)), 0
    except Fault as fault:
        return list(fault.codes), fault.number


def put_in_copy(names, text):
    return names.put(text), names.get(text), len(names)


class Thread:
    def __init__(self, seed, shared, of_threads, pool, forks):
        self.random, self.shared, self.of_threads, self.calls = random.Random(seed), shared, of_threads, 0
        self.pool, self.forks = pool, forks
        self.own, self.known = Interner(), {}

    def text(self):
        size = 30_000 if self.random.random() < 0.0005 else 6
        return "".join(self.random.choices("abcé語😀\0", k=self.random.randrange(size)))

    def texts(self):
        return [self.text() for _ in range(self.random.randrange(30))]

    def garbage(self):
        """An object of any kind."""
        choose = self.random
        kinds = [
            lambda: None,
            lambda: choose.choice(
                [0, -1, 3, 2**31, 2**63 - 1, 2**63, 2**64, 2**64 + 1, -(2**63), -(2**200)]
            ),
            lambda: choose.random() * 100,
            lambda: float("nan"),
            lambda: self.text(),
            lambda: "\ud800",
            lambda: Liar(self.text()),
            lambda: os.urandom(choose.randrange(40)),
            lambda: bytearray(os.urandom(choose.randrange(40))),
            lambda: memoryview(bytearray(os.urandom(40)))[:: choose.choice([1, 2, -1, -3])],
            lambda: memoryview(bytes(48)).cast("B", choose.choice([(6, 8), (2, 24), (48,)])),
            lambda: memoryview(bytes(48)).cast(choose.choice("bBhHiIlLqQfdc?")),
            lambda: self.released(),
            lambda: array.array(choose.choice("bBhHiIlLqQ"), [choose.randrange(100) for _ in range(8)]),
            lambda: array.array("d", [1.5, 2.5]),
            lambda: [self.garbage() for _ in range(choose.randrange(3))],
            lambda: (self.text() for _ in range(5)),
            lambda: Stops(self.texts(), choose.random() < 0.5),
            lambda: Index(choose.choice([0, 1, -1, 2**70]), lambda: self.shared.put(self.text())),
            lambda: {self.text(): self.text()},
            lambda: object(),
            lambda: self.shared,
            lambda: self.own,
            lambda: type(choose.choice([1, "", b""])),
        ]
        if numpy is not None:
            size = choose.randrange(12)
            shapes = [size, (size, 2), (2, size, 1), ()]
            types = ["u1", "i1", "u2", ">i4", "i4", "i8", ">i8", "u8", "f4", "f8", "?", "U3", "S4", "O", "c16"]
            kinds += [lambda: numpy.zeros(choose.choice(shapes), choose.choice(types))] * 3
            kinds += [
                lambda: numpy.arange(24)[:: choose.choice([1, 2, -1])],
                lambda: numpy.arange(24).reshape(4, 6).T,
                lambda: numpy.array(self.texts(), object),
                lambda: numpy.array(self.texts()),
                lambda: numpy.frombuffer(os.urandom(24), "u1"),
                lambda: numpy.broadcast_to(numpy.int64(1), (5,)),
                lambda: numpy.array(["2020"], "datetime64[s]"),
            ]
        if pandas is not None:
            kinds += [lambda: pandas.Series(self.texts(), dtype=object), lambda: pandas.NA, lambda: pandas.NaT]
            kinds += [lambda: pandas.DataFrame({"a": self.texts()}), lambda: pandas.Index(self.texts(), dtype=object)]
        return choose.choice(kinds)()

    def released(self):
        view = memoryview(b"abc")
        view.release()
        return view

    def try_garbage(self):
        """A call of garbage may only return or raise one of the expected exceptions."""
        names = self.random.choice([self.own, self.shared, self.of_threads, Interner(), SharedInterner()])
        one, two = self.garbage(), self.garbage()
        calls = [
            lambda: factorize(one),
            lambda: factorize_block(one, two),
            lambda: factorize_block(b"abcdefgh" * 4, two),
            lambda: firsts(one),
            lambda: names[one],
            lambda: names[one:two],
            lambda: one in names,
            lambda: names.get(one),
            lambda: Interner(one),
            lambda: Interner().put(one),
            lambda: SharedInterner().put(one),
            lambda: SharedInterner(one),
            lambda: Interner().put_many(one),
            lambda: Interner().put_block(one, two),
            lambda: Interner().put_block(b"abcdefgh" * 4, two),
            lambda: repr(names),
            lambda: names.missing,
            lambda: setattr(names, "missing", one),
            lambda: Interner(one, two),
        ]
        try:
            self.random.choice(calls)()
        except (*REFUSED, AttributeError):
            pass

    def try_own(self):
        """Valid calls of an interner that this thread alone has, compared with a dict."""
        names, known = self.own, self.known
        kind = self.random.randrange(6)
        if kind == 0:
            text = self.text()
            must(names.put(text) == known.setdefault(text, len(known)), text)
        elif kind == 1:
            text = self.text()
            must(names.get(text) == known.get(text), text)
            must((text in names) == (text in known), text)
        elif kind == 2:
            texts = self.texts()
            given = self.random.choice([texts, tuple(texts), iter(texts), (it for it in texts), map(str, texts)])
            codes = list(names.put_many(given))
            must(codes == [known.setdefault(it, len(known)) for it in texts], texts, codes)
        elif kind == 3:
            count = len(known)
            at = self.random.randrange(-count - 2, count + 2)
            if -count <= at < count:
                must(names[at] == list(known)[at], at)
            else:
                try:
                    must(False, names[at])
                except IndexError:
                    pass
        elif kind == 4:
            made = self.random.choice([copy.copy, copy.deepcopy, lambda it: pickle.loads(pickle.dumps(it)), Interner])(
                names
            )
            made.put("of the copy")
            must(list(made) == [*known, *["of the copy"] * ("of the copy" not in known)])
            del made
            must(len(names) == len(known))
        if len(known) > 300:
            must(list(names) == list(known) and names[::-1] == list(known)[::-1])
            self.own, self.known = Interner(), {}

    def try_list(self):
        texts = [
            self.text() if self.random.random() < 0.9 else self.random.choice([None, float("nan")]) for _ in range(30)
        ]
        makers = [lambda: texts, lambda: iter(texts), lambda: tuple(texts)]
        if numpy is not None:
            makers.append(lambda: numpy.array([*texts, None], object)[:-1])
        if pandas is not None:
            makers.append(lambda: pandas.Series(texts, index=self.random.sample(range(99), len(texts)), dtype=object))
        codes, distinct = factorize(self.random.choice(makers)())
        must((codes.tolist(), distinct) == factorized(texts), texts, codes, distinct)

    def try_block(self):
        block = bytearray("".join(self.texts()).encode())
        if block and self.random.random() < 0.3:
            block[self.random.randrange(len(block))] = self.random.randrange(256)
        ends = [self.random.randrange(len(block) + 2) for _ in range(self.random.randrange(12))]
        if self.random.random() < 0.7:
            ends.sort()
        wanted = numbered(bytes(block), ends)
        call = self.random.choice([factorize_block, Interner().put_block])
        kinds = [lambda: ends, lambda: array.array("q", ends), lambda: array.array("I", ends), lambda: iter(ends)]
        if numpy is not None:
            kinds += [lambda: numpy.array(ends, "u8"), lambda: numpy.repeat(numpy.array(ends, "i4"), 2)[::2]]
        text = self.random.choice([bytes(block), block, memoryview(block)])
        found = codes_of(call, text, self.random.choice(kinds)())
        must(found == wanted, bytes(block), ends, found)
        if not wanted[1]:
            first = [wanted[0].index(it) for it in range(len(set(wanted[0])))]
            must(list(firsts(found[0])) == first, wanted, first)

    def try_shared(self):
        """Calls of the interner that all threads share: a text keeps its code, and a code its text."""
        text = self.text()
        code = self.shared.put(text)
        must(self.shared[code] == text and self.shared.get(text) == code, text, code)
        texts = self.texts()
        for it, found in zip(texts, self.shared.put_many(texts)):
            must(self.shared[found] == it, it, found)
        if self.random.random() < 0.002:
            listed = list(copy.copy(self.shared))
            must(len(set(listed)) == len(listed))

    def try_of_threads(self):
        """Calls of the interner whose calls overlap: a text keeps its code, a code its text, and no code is left out."""
        names = self.of_threads
        for text in self.texts():
            code = names.put(text)
            must(names[code] == text and names.get(text) == code and code < len(names), text, code)
        if self.random.random() < 0.002:
            listed = list(names)
            must(len(set(listed)) == len(listed) and all(names.get(it) == code for code, it in enumerate(listed)))

    def try_child(self):
        """A child of a fork, which the other threads' calls don't wait for, has all names and can put more."""
        if not self.forks or self.random.random() > 0.02:
            return
        names, text = self.random.choice([self.own, self.shared, self.of_threads]), self.text()
        before = names.put(text)
        if names is self.own:
            must(self.known.setdefault(text, len(self.known)) == before, text)
        child = os.fork()
        if not child:
            signal.alarm(HANGS)
            status = 1
            try:
                code, count = names.put(text + "of the child"), len(names)
                must(names[code] == text + "of the child" and names.get(text) == before and names[before] == text, text)
                must(names.put(text + "of the child") == code and count == len(names))
                must(factorize([text, None, text])[1] == [text])
                must(type(names)([text])[0] == text)
                status = 0
            except BaseException:
                traceback.print_exc()
            os._exit(status)
        must(os.waitpid(child, 0)[1] == 0, "a child failed or hangs", text)

    def try_pool(self):
        """A task of a pool returns what a call here does, or its exception."""
        if self.random.random() > 0.05:
            return
        texts = self.texts()
        codes, distinct = self.pool.apply_async(factorize, (texts,)).get(HANGS)
        must((codes.tolist(), distinct) == factorized(texts), texts, codes, distinct)
        block = "".join(texts).encode()
        try:
            self.pool.apply_async(factorize_block, (block + b"\xff", [len(block), len(block) + 1])).get(HANGS)
            must(False, "no fault", block)
        except Fault as fault:
            must((fault.number, list(fault.codes)) == (2, [0]), block)
        names = self.random.choice([Interner, SharedInterner])(texts)
        put = self.pool.apply_async(put_in_copy, (names, "of the child")).get(HANGS)
        must(put == (len(names), len(names), len(names) + 1) and "of the child" not in names, texts)

    def run(self, until):
        calls = [self.try_garbage, self.try_own, self.try_list, self.try_block, self.try_shared, self.try_of_threads]
        calls += [self.try_garbage, self.try_of_threads, self.try_child, self.try_pool]
        while time.monotonic() < until:
            call = self.random.choice(calls)
            for _ in range(20):
                call()
                self.calls += 1


def main(seconds, threads=4, seed=None):
    seed = int.from_bytes(os.urandom(4), "little") if seed is None else int(seed)
    sys.setswitchinterval(1e-5)
    length = min(ROUND, float(seconds) / 2)
    until, failed, total = time.monotonic() + float(seconds), [], 0
    rounds, libraries = itertools.count(), [elsa_proved._so, overlapping()]
    while time.monotonic() < until and not failed:
        at, shared, of_threads = next(rounds), Interner(), SharedInterner()
        # the allocator of AddressSanitizer doesn't expect a fork
        forks = "asan" not in elsa_proved._so._name
        # a worker ends after some tasks, so that the next one is forked while the threads are in calls
        method = "fork" if forks and at // 2 % 2 == 0 else "spawn"
        processes = multiprocessing.get_context(method).Pool(2, maxtasksperchild=100)
        elsa_proved._so = libraries[at % 2]
        given = shared, of_threads, processes, forks and at % 2 == 0
        pool = [Thread(f"{seed} {at} {it}", *given) for it in range(int(threads))]

        def run(thread):
            try:
                thread.run(min(until, time.monotonic() + length))
            except BaseException:
                failed.append(traceback.format_exc())

        started = [threading.Thread(target=run, args=(it,)) for it in pool]
        for it in started:
            it.start()
        for it in started:
            it.join()
        processes.terminate()
        total += sum(it.calls for it in pool)
        listed = list(shared)
        must(len(set(listed)) == len(listed) and list(shared.put_many(listed)) == list(range(len(listed))))
        listed = list(of_threads)
        must(len(set(listed)) == len(listed) and [of_threads.put(it) for it in listed] == list(range(len(listed))))
        of_threads.close()
    if failed:
        print(f"seed {seed}:\n{failed[0]}")
        return 1
    print(f"{total} calls of {threads} threads, seed {seed}: none failed")
    return 0


if __name__ == "__main__":
    sys.exit(main(*sys.argv[1:]))
