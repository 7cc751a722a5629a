"""Compares factorize and an Interner with dict.setdefault, and with pandas.factorize if pandas is installed; and two threads
that number a block each with one that numbers both.

usage: PYTHONPATH=DIR/python python3 compare.py [TEXTS [DISTINCT]]
"""
import bisect
import itertools
import random
import statistics
import sys
import threading
import time

import elsa_proved

try:
    import pandas
except ImportError:
    pandas = None


def least(call, texts):
    """The least processor milliseconds of five runs on new strings, whose hashes are not known yet, and what the last returned."""
    times = []
    for _ in range(5):
        given = [it.encode().decode() for it in texts]
        begun = time.process_time()
        made = call(given)
        times.append(time.process_time() - begun)
    return min(times) * 1e3, made


def by_two_threads(call):
    """The wall time of two threads with one call each, as a part of that of one thread with both calls: the quartiles of
    20 ratios. The pauses are for `chrt -r 1`, as Linux stops a process of its real-time class that never pauses."""
    ratios = []
    for _ in range(20):
        times = []
        time.sleep(0.3)
        for calls in ([lambda: (call(), call())], [call, call]):
            threads = [threading.Thread(target=it) for it in calls]
            begun = time.perf_counter()
            for it in threads:
                it.start()
            for it in threads:
                it.join()
            times.append(time.perf_counter() - begun)
        ratios.append(times[1] / times[0])
    return statistics.quantiles(ratios, n=4)


def with_dict(texts):
    seen = {}
    return [seen.setdefault(text, len(seen)) for text in texts]


def main(count=1_000_000, distinct=50_000):
    rng = random.Random(2026)
    sums = list(itertools.accumulate(1 / rank for rank in range(1, distinct + 1)))
    names = [f"name_{rank * 0x9E3779B97F4A7C15 % 2**64 >> 34:x}" for rank in range(distinct)]
    ranks = (min(bisect.bisect(sums, rng.random() * sums[-1]), distinct - 1) for _ in range(count))
    texts = [names[rank] for rank in ranks]
    base, expected = least(with_dict, texts)
    print(f"{count} texts, {len(set(texts))} distinct")
    print(f"dict.setdefault          {base:8.1f} ms")
    packed = elsa_proved._block(texts, range(count))
    rows = [
        ("factorize, with packing", lambda given: elsa_proved.factorize(given)[0]),
        ("factorize_block", lambda _: elsa_proved.factorize_block(*packed)),
        ("Interner.put_many", lambda given: elsa_proved.Interner().put_many(given)),
        ("Interner.put, one by one", lambda given: list(map(elsa_proved.Interner().put, given))),
    ]
    for name, call in rows:
        taken, codes = least(call, texts)
        assert list(codes) == expected
        print(f"{name:24} {taken:8.1f} ms  {taken / base:.2f}")
    if pandas is not None:
        import numpy

        taken, codes = least(lambda given: pandas.factorize(numpy.array(given, dtype=object))[0], texts)
        assert list(codes) == expected
        print(f"{'pandas.factorize':24} {taken:8.1f} ms  {taken / base:.2f}")
    for name, call in (
        ("block", lambda: elsa_proved.factorize_block(*packed)),
        ("list", lambda: elsa_proved.factorize(texts)),
    ):
        lower, median, upper = by_two_threads(call)
        print(f"two threads, a {name} each: {median:.2f} of one thread's time for both ({lower:.2f} to {upper:.2f})")


main(*map(int, sys.argv[1:]))
