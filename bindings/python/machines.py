"""Numbers texts whose partitions are on several machines, with Dask. Codes and texts are those of pandas.factorize for the
whole.

usage: PYTHONPATH=DIR/python python3 machines.py [TEXTS]

The machines are two processes of this one, which talk over the loopback. The last line begins with 'passed' or 'skipped'.
"""
import random
import sys
import tempfile
from operator import itemgetter

from elsa_proved import Interner

try:
    import dask.config
    import dask.dataframe
    import numpy
    import pandas
    from distributed import Client, LocalCluster
except ImportError as why:
    print(f"skipped: {str(why).splitlines()[0]}")
    sys.exit()


def numbered(part):
    """The codes and the interner of a partition."""
    names = Interner()
    return names.put_many(part), names


def union_of(*interners):
    """An interner of the texts of all these, by their order."""
    union = Interner()
    for it in interners:
        union.put_many(it)
    return union


def codes_in(union, numbers):
    """The codes that the texts of a partition have in the union. -1 stays -1."""
    codes, names = numbers
    return numpy.append(union.put_many(names), -1)[codes]


def by_one_union(client, parts):
    """The codes of each partition and the union, which is made where the caller is."""
    numbers = client.map(numbered, parts)
    union = union_of(*client.gather(client.map(itemgetter(1), numbers)))
    return client.map(codes_in, [client.scatter(union)] * len(parts), numbers), union


def by_tree(client, parts, width=3):
    """The same by unions of unions, which the workers make of `width` interners each."""
    numbers = client.map(numbered, parts)
    unions = client.map(itemgetter(1), numbers)
    while len(unions) > 1:
        unions = [client.submit(union_of, *unions[at : at + width]) for at in range(0, len(unions), width)]
    return [client.submit(codes_in, unions[0], it) for it in numbers], unions[0].result()


def partition(number, count):
    """The texts of a partition, which a worker would read from its machine's disk."""
    choose = random.Random(number)
    names = [f"name {it}" for it in range(50_000)] + ["é", "語", "", None]
    return numpy.array([names[int(choose.paretovariate(0.2)) % len(names)] for _ in range(count)], object)


def frame(number, count):
    return pandas.DataFrame({"name": partition(number, count)})


def main(count=60_000, partitions=10):
    given = list(range(partitions)), [int(count) // partitions] * partitions
    codes, distinct = pandas.factorize(numpy.concatenate(list(map(partition, *given))))
    how = dict(n_workers=2, threads_per_worker=1, host="127.0.0.1", dashboard_address=None)
    # without its address, the scheduler's HTTP server listens at all of the machine's
    how["scheduler_kwargs"] = {"dashboard_address": "127.0.0.1:0"}
    # for a machine with a high load
    patient = dask.config.set({f"distributed.comm.timeouts.{it}": "300s" for it in ("connect", "tcp")})
    with tempfile.TemporaryDirectory() as folder, patient:
        with LocalCluster(**how, local_directory=folder) as cluster, Client(cluster) as client:
            column = dask.dataframe.from_map(frame, *given)["name"]
            for parts in client.map(partition, *given), client.compute(column.to_delayed()):
                for way in by_one_union, by_tree:
                    found, union = way(client, parts)
                    assert (numpy.concatenate(client.gather(found)) == codes).all(), way
                    assert list(union) == list(distinct), way
                workers = {it for held in client.who_has(parts).values() for it in held}
                assert len(workers) == 2, workers
    print(f"passed: {len(codes)} texts in {partitions} partitions on two processes, {len(distinct)} of them distinct")


if __name__ == "__main__":
    main(*sys.argv[1:])
