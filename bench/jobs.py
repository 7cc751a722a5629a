"""The rows that are measured: what each side runs, and the goals."""
from job import ALONE, CELLS, CRAFTED, FREE, FREE_MAP, FREE_SHARDS, LOCKED, LONGEST, NAMES, OUR_HASH, OWNED, OWNERS
from job import APPEND_GROWTH, MAP_GROWTH, NAMES_GROWTH, SHARDS, SHARED, SHARED_SHARDS, WORKERS, Job
from programs import CORPORA, CRAFTED_KEYS, FLOODS, SIZES, crafted_name

# How often a row of growth is run, for each time that another one is.
OFTEN = {10_000: 3, 100_000: 2, 10_000_000: 0.4}


def names_jobs(peers, cli):
    sides = {
        "elsa": [cli, "intern"],
        "upstream": [peers / "names_upstream"],
        "hand-written": [peers / "names_expert"],
        "hand-written name by name": [peers / "names_expert", "single"],
    }
    titles = {
        "zipf": "1,000,000 lines, 50,000 names by Zipf",
        "distinct": "1,000,000 lines, all distinct",
        "words": "1,000,000 lines, running text",
        "symbols": "1,000,000 lines, identifiers of source code",
        "long": "1,500,000 lines, long distinct words",
    }
    with_our_hash = sides | {OUR_HASH: [peers / "names_upstream", "seeded"]}
    for name, title in titles.items():
        yield Job(NAMES, title, with_our_hash, "0.55", "1", stdin=CORPORA / name, references=(OUR_HASH,))
    for name, title in FLOODS.items():
        yield Job(NAMES, f"400,000 of 48 bytes, {title}", sides, stdin=CORPORA / name)
    yield Job(NAMES_GROWTH, "no line", sides, stdin=CORPORA / "empty", often=3)
    for size in SIZES:
        yield Job(
            NAMES_GROWTH,
            f"{size:,}",
            sides,
            stdin=CORPORA / str(size),
            often={10_000: 3, 10_000_000: 0.4}.get(size, 1),
            entries=size,
        )


def by_threads(group, title, threads, sides, goal="", peer_goal="", **more):
    """The row of a job by these threads, whose programs print the time themselves."""
    name = f"{title}, {threads} threads" if threads != "1" else f"{title}, 1 thread"
    return Job(group, name, sides, goal, peer_goal, by="inside", threads=int(threads), **more)


def calls(peers, bench, form, best, count):
    return {
        "elsa": [bench, form, "1", count],
        "upstream": [peers / "calls", "upstream", form, "1", count],
        best: [peers / "calls", "best", form, "1", count],
    }


def our_hash(peers, form, count):
    """Upstream's map with our default hash, in the rows in which the first table shows it."""
    if form not in ("map_insert", "map_get"):
        return {}
    return {OUR_HASH: [peers / "calls", "upstream_folded", form, "1", count]}


def alone_jobs(peers, bench):
    rows = [
        ("vec_push", "`FrozenVec`, push", "arena and `Vec`", 1_000_000),
        ("vec_get", "`FrozenVec`, get", "arena and `Vec`", 1_000_000),
        ("vec_walk", "`FrozenVec`, iteration", "arena and `Vec`", 100_000),
        ("vec_clone", "`FrozenVec`, clone", "arena and `Vec`", 100_000),
        ("vec_collect", "`FrozenVec`, collecting", "arena and `Vec`", 100_000),
    ]
    for collection, title, best, count in (
        ("map", "`FrozenMap`", "arena and hashbrown", 1_000_000),
        ("tree", "`FrozenBTreeMap`", "arena and `BTreeMap`", 200_000),
        ("index_map", "`FrozenIndexMap`", "arena and indexmap", 1_000_000),
    ):
        for keys, key in (("", "u64 keys"), ("_text", "text keys")):
            for call in ("insert", "get"):
                rows.append((f"{collection}{keys}_{call}", f"{title}, {call}, {key}", best, count))
    rows += [
        ("index_map_at", "`FrozenIndexMap`, get by index", "arena and indexmap", 1_000_000),
        ("map_clone", "`FrozenMap`, clone", "arena and hashbrown", 100_000),
        ("map_collect", "`FrozenMap`, collecting", "arena and hashbrown", 100_000),
    ]
    for form, title, best, count in rows:
        hashed = our_hash(peers, form, str(count))
        sides = calls(peers, bench, form, best, str(count)) | hashed
        yield Job(ALONE, title, sides, "", "1", by="inside", references=tuple(hashed))
    for size in SIZES:
        sides = calls(peers, bench, "map_insert", "arena and hashbrown", str(size))
        yield Job(MAP_GROWTH, f"{size:,}", sides, by="inside", often=OFTEN.get(size, 1), entries=size)


def append_jobs(peers, bench):
    """The map for large collections. The other sides are the maps of any size."""

    def sides(call, size):
        others = calls(peers, bench, f"map_{call}", "arena and hashbrown", str(size))
        return others | {"elsa": [bench, f"append_map_{call}", "1", str(size)]}

    for size in SIZES:
        goal, memory = ("0.75", "0.8") if size == 10_000_000 else ("", "")
        how = dict(by="inside", often=OFTEN.get(size, 1), entries=size, memory_goal=memory)
        yield Job(APPEND_GROWTH, f"{size:,}", sides("insert", size), "", goal, **how)
    for call, title, goal in (("clone", "clone", "1.6"), ("collect", "collecting", "")):
        name = f"`FrozenAppendMap`, {title}, of 1,000,000"
        yield Job(ALONE, name, sides(call, 1_000_000), "", goal, by="inside", often=0.4)
    for size in (1_000_000, 10_000_000):
        how = dict(by="inside", often=OFTEN.get(size, 1), entries=size)
        yield Job(APPEND_GROWTH, f"{size:,}, get", sides("get", size), "", "1.3", **how)


def crafted_jobs(peers, bench):
    """The map for large collections with texts as keys, which may be crafted to collide. Upstream's map hashes with the
    hash of std, which has a secret; hashbrown's does so where ours has a secret too, and otherwise takes our default."""
    for hasher, count, families in CRAFTED_KEYS:
        best = "arena and hashbrown, hash of std" if hasher == "seeded" else "arena and hashbrown"
        for family in families:
            sides = calls(peers, bench, f"lines_{hasher}", best, str(count))
            name = crafted_name(hasher, count, family)
            yield Job(CRAFTED, name, sides, stdin=CORPORA / family, by="inside")


def longest_jobs(peers, bench):
    """The longest of some insertions by one thread: a table grows in it."""
    for size in (1_000_000, 10_000_000):
        often = 0.4 if size == 10_000_000 else 1
        count = str(size)
        alone = calls(peers, bench, "map_longest", "arena and hashbrown", count)
        yield Job(LONGEST, f"`FrozenMap`, of {size:,}", alone, by="inside", often=often)
        append = alone | {"elsa": [bench, "append_map_longest", "1", count]}
        yield Job(LONGEST, f"`FrozenAppendMap`, of {size:,}", append, by="inside", often=often)
    for form, title in (("free_longest", "lock-free map"), ("shards_free_longest", "lock-free map of shards")):
        sides = {"elsa": [bench, form, "1", "1000000"]}
        sides["dashmap"] = [peers / "free_map", "dashmap", "free_longest", "1", "1000000"]
        yield Job(LONGEST, f"{title}, of 1,000,000", sides, by="inside")


def cell_jobs(peers, bench):
    """The collections that grow through `&self`, as all of upstream's do."""
    for form, title, count in (
        ("vec_push", "`cell::FrozenVec`, push", "1000000"),
        ("vec_get", "`cell::FrozenVec`, get", "1000000"),
        ("vec_walk", "`cell::FrozenVec`, iteration", "100000"),
        ("map_insert", "`cell::FrozenMap`, insert, u64 keys", "1000000"),
        ("map_get", "`cell::FrozenMap`, get, u64 keys", "1000000"),
    ):
        hashed = our_hash(peers, form, count)
        sides = {"elsa": [bench, f"cell_{form}", "1", count]}
        sides["upstream"] = [peers / "calls", "upstream", form, "1", count]
        yield Job(CELLS, title, sides | hashed, "1", by="inside", references=tuple(hashed))


def owners_jobs(peers, bench):
    """Values that own memory."""
    for form, title, count in (
        ("arena_alloc", "storing 1,000,000 values", "1000000"),
        ("arena_walk", "ten walks over 100,000 values", "100000"),
        ("arena_drop", "dropping 1,000,000 values", "1000000"),
    ):
        sides = {"elsa": [bench, form, "1", count]}
        sides |= {side: [peers / "owners", side, form, "1", count] for side in ("upstream", "typed-arena")}
        yield Job(OWNERS, title, sides, "", "1", by="inside")


def locked_jobs(peers, bench):
    others = {"upstream": "upstream", "dashmap": "dashmap", "parking_lot": "parking_lot", "std's lock": "std"}
    for group, form, title, goal, rows in (
        (LOCKED, "copy", "copies", "1", ("1", "2", "4")),
        (LOCKED, "copy_few", "copies at 256 keys", "", ("1",)),
        (LOCKED, "owner", "owners", "1.5", ("1", "2", "4")),
        (SHARDS, "shards_copy", "copies", "", ("1", "2", "4")),
        (SHARDS, "shards_owner", "owners", "", ("1", "2", "4")),
    ):
        for threads in rows:
            sides = {"elsa": [bench, form, threads, "2000000"]}
            same = form.removeprefix("shards_")
            sides |= {side: [peers / "sync_map", word, same, threads, "2000000"] for side, word in others.items()}
            peer_goal = "0.7" if group == SHARDS and threads == "4" else ""
            yield by_threads(group, title, threads, sides, goal, peer_goal)
    for threads in ("1", "4"):
        sides = {
            "elsa": [bench, "recorded", threads, "500000"],
            "the same map, not recorded": [bench, "copy", threads, "500000"],
            "lock, map and two lists": [peers / "sync_map", "parking_lot", "recorded", threads, "500000"],
        }
        references = ("the same map, not recorded",)
        yield by_threads("recorder", "500,000 calls", threads, sides, references=references)


def free_jobs(peers, bench):
    locks = {"std's lock around a `Vec`": "std", "parking_lot's": "parking_lot"}

    def job(title, form, threads, count, goal, others=locks):
        sides = {"elsa": [bench, form, threads, count]}
        words = {"upstream": "upstream", "slots": "slots"} | others
        sides |= {side: [peers / "lock_free", word, form, threads, count] for side, word in words.items()}
        return by_threads(FREE, title, threads, sides, goal)

    for threads in ("1", "2", "4"):
        pushes = job("pushes", "push", threads, "1000000", "1.3")
        if threads == "1":
            # The least time of a push that exchanges a word to lock it, and again to release it.
            pushes.references = ("two exchanges of a word alone",)
            pushes.sides[pushes.references[0]] = [peers / "lock_free", "upstream", "exchange", "1", "1000000"]
        yield pushes
    # More threads than processors: what a thread does while another has the lock.
    yield job("pushes", "push", "16", "1000000", "")
    for threads in ("1", "4"):
        yield job("pushes in batches of 64", "extend", threads, "10000000", "")
    # A read under a lock is slow, so it is only in the rows of plain reads, which are shorter. The goals: without pushes;
    # during pushes with one reader; during pushes with several.
    reads = [
        ("reads below the observed length", "seen", {}, "1.05", "0.6", "0.8"),
        ("reads below the observed length, in order", "seen_in_order", {}, "1.05", "0.6", "0.8"),
        ("reads at growing indices", "growing", {}, "", "", ""),
        ("plain reads", "plain", locks, "1.2", "1.2", "1.2"),
        ("plain reads, in order", "plain_in_order", {}, "1.2", "1.2", "1.2"),
    ]
    for title, form, others, at_rest, _, _ in reads:
        for threads in ("1", "2", "4"):
            yield job(title, form, threads, "2000000" if others else "20000000", at_rest, others)
    for title, form, others, _, by_one, by_more in reads:
        for threads in ("1", "2", "4"):
            goal, count = by_one if threads == "1" else by_more, "1000000" if others else "10000000"
            during = job(f"{title}, during pushes", f"{form}_beside", threads, count, goal, others)
            during.threads += 1
            yield during
    yield job("ten walks over a million items", "walk", "1", "1000000", "0.4")


def free_map_jobs(peers, bench):
    """The goals are compared with dashmap, with or without a look-up before the insertion; a lock around a map is shown."""
    locks = {"parking_lot's lock": "parking_lot", "std's lock": "std"}

    def job(title, form, threads, count, goal, memory_goal, others, group=FREE_MAP):
        sides = {"elsa": [bench, form, threads, count]}
        same = form.removeprefix("shards_")
        sides |= {side: [peers / "free_map", word, same, threads, count] for side, word in others.items()}
        goals = dict(peer_goal=goal, memory_goal=memory_goal)
        return by_threads(group, title, threads, sides, compared_with="dashmap", **goals)

    insertions = {"dashmap": "dashmap", "dashmap, by entries": "dashmap_entry"} | locks
    for form, title, goals in (
        ("free_insert_zipf", "insertions by Zipf", {"1": "0.95", "4": "0.6"}),
        ("free_insert_distinct", "insertions, all distinct", {"1": "0.6", "2": "0.6", "4": "0.6"}),
    ):
        for threads in ("1", "2", "4"):
            yield job(title, form, threads, "1000000", goals.get(threads, ""), "0.8", insertions)
    # Just after a hash index was opened, by the insertion of index 262,143.
    yield job("insertions, all distinct, 270,000", "free_insert_distinct", "1", "270000", "", "1.2", insertions)
    present = {"1": "0.9", "4": "0.6"}
    for form, title, goals in (
        ("free_get_zipf", "look-ups by Zipf", present),
        ("free_get_present", "look-ups of a million present keys", present),
        ("free_get_absent", "look-ups of absent keys, of a million", {"1": "1.3", "2": "1.3", "4": "1.3"}),
    ):
        for ending, words in (("", ""), ("_beside", ", during insertions")):
            for threads in ("1", "2", "4"):
                others = {"dashmap": "dashmap"} | locks
                row = job(title + words, form + ending, threads, "2000000", goals.get(threads, ""), "", others)
                row.threads += 1 if ending else 0
                yield row
    for form, title, goals in (
        ("shards_free_insert_zipf", "insertions by Zipf", {"4": "0.6"}),
        ("shards_free_insert_distinct", "insertions, all distinct", {"4": "0.6"}),
    ):
        for threads in ("1", "2", "4"):
            yield job(title, form, threads, "1000000", goals.get(threads, ""), "", insertions, FREE_SHARDS)
    for form, title, goal in (
        ("shards_free_get_present", "look-ups of a million present keys", "1.1"),
        ("shards_free_get_absent", "look-ups of absent keys, of a million", "1.5"),
    ):
        for threads in ("1", "4"):
            others = {"dashmap": "dashmap"} | locks
            yield job(title, form, threads, "2000000", goal if threads == "1" else "", "", others, FREE_SHARDS)


def owned_jobs(peers, bench):
    """Values that own memory, which threads read by reference."""
    for form, title, peer in (
        ("owned_vec_arc", "reads of `Arc<u64>` items", "slots"),
        ("owned_vec_text", "reads of `String` items", "slots"),
        ("owned_map_arc", "look-ups by Zipf of `Arc<u64>` values", "dashmap"),
        ("owned_map_text", "look-ups by Zipf of `String` values", "dashmap"),
    ):
        for threads in ("1", "4"):
            sides = {"elsa": [bench, form, threads, "4000000"]}
            sides |= {side: [peers / "owned", side, form, threads, "4000000"] for side in ("upstream", peer)}
            goal = "1" if threads == "4" else ""
            yield by_threads(OWNED, title, threads, sides, goal, goal)


def shared_jobs(peers, bench):
    """A million names for each thread. The goals are compared with dashmap; the single-threaded interner and a lock around a
    map are shown."""
    others = {"parking_lot's lock": "parking_lot", "std's lock": "std", "dashmap": "dashmap"}
    alone = "the interner of one thread"

    def job(title, words, threads, count, goal, memory_goal, shards=""):
        form = f"names_{words}"
        sides = {"elsa": [bench, shards + form, threads, count]}
        sides |= {side: [peers / "shared_names", word, form, threads, count] for side, word in others.items()}
        goals, group = dict(peer_goal=goal, memory_goal=memory_goal), SHARED_SHARDS if shards else SHARED
        return by_threads(group, title, threads, sides, compared_with="dashmap", **goals)

    for words, title, goals in (
        ("zipf", "by Zipf", {"1": "0.95", "4": "0.6"}),
        ("distinct", "all distinct", {"1": "0.6", "2": "0.6", "4": "0.6"}),
    ):
        for threads in ("1", "2", "4"):
            row = job(f"names {title}", words, threads, f"{threads}000000", goals.get(threads, ""), "0.8")
            if threads == "1":
                row.references, row.sides[alone] = (alone,), [bench, f"alone_{words}", "1", "1000000"]
            yield row
        sides = {"elsa": [bench, f"texts_{words}", "1", "1000000"], alone: [bench, f"alone_{words}", "1", "1000000"]}
        yield Job(SHARED, f"texts {title}, 1 thread", sides, by="inside", references=(alone,))
    # Just after a hash index was opened, by the `put` of index 262,143.
    yield job("names all distinct, 270,000", "distinct", "1", "270000", "", "1.2")
    # The numbers of an interner of shards have gaps, so with one thread their sum would not be that of the other sides.
    for words, title in (("zipf", "by Zipf"), ("distinct", "all distinct")):
        for threads in ("2", "4"):
            goal = "0.8" if threads == "4" else ""
            yield job(f"names {title}", words, threads, f"{threads}000000", goal, "", "shards_")


def workers_jobs(peers, cli):
    for workers, goal in (("4", "1"), ("16", "0.5")):
        yield Job(
            WORKERS,
            f"{workers} with 100,000 numbers each",
            {"elsa": [cli, "shared", workers, "100000"], "upstream": [peers / "shared_upstream", workers, "100000"]},
            goal,
            threads=int(workers),
        )


def all_jobs(peers, cli, bench):
    """Every row, in the order of the tables. The sides are run by the programs in the folder `peers`, by the program of
    the names `cli`, and by our program of measurements `bench`."""
    return [
        *names_jobs(peers, cli),
        *alone_jobs(peers, bench),
        *append_jobs(peers, bench),
        *crafted_jobs(peers, bench),
        *longest_jobs(peers, bench),
        *cell_jobs(peers, bench),
        *owners_jobs(peers, bench),
        *locked_jobs(peers, bench),
        *free_jobs(peers, bench),
        *free_map_jobs(peers, bench),
        *owned_jobs(peers, bench),
        *shared_jobs(peers, bench),
        *workers_jobs(peers, cli),
    ]
