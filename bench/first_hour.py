"""The rows of bench/run --first-hour: what a user does first, by the number of entries; and the rows of interners that
threads share. A figure is the median of the ratios of one round, with their quartiles."""
import collections, os, re, statistics, subprocess, time

from job import FREE_MAP, FREE_SHARDS, NAMES, OUR_HASH, Job
from jobs import all_jobs
from measuring import machine, one_run
from programs import CORPORA

SIZES = (10, 100, 1_000, 10_000)
# The number of calls of a burst, and of entries that are walked or copied in one.
CALLS = {"fill": 60_000, "present": 200_000, "absent": 200_000, "walks": 2_000_000, "copies": 200_000}
HASHBROWN, INDEXMAP, TREE = "arena and hashbrown", "arena and indexmap", "arena and `BTreeMap`"
FOLDED = {HASHBROWN: "best", OUR_HASH: "upstream_folded"}
INDEXED = {INDEXMAP: "best", "upstream": "upstream"}
ORDERED = {TREE: "best", "upstream": "upstream"}
LIST = {"arena and `Vec`": "best", "upstream": "upstream"}
ARENA = {"bumpalo": "best", "typed-arena": "typed-arena", "upstream": "upstream"}
# Our type, its form, the form of the others, and the others.
TYPES = {
    "text": ("`FrozenMap`, texts", "map_text", "map_text", FOLDED),
    "append text": ("`FrozenAppendMap`, texts", "append_map_text", "map_text", FOLDED),
    "map": ("`FrozenMap`", "map", "map", FOLDED),
    "append": ("`FrozenAppendMap`", "append_map", "map", FOLDED),
    "index": ("`FrozenIndexMap`", "index_map", "index_map", INDEXED),
    "cell": ("`cell::FrozenMap`", "cell_map", "map", FOLDED),
    "list": ("`FrozenVec`", "vec", "vec", LIST),
    "arena": ("`TypedArena<u64>`", "numbers", "numbers", ARENA),
    "tree": ("`FrozenBTreeMap`", "tree", "tree", ORDERED),
    "cell tree": ("`cell::FrozenBTreeMap`", "cell_tree", "tree", ORDERED),
}
MAPS = ("map", "append", "index", "cell")
# What a user does, the call, and with which of the types.
USES = (
    ("make a memo map, fill it, drop it", "fill", ("text", "append text", *MAPS)),
    ("look up a present key", "present", ("text", "append text", *MAPS)),
    ("look up an absent key", "absent", ("text", "append text", *MAPS)),
    ("make a list, fill it, drop it", "fill", ("list",)),
    ("make an arena of numbers, fill it, drop it", "fill", ("arena",)),
    ("make an ordered map, fill it in random order, drop it", "fill", ("tree", "cell tree")),
    ("look up in an ordered map", "present", ("tree", "cell tree")),
    ("walk", "walks", ("list", "map", "index", "tree")),
    ("clone", "copies", ("map", "index", "tree")),
)
# The rows of the tables that are measured in this way too: what a user does, with which type, the group and the name.
WHOLE = (
    ("number a million names, by Zipf", "`elsa intern`", NAMES, "1,000,000 lines, 50,000 names by Zipf"),
    ("number a million names, all distinct", "`elsa intern`", NAMES, "1,000,000 lines, all distinct"),
    ("look up by Zipf, by four threads", "`LockFreeFrozenMap`", FREE_MAP, "look-ups by Zipf, 4 threads"),
    ("look up absent keys of a million, by four threads", "`LockFreeFrozenMap`", FREE_MAP,
     "look-ups of absent keys, of a million, 4 threads"),
    ("insert a million keys, by four threads", "`LockFreeFrozenMap`", FREE_MAP, "insertions, all distinct, 4 threads"),
    ("insert a million keys, by four threads", "`LockFreeShardedMap`", FREE_SHARDS,
     "insertions, all distinct, 4 threads"),
)  # fmt: skip


def in_a_burst(threads):
    """The words before a command that runs it at real-time priority, if this user may; with one thread on one processor."""
    words = ["chrt", "-r", "1"]
    if subprocess.run([*words, "true"], capture_output=True).returncode != 0:
        words = []
    places = os.sched_getaffinity(0)
    if threads > len(places):
        return []
    return [*words, "taskset", "-c", str(max(places))] if threads == 1 else words


def first_jobs(peers, cli, bench):
    """The rows by size, and those of one size."""
    one = in_a_burst(1)
    for does, call, types in USES:
        for title, form, same, others in (TYPES[it] for it in types):
            for size in SIZES:
                numbers = [str(max(1, CALLS[call] // size)), str(size)]
                sides = {"elsa": [*one, bench, f"{form}_{call}", *numbers]}
                for side, word in others.items():
                    if side in ("upstream", OUR_HASH) and call in ("walks", "copies") and same != "vec":
                        continue
                    sides[side] = [*one, peers / "calls", word, f"{same}_{call}", *numbers]
                calls = int(numbers[0]) * size
                yield Job(does, title, sides, by="inside", entries=calls, references=tuple({OUR_HASH} & {*sides}))
    rows = {(job.group, job.name): job for job in all_jobs(peers, cli, bench)}
    for does, title, group, name in WHOLE:
        job = rows[group, name]
        job.sides = {side: [*in_a_burst(job.threads), *words] for side, words in job.sides.items()}
        job.group, job.name, job.entries = does, title, 1_000_000 * (2 if "look up" in does else 1)
        yield job


def shared_jobs(peers, bench, inputs, threads=(1, 2, 4)):
    """The interner of threads from Rust, compared with ours inside the language and two others, for lines of a corpus."""
    for corpus, count in inputs:
        for number in threads:
            words = [str(number), str(count)]
            sides = {"elsa": [peers / "shared_lines", "bindings", *words]}
            sides |= {side: [peers / "shared_lines", form, *words] for side, form in OTHERS.items()}
            sides |= {side: [bench, form, *words] for side, form in INSIDE.items()}
            sides = {side: [*in_a_burst(number), *line] for side, line in sides.items()}
            yield Job(corpus, f"{number}", sides, stdin=CORPORA / corpus, by="inside", threads=number, entries=count)


OTHERS = {"two dashmaps": "dashmaps", "a mutex": "mutex"}
INSIDE = {"the same map": "lines_copied", "`SharedInterner`": "lines_shared", "`ShardedInterner`": "lines_shards"}


def measure_rounds(jobs, minutes, least=3):
    """Runs all sides of all rows in turn, until the minutes are over. Returns the number of rounds. With one thread, the
    sides must return the same, but an interner of shards has other numbers."""
    end, rounds = time.monotonic() + 60 * minutes, 0
    while rounds < least or time.monotonic() < end:
        for job in jobs:
            answers = set()
            for side in job.sides:
                seconds, answer = one_run(job, side)
                job.runs.setdefault(side, []).append(seconds)
                if side != "`ShardedInterner`":
                    answers.add(answer)
            if job.threads == 1 and len(answers) != 1:
                raise SystemExit(f"run: {job.group}, {job.name}: the sides return different results: {answers}")
        rounds += 1
    for job in jobs:
        job.times = {side: statistics.median(runs) for side, runs in job.runs.items()}
    return rounds


def ratios(job, side):
    """The median of the ratios of one round, between their quartiles."""
    return statistics.quantiles([ours / other for ours, other in zip(job.runs["elsa"], job.runs[side])], n=4)


def ratio_of(job, side):
    low, middle, high = ratios(job, side)
    return f"**{middle:.2f}** ({low:.2f} to {high:.2f})"


def nanos(job):
    taken = job.times["elsa"] / job.entries * 1e9
    return f"{taken:.1f}" if taken < 100 else f"{taken:.0f}"


def rows_of_uses(jobs):
    """The lines of the table by size, of which each has a row for each size: the ratio to the best peer with its quartiles,
    and that to upstream."""
    lines = []
    for at in range(0, len(jobs), len(SIZES)):
        row = jobs[at : at + len(SIZES)]
        upstream = [f"{ratios(job, side)[1]:.2f}" for job in row for side in ("upstream", OUR_HASH) if side in job.sides]
        best = " or ".join(dict.fromkeys(job.best_peer() for job in row))
        cells = [ratio_of(job, job.best_peer()) for job in row]
        lines.append([row[0].group, row[0].name, " / ".join(map(nanos, row)), *cells, best, " / ".join(upstream) or "–"])
    return lines


def table(head, lines):
    return "".join(f"| {' | '.join(cells)} |\n" for cells in [head, ["---"] * len(head), *lines])


def first_hour(peers, cli, bench, minutes, only=""):
    """The text of the table of all rows."""
    jobs = [job for job in first_jobs(peers, cli, bench) if re.search(only, f"{job.group}, {job.name}")]
    before = os.getloadavg()[1]
    rounds = measure_rounds(jobs, minutes)
    small = [job for job in jobs if job.name != "`elsa intern`" and job.threads == 1]
    whole = [[job.group, job.name, nanos(job), ratio_of(job, job.best_peer()), job.best_peer()] for job in jobs if job not in small]
    head = ["You", "With", "ns a call", *(f"{size:,}" for size in SIZES), "The other choice", "Upstream"]
    ends = f"Medians of the ratios of {rounds} rounds, in brackets their quartiles. {loaded(before)}"
    text = table(head, rows_of_uses(small))
    return text + "\n" + table(["You", "With", "ns a call", "Ratio", "The other choice"], whole) * bool(whole) + "\n" + ends


class Row(collections.namedtuple("Row", "nanos ratios upstream")):
    """A row of the published table by size: our nanoseconds, and the ratios to the other choice and to upstream."""


def rows_of_page(page):
    """The rows by size of RESULTS.md, by what the user does and with which type."""
    rows = {}
    for line in page.split("<!-- first hour: begin -->")[1].split("<!-- first hour: end -->")[0].split("\n"):
        cells = [it.strip() for it in line.strip("| ").split("|")]
        if len(cells) == 5 + len(SIZES) and " / " in cells[2]:
            ratios = [float(it.split("**")[1]) for it in cells[3:-2]]
            upstream = [float(it) for it in cells[-1].split(" / ")] if "/" in cells[-1] else []
            rows[cells[0], cells[1]] = Row([float(it) for it in cells[2].split(" / ")], ratios, upstream)
    return rows


def append_table(page):
    """The table of a `FrozenAppendMap`, compared with a `FrozenMap`, from the rows of RESULTS.md."""
    rows, lines = rows_of_page(page), []
    for does, call, types in USES[:3]:
        names = [(TYPES[more][0], TYPES[less][0]) for more, less in (("append", "map"), ("append text", "text"))]
        both = [[ours / other for ours, other in zip(rows[does, more].nanos, rows[does, less].nanos)] for more, less in names]
        head = "made, filled and dropped" if call == "fill" else f"a look-up of {does.partition('look up ')[2]}"
        lines.append([f"{head}: numbers as keys; texts", *(f"{number:.2f}; {text:.2f}" for number, text in zip(*both))])
    title = "Time of a `FrozenAppendMap`, compared with a `FrozenMap`, by the number of keys"
    return table([title, *(f"{size:,}" for size in SIZES)], lines)


def loaded(before):
    return f"The load was {before:.1f} at the start and {os.getloadavg()[1]:.1f} at the end, on {machine()}.\n"


def shared_lines(peers, bench, inputs, minutes):
    """The text of the table of the interners that threads share."""
    jobs, before = list(shared_jobs(peers, bench, inputs)), os.getloadavg()[1]
    rounds = measure_rounds(jobs, minutes)
    sides = [*OTHERS, *INSIDE]
    lines = [[job.group, job.name, nanos(job), *(ratio_of(job, side) for side in sides)] for job in jobs]
    text = table(["Input", "Threads", "ns a call", *(f"to {side}" for side in sides)], lines)
    return f"{text}\nMedians of the ratios of {rounds} rounds, in brackets their quartiles. {loaded(before)}"
