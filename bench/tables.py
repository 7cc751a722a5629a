"""The tables of bench/TABLES.md, from measured rows."""
import re

from job import CRAFTED, NAMES_GROWTH
from programs import CRAFTED_KEYS, FLOODS, HASHERS, crafted_name, here


def ratio_text(ratio):
    return "" if ratio is None else f"**{ratio:.2f}**"


def time_text(seconds, job):
    if seconds is None:
        return ""
    return f"{seconds / job.entries * 1e9:.1f} ns" if job.entries else f"{seconds * 1000:.1f} ms"


def table(jobs):
    rows = [
        "| Job | vs upstream | Goal | vs best peer | Goal | elsa | upstream 1.11.2 | Best peer | Peak memory vs upstream, vs peer | Spread |",
        "| --- | --- | --- | --- | --- | --- | --- | --- | --- | --- |",
    ]
    for job in jobs:
        best = job.best_peer()
        memory = ", ".join(f"{job.ratio(side, 'memory'):.2f}" for side in ("upstream", best) if side in job.memory)
        memory += f", goal {job.memory_goal}" if job.memory_goal else ""
        peer = f"{time_text(job.times[best], job)} ({best})" if best else ""
        other = job.best_other()
        peer += f"; {time_text(job.times[other], job)}, **{job.ratio(other):.2f}** ({other})" if other else ""
        references = "".join(
            f"; {side}: {time_text(job.times[side], job)}, ratio **{job.ratio(side):.2f}**" for side in job.references
        )
        rows.append(
            f"| {job.name}{references} | {ratio_text(job.ratio('upstream'))} | {job.goal} | {ratio_text(job.ratio(best))} | {job.peer_goal} | {time_text(job.times['elsa'], job)} | "
            f"{time_text(job.times.get('upstream'), job)} | {peer} | {memory} ({job.memory['elsa'] / 1024:.0f} MiB) | {job.spread:.0%}{' (noisy)' if job.noisy else ''} |"
        )
    return "\n".join(rows)


def tables(jobs):
    groups = list(dict.fromkeys(job.group for job in jobs))
    return "\n\n".join(
        f"### {group[0].upper()}{group[1:]}\n\n" + table([job for job in jobs if job.group == group])
        for group in groups
    )


def without_start(jobs):
    """Subtracts the start of the program from the time of a new name."""
    start = next((job for job in jobs if job.group == NAMES_GROWTH and not job.entries), None)
    for job in jobs:
        if start and job.group == NAMES_GROWTH and job.entries:
            job.times = {side: max(seconds - start.times[side], 0) for side, seconds in job.times.items()}


def slowest(crafted, plain):
    """The longest time for crafted keys compared with that for random ones, of each side."""
    return ", ".join(f"{side} {max(it[side] for it in crafted) / plain[side]:.2f}" for side in plain)


def crafted_note(jobs):
    """The times of a map for crafted keys compared with random ones; of the rows that were measured."""
    times = {job.name: job.times for job in jobs if job.group == CRAFTED}
    parts = []
    for hasher, count, families in CRAFTED_KEYS:
        plain, *crafted = (times.get(crafted_name(hasher, count, family)) for family in families)
        if plain and all(crafted):
            families = " and ".join(FLOODS[family] for family in families[1:])
            parts.append(f"{HASHERS[hasher]}, {count:,} keys {families}: {slowest(crafted, plain)}")
    if not parts:
        return ""
    head = "Time for crafted keys of `FrozenAppendMap`, compared with random keys (goal at 400,000: at most 1.2)"
    return f"\n{head}. {'; '.join(parts)}.\n"


def flood_note(jobs):
    plain, *crafted = (
        {job.name: job.times for job in jobs}.get(f"400,000 of 48 bytes, {title}") for title in FLOODS.values()
    )
    if not plain or not all(crafted):
        return ""
    head = "Time for crafted names, compared with random names of the same length (goal: at most 2)"
    return f"\n{head}: {slowest(crafted, plain)}.\n"


def write_between(mark, text, page=here / "TABLES.md"):
    """Writes a text between the two marks of this name of a page."""
    begin, end = f"<!-- {mark}: begin -->\n", f"<!-- {mark}: end -->"
    page.write_text(re.sub(rf"({begin}).*?({end})", lambda m: m[1] + text + m[2], page.read_text(), flags=re.S))
