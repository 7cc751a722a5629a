"""The pictures bench/results.svg and bench/growth.svg, drawn from the tables of bench/TABLES.md."""
import html, re

from job import CRAFTED, LONGEST, NAMES_GROWTH, WORKERS
from sizes import rows_of
from tables import here

INK = {"elsa": "#2e7d32", "upstream": "#5f6b7a", "peer": "#9c5d00"}
HEAD = '<svg xmlns="http://www.w3.org/2000/svg" viewBox="0 0 {0} {1}" width="{0}" height="{1}" font-family="sans-serif" font-size="{2}">'
WHITE = '<rect width="100%" height="100%" fill="white"/>'
# The width of README's column on a phone, and the least size of a letter that is readable there.
PHONE, LEAST = 358, 10


def has_bar(group, name):
    """Whether a row has bars: each job of one thread has, except for growth, for the longest call, and for crafted keys.
    The default hasher takes hundreds of times as long for these as upstream's, which has a secret."""
    is_for_many = re.search(r"\b(?!1 )\d+ threads?$", name) or group.lower() == WORKERS
    return not is_for_many and "rowth" not in group and group.lower() not in (CRAFTED.lower(), LONGEST)


def bars(page):
    """Two bars for each row of one thread, below the name of its group: the time compared with upstream and with the best
    peer, whose time is the line at 1."""
    groups = {}
    for (group, name), row in rows_of(page).items():
        if has_bar(group, name) and row.ratios:
            groups.setdefault(group, {})[name.removesuffix(", 1 thread")] = row.ratios
    height, left, top, width = 30, 400, 56, 480
    longest = max([1.5, *(ratio for rows in groups.values() for ratios in rows.values() for ratio in ratios.values())])
    scale, end = width / longest, top + height * sum(len(rows) + 1 for rows in groups.values())
    parts = [
        HEAD.format(left + width + 50, end + 20, 12),
        WHITE,
        '<text x="10" y="20" font-size="14" font-weight="bold">Time of elsa, by one thread (shorter is faster; the line at 1 is the other side\'s time)</text>',
        f'<rect x="{left}" y="30" width="12" height="10" fill="{INK["upstream"]}"/><text x="{left + 18}" y="40">compared with Rust\'s elsa 1.11.2</text>',
        f'<rect x="{left + 240}" y="30" width="12" height="10" fill="{INK["peer"]}"/><text x="{left + 258}" y="40">compared with the best peer</text>',
        f'<line x1="{left + scale:.1f}" y1="{top - 4}" x2="{left + scale:.1f}" y2="{end}" stroke="black" stroke-dasharray="4 3"/>',
    ]
    y = top
    for group, rows in groups.items():
        parts.append(f'<text x="10" y="{y + 19}" font-size="13" font-weight="bold">{plain(group)}</text>')
        for name, ratios in rows.items():
            y += height
            parts.append(f'<text x="{left - 10}" y="{y + 17}" text-anchor="end">{plain(name)}</text>')
            for line, side in enumerate(("upstream", "peer")):
                if side in ratios:
                    parts += bar(left, y + 12 * line, ratios[side], scale, INK[side])
        y += height
    return "\n".join([*parts, "</svg>"]) + "\n"


def plain(name):
    return html.escape(name.replace("`", ""), quote=False)


def bar(left, top, ratio, scale, ink):
    """A bar and its label, on white, since the line at 1 may cross it."""
    end = left + ratio * scale
    return (
        f'<rect x="{left}" y="{top + 3}" width="{end - left:.1f}" height="10" fill="{ink}"/>',
        f'<rect x="{end + 3:.1f}" y="{top + 3}" width="27" height="10" fill="white"/><text x="{end + 5:.1f}" y="{top + 12}" font-size="11">{ratio:.2f}</text>',
    )


def growth_of(page):
    """The numbers of names of the rows of growth, and the nanoseconds for a new name of each side."""
    rows = {name: row for (group, name), row in rows_of(page).items() if group.lower() == NAMES_GROWTH.lower()}
    return list(rows), {side: [row.times[side] for row in rows.values()] for side in INK}


def lines(page):
    """The time of a new name as their number grows: one line for each side. The picture is as narrow as a phone, so that
    it is readable there."""
    counts, taken = growth_of(page)
    titles = {"elsa": "elsa", "upstream": "Rust's elsa 1.11.2", "peer": "hand-written, for this job only"}
    left, top, width, height = 36, 96, 282, 200
    most = max(max(figures) for figures in taken.values()) * 1.1

    def at(place, nanos):
        return left + place * width / max(1, len(counts) - 1), top + height - nanos * height / most

    parts = [
        HEAD.format(PHONE, top + height + 44, 12),
        WHITE,
        '<text x="8" y="20" font-size="13" font-weight="bold">Nanoseconds for a new name (lower is faster)</text>',
    ]
    for number, (side, title) in enumerate(titles.items()):
        y = 40 + 17 * number
        parts.append(f'<line x1="8" y1="{y - 4}" x2="28" y2="{y - 4}" stroke="{INK[side]}" stroke-width="2.5"/>')
        parts.append(f'<text x="34" y="{y}" fill="{INK[side]}" font-weight="bold">{title}</text>')
    step = 100 if most > 350 else 50 if most > 140 else 20
    for nanos in range(0, int(most) + 1, step):
        y = at(0, nanos)[1]
        parts.append(
            f'<line x1="{left}" y1="{y:.1f}" x2="{left + width}" y2="{y:.1f}" stroke="#dddddd"/><text x="{left - 5}" y="{y + 4:.1f}" text-anchor="end">{nanos}</text>'
        )
    for place, count in enumerate(counts):
        anchor = "end" if place == len(counts) - 1 else "middle"
        x = at(place, 0)[0] + (PHONE - left - width - 4 if anchor == "end" else 0)
        parts.append(f'<text x="{x:.1f}" y="{top + height + 17}" text-anchor="{anchor}">{count}</text>')
    parts.append(f'<text x="{left + width / 2}" y="{top + height + 36}" text-anchor="middle">number of names</text>')
    for side, figures in taken.items():
        points = [at(place, nanos) for place, nanos in enumerate(figures)]
        path = " ".join(f"{x:.1f},{y:.1f}" for x, y in points)
        parts.append(f'<polyline points="{path}" fill="none" stroke="{INK[side]}" stroke-width="2.5"/>')
        parts += [f'<circle cx="{x:.1f}" cy="{y:.1f}" r="3.5" fill="{INK[side]}"/>' for x, y in points]
    return "\n".join([*parts, "</svg>"]) + "\n"


def write_pictures():
    """Draws both pictures from the tables of the page."""
    page = (here / "TABLES.md").read_text()
    (here / "results.svg").write_text(bars(page))
    (here / "growth.svg").write_text(lines(page))
