"""Tables, pictures and goals of bench/run, from rows with known times."""
import pathlib, re, unittest
import xml.etree.ElementTree

from scripts import root

import first_hour, pictures, sizes, tables
from job import ALONE, CRAFTED, NAMES, NAMES_GROWTH, Job
from jobs import all_jobs
from measuring import spread_of
from programs import CRAFTED_KEYS, FLOODS, crafted_name


def measured(group, name, times, memory=(), **more):
    """A row whose sides took these times."""
    job = Job(group, name, {side: [side] for side in times}, **more)
    job.times, job.memory = dict(times), {side: 1024 for side in times} | dict(memory)
    return job


class TestRows(unittest.TestCase):
    def test_the_best_peer_is_neither_upstream_nor_a_reference(self):
        times = {"elsa": 2.0, "upstream": 4.0, "fast": 1.0, "slow": 3.0, "part": 0.5}
        job = measured(ALONE, "push", times, references=("part",))
        self.assertEqual(job.best_peer(), "fast")
        self.assertEqual(job.ratio("upstream"), 0.5)
        self.assertIsNone(job.ratio("nothing"))

    def test_the_best_peer_begins_with_the_name_that_is_compared_with(self):
        times = {"elsa": 2.0, "dashmap": 4.0, "dashmap, by entries": 3.0, "std's lock": 1.0}
        job = measured(ALONE, "insert", times, compared_with="dashmap")
        self.assertEqual((job.best_peer(), job.best_other()), ("dashmap, by entries", "std's lock"))

    def test_a_ratio_above_its_goal_is_reported_and_one_at_the_goal_is_not(self):
        times = {"elsa": 1.0, "upstream": 2.0, "peer": 1.0}
        self.assertEqual(measured(ALONE, "a", times, goal="0.5", peer_goal="1").above(), [])
        self.assertEqual(measured(ALONE, "a", times, goal="0.4", peer_goal="0.9").above(), [0.5, 1.0])

    def test_one_thread_counts_the_minimum_and_several_the_median(self):
        self.assertEqual(spread_of([3.0, 1.0, 2.0], 1), (1.0, 1.0))
        self.assertEqual(spread_of([1.0, 2.0, 3.0], 4)[1], 2.0)

    def test_no_two_rows_have_one_name(self):
        names = [(it.group, it.name) for it in all_jobs(pathlib.Path("peers"), "cli", "bench")]
        self.assertEqual(len(names), len(set(names)))


class TestTables(unittest.TestCase):
    def test_a_row_has_the_cells_of_its_head(self):
        job = measured(ALONE, "push", {"elsa": 0.001, "upstream": 0.004}, {"elsa": 2048, "upstream": 4096}, goal="1")
        head, rule, row = tables.table([job]).split("\n")
        self.assertEqual(head.count("|"), rule.count("|"))
        self.assertEqual(head.count("|"), row.count("|"))
        self.assertIn("| **0.25** | 1 |", row)
        self.assertIn("| 1.0 ms | 4.0 ms |", row)
        self.assertIn("| 0.50 (2 MiB) |", row)

    def test_a_row_of_entries_has_the_time_of_one(self):
        self.assertEqual(tables.time_text(0.5, measured(ALONE, "growth", {"elsa": 0.5}, entries=1_000_000)), "500.0 ns")

    def test_a_group_is_one_table(self):
        jobs = [measured(group, name, {"elsa": 1.0}) for group, name in ((ALONE, "a"), (NAMES, "b"), (ALONE, "c"))]
        text = tables.tables(jobs)
        self.assertEqual(re.findall(r"^### (.*)$", text, re.M), ["One thread", "Names"])
        self.assertLess(text.index("| c |"), text.index("### Names"))

    def test_the_start_of_the_program_is_subtracted_once(self):
        start = measured(NAMES_GROWTH, "no line", {"elsa": 0.25})
        many = measured(NAMES_GROWTH, "10,000", {"elsa": 1.0}, entries=10_000)
        few = measured(NAMES_GROWTH, "1", {"elsa": 0.125}, entries=1)
        tables.without_start([start, many, few])
        self.assertEqual((many.times["elsa"], few.times["elsa"], start.times["elsa"]), (0.75, 0, 0.25))

    def test_the_note_on_crafted_names_has_the_worse_of_both(self):
        jobs = [
            measured(NAMES, f"400,000 of 48 bytes, {title}", {"elsa": time, "upstream": 10 * time})
            for title, time in zip(FLOODS.values(), (1.0, 1.5, 2.0))
        ]
        self.assertIn("elsa 2.00, upstream 2.00", tables.flood_note(jobs))
        self.assertEqual(tables.flood_note(jobs[:2]), "")

    def test_the_note_on_crafted_keys_compares_each_hasher_with_itself(self):
        jobs = [
            measured(CRAFTED, crafted_name(hasher, count, family), {"elsa": time * (2 if hasher == "default" else 1)})
            for hasher, count, families in CRAFTED_KEYS
            for family, time in zip(families, (1.0, 1.5, 1.25))
        ]
        self.assertEqual(tables.crafted_note(jobs).count("elsa 1.50"), len(CRAFTED_KEYS))
        self.assertEqual(tables.crafted_note(jobs[:2]), "")


class TestSizes(unittest.TestCase):
    page = "### One thread\n\n" + tables.table(
        [
            measured(
                ALONE,
                "`FrozenVec`, push",
                {"elsa": 0.01, "upstream": 0.04, "arena and `Vec`": 0.02},
            )
        ]
    )

    def test_a_row_of_the_page_is_read_as_it_was_written(self):
        row = sizes.rows_of(self.page)["One thread", "`FrozenVec`, push"]
        self.assertEqual(row.times, {"elsa": 10.0, "upstream": 40.0, "peer": 20.0})
        self.assertEqual(row.peer, "arena and `Vec`")

    def test_the_published_sizes_are_those_of_the_published_rows(self):
        page, rows = ((root / "bench" / name).read_text() for name in ("RESULTS.md", "TABLES.md"))
        self.assertIn(sizes.sizes(rows), page, "run bench/run --pictures")
        self.assertEqual(len(sizes.sizes(rows).strip().split("\n")), 2 + len(sizes.SIZES))

    def test_a_size_has_the_nanoseconds_of_each_side(self):
        self.assertEqual(
            sizes.sizes(page_of(*growth())).strip().split("\n")[2:],
            ["| name | `elsa intern` | 100 / 400 / 90 | 100 / 400 / 90 | hand-written |"],
        )


class TestFirstHour(unittest.TestCase):
    def rows(self):
        return list(first_hour.first_jobs(pathlib.Path("peers"), "cli", "bench"))

    def test_a_type_has_a_row_for_each_size(self):
        small = [job for job in self.rows() if job.threads == 1 and job.group != job.name and job.name != "`elsa intern`"]
        for at in range(0, len(small), len(first_hour.SIZES)):
            row = small[at : at + len(first_hour.SIZES)]
            self.assertEqual({(job.group, job.name) for job in row}, {(row[0].group, row[0].name)})
            self.assertEqual([int(job.sides["elsa"][-1]) for job in row], list(first_hour.SIZES))

    def test_the_ratio_is_the_median_of_the_ratios_of_one_round(self):
        job = measured("look up", "map", {"elsa": 1.0, "peer": 1.0}, entries=1000)
        job.runs = {"elsa": [1.0, 9.0, 2.0], "peer": [2.0, 3.0, 4.0]}
        self.assertEqual(first_hour.ratio_of(job, "peer"), "**0.50** (0.50 to 3.00)")

    def test_a_row_has_the_cells_of_its_head(self):
        jobs = self.rows()[: len(first_hour.SIZES)]
        for job in jobs:
            job.runs = {side: [0.002, 0.004, 0.003] for side in job.sides}
            job.times = {side: 0.003 for side in job.sides}
        (line,) = first_hour.rows_of_uses(jobs)
        self.assertEqual(line[-2:], [first_hour.HASHBROWN, "1.00 / 1.00 / 1.00 / 1.00"])
        self.assertEqual(line[3:-2], ["**1.00** (1.00 to 1.00)"] * len(first_hour.SIZES))


class TestPagesOfFirstHour(unittest.TestCase):
    """The pages for users repeat figures of the table by size: they are those of RESULTS.md."""

    page = (root / "bench" / "RESULTS.md").read_text()
    rows = first_hour.rows_of_page(page)

    def assert_says(self, page, *words):
        text = (root / page).read_text()
        for word in words:
            self.assertIn(word, text, page)

    def ratios(self, does, title):
        return self.rows[does, title].ratios

    def test_a_row_has_a_figure_for_each_size(self):
        for row in self.rows.values():
            self.assertEqual([len(row.nanos), len(row.ratios)], [len(first_hour.SIZES)] * 2)

    def test_the_guide_compares_both_hashed_maps_as_published(self):
        self.assert_says("docs/guide/types.md", first_hour.append_table(self.page))

    def test_the_guide_says_what_a_look_up_takes_as_published(self):
        row = self.rows["look up a present key", "`FrozenMap`"]
        nanos = f"{min(row.nanos):.0f} to {max(row.nanos):.0f} ns with 10 to 10,000 numbers"
        self.assert_says("docs/guide/README.md", f"{nanos}, {span(row.ratios, 1)} times that of hashbrown")

    def test_the_page_says_what_is_slower_as_published(self):
        fill, get, absent = "make a memo map, fill it, drop it", "look up a present key", "look up an absent key"
        cell, texts, tree = "`cell::FrozenMap`", "`FrozenMap`, texts", "`cell::FrozenBTreeMap`"
        upstream = [span(self.rows[does, cell].upstream) for does in (get, absent)]
        trees = [span(self.ratios(does, tree)) for does in (ORDERED_FILL, "look up in an ordered map")]
        first, *more = self.ratios("make an arena of numbers, fill it, drop it", "`TypedArena<u64>`")
        self.assert_says(
            "bench/RESULTS.md",
            f"| {cell}, get, 10 to 10,000 keys | {upstream[0]}; absent {upstream[1]} |",
            f"10 to 10,000 texts: filled; get | {span(self.ratios(fill, texts))}; {span(self.ratios(get, texts))} |",
            f"| {tree}, 10 to 10,000 keys: filled; get | {'; '.join(trees)} |",
            f"filled with 10; with 100 to 10,000 | {first:.2f}; {span(more)} |",
        )


ORDERED_FILL = "make an ordered map, fill it in random order, drop it"


def span(figures, digits=2):
    return f"{min(figures):.{digits}f} to {max(figures):.{digits}f}"


def page_of(*rows):
    """A page with the tables of these rows."""
    return tables.tables(rows)


def growth():
    """Rows of the growth of the names, with a known time of a name."""
    sides = {"elsa": 100, "upstream": 400, "hand-written": 90}
    for entries in (10_000, 1_000_000):
        times = {it: entries * nanos / 1e9 for it, nanos in sides.items()}
        yield measured(NAMES_GROWTH, f"{entries:,}", times, entries=entries)


# The width of a letter of a label of 12 pixels in DejaVu Sans Bold, which is wide.
WIDE = 12 * 0.7


class TestPictures(unittest.TestCase):
    def test_both_pictures_are_those_of_the_published_tables(self):
        page = (root / "bench" / "TABLES.md").read_text()
        for name, text in (("results", pictures.bars(page)), ("growth", pictures.lines(page))):
            self.assertEqual(text, (root / "bench" / f"{name}.svg").read_text(), "run bench/run --pictures")

    def test_the_picture_of_growth_is_readable_on_a_phone(self):
        text = pictures.lines(page_of(*growth()))
        self.assertLessEqual(int(re.search(r'<svg [^>]*width="(\d+)"', text)[1]), pictures.PHONE)
        self.assertGreaterEqual(min(int(it) for it in re.findall(r'font-size="(\d+)"', text)), pictures.LEAST)
        for start, title in re.findall(r'<text x="(\d+)"[^>]*font-weight="bold">(.*?)</text>', text)[1:]:
            self.assertLessEqual(int(start) + WIDE * len(title), pictures.PHONE)

    def test_a_time_is_drawn_at_its_height(self):
        text = pictures.lines(page_of(*growth()))
        at = {label: float(y) - 4 for y, label in re.findall(r'y="([\d.]+)" text-anchor="end">(\d+)</text>', text)}
        elsa = re.search(r'<polyline points="([^"]+)" fill="none" stroke="#2e7d32"', text)[1]
        self.assertEqual({float(it.split(",")[1]) for it in elsa.split()}, {at["100"]})

    def test_a_bar_is_as_long_as_its_ratio(self):
        text = pictures.bars(page_of(measured(ALONE, "push", {"elsa": 1.0, "upstream": 4.0, "peer": 2.0})))
        quarter, half = (float(it) for it in re.findall(r'width="([\d.]+)" height="10" fill="#[^"]+"/>\n<rect', text))
        self.assertAlmostEqual(2 * quarter, half, delta=0.2)
        self.assertIn(">0.25</text>", text)

    def test_rows_of_several_threads_of_growth_and_of_crafted_keys_have_no_bar(self):
        times = {"elsa": 1.0, "upstream": 2.0}
        shown = measured(ALONE, "push, 1 thread", times)
        hidden = [measured(ALONE, "push, 16 threads", times), measured(CRAFTED, "b", times), *growth()]
        self.assertEqual(pictures.bars(page_of(shown, *hidden)), pictures.bars(page_of(shown)))

    def test_each_picture_is_well_formed(self):
        # a name as `&self` must not end the picture
        row = measured(ALONE, "`&self`, a < b", {"elsa": 1.0, "upstream": 2.0})
        for text in (pictures.lines(page_of(*growth())), pictures.bars(page_of(row))):
            xml.etree.ElementTree.fromstring(text)


if __name__ == "__main__":
    unittest.main()
