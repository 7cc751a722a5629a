"""Which checks CI runs: the rule, on made-up repositories."""
import pathlib, subprocess, tempfile, unittest

from scripts import root

import chosen
from chosen import Check
from repository import LIBRARY_MINUTES, VECTOR_MINUTES

FILES = {
    "crates.txt": "a:\nb: a\nexample_c: b\n",
    "crates/a/src/lib.rt": "pub fn count(n: u64) -> u64 {\n    n + 1\n}\n\npub fn other(n: u64) -> u64 {\n    n + 2\n}\n",
    "crates/a/proofs/other/Answers.antt": "pub returns : goal.returns\n",
    "crates/a/must-fail/count.edit": "file: src/lib.rt\nold: n + 1\nnew: n\n",
    "crates/a/must-fail/other.edit": "file: src/lib.rt\nold: n + 2\nnew: n\n",
    "crates/b/src/lib.rt": "pub fn far() -> bool {\n    true\n}\n",
    "crates/b/must-fail/far.edit": "file: src/lib.rt\nold: true\nnew: false\n",
    "crates/example_c/src/main.rt": "fn main() {\n}\n",
}


class Repository:
    """A repository in a folder of its own."""

    def __init__(self, folder):
        self.top = pathlib.Path(folder)
        self.git("init", "-q", "-b", "main", ".")

    def git(self, *words):
        name = ["-c", "user.name=a", "-c", "user.email=a@b", "-c", "protocol.file.allow=always"]
        subprocess.run(["git", *name, *words], cwd=self.top, check=True, capture_output=True)

    def commit(self, files):
        for path, text in files.items():
            (self.top / path).parent.mkdir(parents=True, exist_ok=True)
            (self.top / path).write_text(text)
        self.git("add", "-A")
        self.git("commit", "-q", "-m", "x")

    def newest(self, minutes=2):
        """The checks of the newer half, in their order."""
        made = chosen.chosen(chosen.all_checks(self.top), chosen.ages(self.top), "seed", minutes)
        return [it.name for it in made.checks[: made.newest]]


class TestNewest(unittest.TestCase):
    def setUp(self):
        self.kept = tempfile.TemporaryDirectory()
        self.made = Repository(self.kept.name)
        self.made.commit(FILES)

    def tearDown(self):
        self.kept.cleanup()

    def test_a_changed_edit_comes_first(self):
        self.made.commit(
            {"crates/b/must-fail/far.edit": FILES["crates/b/must-fail/far.edit"].replace("false", "!true")}
        )
        self.assertEqual(self.made.newest()[0], "b/far")

    def test_a_changed_function_brings_the_mutants_of_its_file(self):
        self.made.commit({"crates/a/src/lib.rt": FILES["crates/a/src/lib.rt"].replace("n + 2", "n + 2 + 0")})
        self.made.commit({"crates/example_c/src/main.rt": "fn main() {\n    far();\n}\n"})
        found = self.made.newest(minutes=6)
        self.assertEqual(found[0], "example_c")
        self.assertEqual(set(found[1:3]), {"a/count", "a/other"})

    def test_a_changed_proof_brings_the_mutants_of_its_function(self):
        self.made.commit({"crates/a/proofs/other/Answers.antt": "pub returns : goal.again\n"})
        self.assertEqual(self.made.newest()[0], "a/other")

    def test_a_renamed_file_is_new(self):
        self.made.git("mv", "crates/b/must-fail/far.edit", "crates/b/must-fail/near.edit")
        self.made.commit({})
        self.assertEqual(self.made.newest()[0], "b/near")

    def test_all_that_changed_since_the_landing_is_equally_new(self):
        self.made.git("update-ref", "refs/remotes/origin/main", "HEAD")
        for number in range(3):
            self.made.commit(
                {
                    f"crates/{name}/must-fail/{it}.edit": f"{FILES[f'crates/{name}/must-fail/{it}.edit']}\n"
                    for name, it in [[("a", "count"), ("a", "other"), ("b", "far")][number]]
                }
            )
        ages = chosen.ages(self.made.top)
        self.assertEqual({ages[f"crates/a/must-fail/{it}.edit"] for it in ("count", "other")}, {0})

    def test_a_clone_of_depth_one_chooses_at_random(self):
        self.made.commit({"README.md": "x"})
        with tempfile.TemporaryDirectory() as folder:
            copy = Repository(folder)
            copy.git("pull", "-q", "--depth", "1", f"file://{self.made.top}", "main")
            self.assertIsNone(chosen.ages(copy.top))
            made = chosen.chosen(chosen.all_checks(copy.top), None, "seed")
        self.assertEqual((made.newest, len(made.checks)), (0, made.all))
        self.assertIn("has no ages", chosen.told(made))


class TestBudget(unittest.TestCase):
    CHECKS = [Check("mutant", f"c{it % 20}", f"c{it % 20}/m{it}", frozenset([f"f{it}"])) for it in range(400)]
    AGES = {f"f{it}": it for it in range(400)}

    def test_the_choice_keeps_to_its_budget_and_spends_it(self):
        made = chosen.chosen(self.CHECKS, self.AGES, "seed", 30)
        count = {crate: sum(it.crate == crate for it in made.checks) for crate in {it.crate for it in made.checks}}
        used = sum(chosen.seconds_of("mutant", *it) for it in count.items()) / 60
        self.assertTrue(29 < used <= 30, used)
        self.assertEqual([it.name for it in made.checks[:3]], ["c0/m0", "c1/m1", "c2/m2"])

    def test_another_commit_chooses_others(self):
        first, second = (set(chosen.chosen(self.CHECKS, self.AGES, it, 30).checks) for it in ("one", "two"))
        self.assertGreater(len(first - second), 20)

    def test_forty_runs_choose_each_check(self):
        seen = {it for run in range(40) for it in chosen.chosen(self.CHECKS, self.AGES, f"{run}", 30).checks}
        self.assertEqual(len(seen), len(self.CHECKS))


class TestCosts(unittest.TestCase):
    def test_the_pages_have_the_minutes_of_a_proof_from_nothing(self):
        texts = {it: " ".join((root / it).read_text().split()) for it in ("README.md", "docs/guide/start.md")}
        vector, library = f"about {VECTOR_MINUTES} processor minutes", f"about {LIBRARY_MINUTES} processor minutes"
        self.assertIn(f"{vector} for the vector, and {library} for the whole library", texts["README.md"])
        self.assertIn(f"over the part `vec` takes {vector}", texts["docs/guide/start.md"])


if __name__ == "__main__":
    unittest.main()
