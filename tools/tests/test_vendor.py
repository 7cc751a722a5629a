"""What tools/vendor removes from a copy and doesn't overwrite, the licences, and which arguments it rejects."""
import contextlib, io, pathlib, re, sys, tempfile, unittest

from scripts import root, script

vendor = script("tools/vendor")


def called(*words):
    """What tools/vendor prints with these arguments, and the message with which it ends; an empty text without one."""
    printed, before = io.StringIO(), sys.argv
    sys.argv = ["vendor", *map(str, words)]
    try:
        with contextlib.redirect_stdout(printed):
            vendor.main()
    except SystemExit as end:
        return printed.getvalue(), str(end)
    finally:
        sys.argv = before
    return printed.getvalue(), ""


class TestVendor(unittest.TestCase):
    def setUp(self):
        folder = tempfile.TemporaryDirectory()
        self.addCleanup(folder.cleanup)
        self.target = pathlib.Path(folder.name)

    def crates(self):
        return sorted(it.name for it in (self.target / "crates").iterdir())

    def add_line(self, line):
        with (self.target / "crates.txt").open("a") as file:
            file.write(line + "\n")

    def test_a_crate_that_a_line_names_is_not_removed(self):
        called(self.target, "interner", "hash")
        before = self.crates()
        self.add_line("mine may_wait=1: bumpalo elsa elsa_interner # of mine")
        _, message = called(self.target, "hash")
        self.assertIn("(mine: elsa_interner)", message)
        self.assertIn("the parts interner hash", message)
        self.assertEqual(self.crates(), before)

    def test_removed_crates_are_listed(self):
        called(self.target, "interner", "hash")
        self.add_line("mine: bumpalo elsa elsa_hash")
        printed, message = called(self.target, "hash")
        self.assertEqual(message, "")
        self.assertIn("which had the parts interner hash: elsa_tables elsa_buckets elsa_interner\n", printed)
        self.assertEqual(self.crates(), ["elsa", "elsa_hash"])

    def test_a_copy_of_the_same_parts_removes_nothing(self):
        first, _ = called(self.target, "hash")
        self.assertEqual(called(self.target, "hash"), (first, ""))
        self.assertNotIn("removed", first)

    def test_a_changed_file_is_not_overwritten(self):
        called(self.target, "hash")
        source = self.target / "crates" / "elsa_hash" / "src" / "lib.rt"
        source.write_text(source.read_text() + "// mine\n")
        _, message = called(self.target, "hash")
        self.assertIn("crates/elsa_hash/src/lib.rt (changed).", message)
        self.assertIn("with --overwrite", message)
        self.assertIn("// mine", source.read_text())
        _, message = called(self.target, "hash", "--overwrite")
        self.assertEqual(message, "")
        self.assertNotIn("// mine", source.read_text())

    def test_an_added_file_is_not_removed(self):
        called(self.target, "interner", "hash")
        mine = self.target / "crates" / "elsa_interner" / "proofs" / "mine.antt"
        mine.write_text("-- mine\n")
        _, message = called(self.target, "hash")
        self.assertIn("crates/elsa_interner/proofs/mine.antt (added).", message)
        self.assertTrue(mine.is_file())

    def test_what_a_check_wrote_is_no_change(self):
        first, _ = called(self.target, "hash")
        out = self.target / "crates" / "elsa_hash" / "out"
        out.mkdir()
        (out / "stamp").write_text("made by a check")
        self.assertEqual(called(self.target, "hash"), (first, ""))
        self.assertTrue((out / "stamp").is_file())

    def test_a_copy_has_both_licences(self):
        called(self.target, "serde")
        for it in ("LICENSE-MIT", "LICENSE-APACHE"):
            self.assertEqual((self.target / f"elsa.{it}").read_bytes(), (root / it).read_bytes())

    def test_the_version_names_the_commit_unless_it_is_the_tag(self):
        printed, _ = called(self.target, "hash")
        number = (root / "VERSION").read_text().strip()
        self.assertRegex(printed, rf"^elsa {re.escape(number)}(, commit \w+)?: 2 crates, ")

    def test_a_wrong_folder_of_proofs_has_a_message_of_its_own(self):
        for words, wanted in (
            (["--proofs", self.target / "nowhere"], "nowhere isn't a folder: --proofs expects"),
            (["--proofs", self.target], "has no proofs of a release"),
            (["--proofs"], "--proofs expects one folder"),
        ):
            _, message = called(self.target, "hash", *words)
            self.assertIn(wanted, message)
            self.assertFalse((self.target / "crates").exists())

    def test_each_part_has_its_screen_on_the_page_for_callers(self):
        sections = re.findall(r"^## `(\w+)`$", (root / "docs" / "CALLING.md").read_text(), re.M)
        self.assertEqual(sections, list(vendor.PARTS))


if __name__ == "__main__":
    unittest.main()
