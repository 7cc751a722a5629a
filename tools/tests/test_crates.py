"""The lines of crates.txt against the sources: what only a proof of a crate would find otherwise."""
import re, unittest

from scripts import root

from repository import files_below, lines

# The first name of an import, of code or of a clause.
USED = re.compile(r"^\s*(?:pub )?(?:ghost )?use (?:Rattle\.)?(\w+)(?:::|\.)", re.M)


def used_by(name, crates):
    """The crates of this repository that the sources of a crate name in their imports."""
    files = [it for it in files_below(root / "crates" / name) if it.suffix in (".rt", ".antt")]
    return {it for file in files for it in USED.findall(file.read_text())} & {*crates} - {name}


class TestLines(unittest.TestCase):
    def test_each_crate_that_an_import_names_is_in_the_line(self):
        crates = lines()
        for name, line in crates.items():
            with self.subTest(name):
                self.assertEqual(used_by(name, crates) - {*line.split(":")[1].split()}, set())
