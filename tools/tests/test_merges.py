"""The texts of the repository have no marks of a merge that was not ended."""
import re, unittest

from scripts import root

from repository import files_below

MARK = re.compile(r"^(<{7}|>{7}) ", re.M)


class TestTexts(unittest.TestCase):
    def test_no_text_has_the_marks_of_a_merge(self):
        for folder in ("docs", "crates", "examples", "bench", "tools", "bindings", "limits", "misuse"):
            for file in files_below(root / folder):
                if file.suffix in (".md", ".rt", ".antt", ".edit", ".txt", ".py"):
                    with self.subTest(str(file)):
                        self.assertIsNone(MARK.search(file.read_text(errors="replace")))
