"""Each mutant still applies: its old texts occur once in the sources."""
import unittest

from scripts import root

from functions import pairs_of


class TestMutants(unittest.TestCase):
    def test_an_old_text_of_a_mutant_occurs_once(self):
        for crate in sorted((root / "crates").iterdir()):
            for file in sorted((crate / "must-fail").glob("*.edit")):
                for path, old, _ in pairs_of(file):
                    with self.subTest(f"{crate.name}/{file.stem}"):
                        self.assertEqual((crate / path).read_text().count(old), 1, old)


if __name__ == "__main__":
    unittest.main()
