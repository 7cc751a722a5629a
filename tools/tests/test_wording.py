"""What tools/wording reads of a text, and which phrases it finds there."""
import unittest

from scripts import script

wording = script("tools/wording")


def found(lines):
    """The numbers of the lines that have a phrase."""
    return [number for number, line in lines if wording.ANY.search(line.lower())]


class TestWording(unittest.TestCase):
    def test_a_page_is_read_without_code_targets_of_links_and_quotes(self):
        page = 'it lends\n`lends`\n```\nlends\n```\n[a](lends.md) and "lends"\n[lends](a.md)\n'
        self.assertEqual(found(wording.page_lines(page)), [1, 7])

    def test_only_the_comments_of_a_source_file_are_read(self):
        source = "/// it lends\nlet lends = 1; // lends\n    // `lends` and more\n"
        self.assertEqual(found(wording.comment_lines(source, "//")), [1])

    def test_comments_and_texts_of_a_script_are_read_but_no_names(self):
        script_ = (
            '#!/usr/bin/env python3\n"""It now\nlends."""\nlends = "lends"  # it lends\nprint(f"it lends {lends}")'
        )
        self.assertEqual(found(wording.script_lines(script_)), [3, 4, 5])

    def test_a_lock_is_under_and_not_after(self):
        self.assertEqual(found(enumerate(["it is behind a lock", "it is behind the word"])), [1])


if __name__ == "__main__":
    unittest.main()
