"""The pictures of docs/internals/how-it-works.md are hand-drawn: a number that the sources and a picture both have is
the same in both, and the page shows each picture."""
import re, unittest

from scripts import root

PAGE = root / "docs" / "internals" / "how-it-works.md"
# A picture, its text about a number, and the file of crates/ with the number: {} is where it stands.
NUMBERS = [
    ("buffers", "slots, the first is that of index 4^{} − 1", "elsa_slots/src/slots.rt", "BUFFERS: usize = {};", 1),
    ("buffers", ">{} slots<", "elsa_slots/src/geometry.rt", "    {} << (2 * buffer)\n", 0),
    ("index-table", "{} indices: 32 bits each", "elsa_buckets/src/groups.rt", "numbers: [u32; {}]", 0),
]


def number(text, form):
    """The first number that a text has where the form has {}."""
    before, after = (re.escape(it) for it in form.split("{}"))
    return int(re.search(rf"{before}(\d+){after}", text)[1])


class TestPictures(unittest.TestCase):
    def test_a_picture_has_the_numbers_of_the_sources(self):
        for picture, shown, path, form, less in NUMBERS:
            with self.subTest(picture=picture, shown=shown):
                drawn = (PAGE.parent / "pictures" / f"{picture}.svg").read_text()
                self.assertEqual(number(drawn, shown), number((root / "crates" / path).read_text(), form) - less)

    def test_the_row_next_to_a_buffer_has_its_length(self):
        drawn = (PAGE.parent / "pictures" / "hash-index.svg").read_text()
        source = (root / "crates" / "elsa_lock_free_map" / "src" / "handle.rt").read_text()
        buffer, each = number(drawn, "next to buffer {}:"), number(source, "let count = {} * (self.list")
        self.assertEqual(number(drawn, ": {} index entries"), each * 4**buffer)

    def test_the_page_shows_each_picture(self):
        self.assertEqual(
            sorted(re.findall(r"\]\(pictures/(.*?)\)", PAGE.read_text())),
            sorted(it.name for it in (PAGE.parent / "pictures").iterdir()),
        )
