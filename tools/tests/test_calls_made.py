"""Which calls of the reference no test makes: none of a collection, but for those with a reason.

A call counts if its name follows a variable that has the collection, or the collection's type.
"""
import re, unittest

from scripts import root

# For each page of the reference the variables that have the collection, its types, and the crates or files.
ORDERED = (
    *("test_cell/src/ordered_tests.rt", "test_cell/src/plain_tests.rt"),
    *("test_calls/src/maps.rt", "test_calls/src/map_tests.rt"),
)
PAGES = {
    "cell-FrozenVec": ("list", "FrozenVec", ("test_arena", "test_calls")),
    "cell-Items": ("list|map|set", "Items", ("test_arena", "test_cell", "test_calls")),
    "cell-FrozenMap": ("map|moved", "FrozenMap|Squares", ("test_cell", "test_calls", "test_callers")),
    "cell-FrozenBTreeMap": ("map|self", "FrozenBTreeMap", ORDERED),
    "cell-FrozenIndexSet": ("set", "FrozenSet|FrozenIndexSet", ("test_cell", "test_calls")),
    "sync-LockFreeFrozenVec": (
        "vector|vec",
        "LockFreeFrozenVec",
        ("test_lock_free", "test_shared_interner", "test_callers"),
    ),
}
# The code of this one is that of a `cell::FrozenMap`, whose tests make it.
OTHERS = {("cell-FrozenBTreeMap", "with_rule")}


def calls_of(page):
    """The calls that a page of the reference lists."""
    text = (root / "docs" / "reference" / f"{page}.md").read_text()
    return re.findall(r"^### (\w+)$", text.partition("\n## Calls\n")[2].partition("\n## ")[0], re.M)


def made_in(text, variables, types):
    """The functions that a source calls of one of these variables or types."""
    of_type = rf"\b(?:{types})(?:::<[^()]*>)?::(\w+)\("
    of_variable = rf"\b(?:{variables})\s*\.(\w+)(?:::<[^()]*>)?\("
    return {*re.findall(of_type, text), *re.findall(of_variable, text)}


def left_out(page):
    """The calls of a page that no test of its sources makes."""
    variables, types, names = PAGES[page]
    places = [root / "crates" / it for it in names]
    files = [file for it in places for file in ([it] if it.is_file() else sorted((it / "src").rglob("*.rt")))]
    made = set().union(*(made_in(it.read_text(), variables, types) for it in files))
    return {(page, it) for it in calls_of(page) if it not in made}


class TestCallsMade(unittest.TestCase):
    def setUp(self):
        self.left_out = set().union(*(left_out(it) for it in PAGES))

    def test_no_other_call_of_a_collection_is_left_out(self):
        self.assertEqual(sorted(self.left_out - OTHERS), [])

    def test_each_call_with_a_reason_is_left_out(self):
        self.assertEqual(sorted(OTHERS - self.left_out), [])

    def test_each_page_has_calls(self):
        self.assertEqual([it for it in PAGES if len(calls_of(it)) < 10], [])

    def test_a_call_is_one_of_the_collection(self):
        source = "list.push(1), List::<u8>::new(at), handle.get(0), Vec::from(9), list\n    .len(), lists.first()"
        self.assertEqual(made_in(source, "list|moved", "List"), {"push", "new", "len"})


if __name__ == "__main__":
    unittest.main()
