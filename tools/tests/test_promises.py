"""How tools/promises reads the tables of proved.md."""
import unittest

from scripts import script

promises = script("tools/promises")

SOURCE = """pub struct Cursor {}

impl Cursor {
    pub fn next(&mut self)
        ensures item { A }
        ensures* moves { B }
    {
    }
}

pub fn free()
    ensures kept { C }
{
}
"""
PAGE = """| Promise | Where |
| --- | --- |
| One. | `Cursor::next`: `item`, `moves`; `free` |
| Two. | the same call: `kept` |
"""


class TestPromises(unittest.TestCase):
    def setUp(self):
        self.known = promises.Sources([("lib", SOURCE)])

    def faults(self, cell):
        return list(promises.unknown(cell, self.known))

    def test_only_the_last_cells_of_rows_are_read(self):
        found = [(3, "`Cursor::next`: `item`, `moves`; `free`"), (4, "the same call: `kept`")]
        self.assertEqual(list(promises.rows(PAGE)), found)

    def test_what_the_sources_have_is_no_fault(self):
        for _, cell in promises.rows(PAGE):
            self.assertEqual(self.faults(cell), [])

    def test_a_call_that_does_not_exist_is_a_fault(self):
        self.assertEqual(self.faults("`Cursor::last`"), ["there is no `Cursor::last`"])

    def test_a_clause_of_another_call_is_a_fault(self):
        self.assertEqual(self.faults("`free`: `item`"), ["none of free has a clause `item`"])

    def test_a_clause_that_does_not_exist_is_a_fault(self):
        self.assertEqual(self.faults("`free`: `lost`"), ["there is no clause `lost`"])


FRONT = """# Elsa

## What is proved

Some words.

- One item,
  of two lines.
  <!-- clauses: `Cursor::next`: `item`;
  `free`: `kept` -->
- Another one.

**Tested:** not this.

- Nor this.
"""


class TestClaims(unittest.TestCase):
    def test_each_item_of_the_section_is_read_with_its_comment(self):
        found = [(7, "`Cursor::next`: `item`; `free`: `kept`"), (11, "")]
        self.assertEqual(list(promises.claims(FRONT)), found)


READS = """use std::alloc::{
    Allocator, Global,
};

/// A list in the `Global` allocator.
pub struct List<
    A: Allocator + Copy = Global,
> {
    list: A,
}

impl<A: Allocator + Copy> List<A> {
    /// Returns the length. It takes
    /// no lock.
    #[inline]
    pub fn len(&self) -> usize
        ensures { result ≡ 0 }
    {
        0
    }
}
"""


class TestPermits(unittest.TestCase):
    def faults(self, old="", new=""):
        self.assertIn(old, READS)
        return list(promises.permits(READS.replace(old, new)))

    def test_a_read_without_a_permission_is_no_fault(self):
        self.assertEqual(self.faults(), [])

    def test_an_impl_at_the_global_allocator_is_a_fault(self):
        found = self.faults("impl<A: Allocator + Copy> List<A>", "impl List<Global>")
        self.assertEqual(found, ["has a `Global` outside of imports and defaults: impl List<Global> {"])

    def test_a_field_of_the_global_allocator_is_a_fault(self):
        found = self.faults("    list: A,", "    list: A, heap: Global,")
        self.assertEqual(found, ["has a `Global` outside of imports and defaults: list: A, heap: Global,"])

    def test_a_read_with_a_permission_is_a_fault(self):
        found = self.faults("len(&self)", "len<R: Wait>(&self, rt: &R)")
        self.assertEqual(found, ["`len` takes no lock, and has a `Wait`"])
        found = self.faults("len(&self)", "len(&self, may: LockPermit)")
        self.assertEqual(found, ["`len` takes no lock, and has a `LockPermit`"])


if __name__ == "__main__":
    unittest.main()
