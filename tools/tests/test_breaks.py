"""What tools/breaks finds in two states of the reference."""
import unittest

from scripts import script

breaks = script("tools/breaks")

PAGE = """# map

### get

```rust
pub fn get(&self, KEY: u32) -> Option<u64>
```

### len

```rust
pub fn len(&self) -> usize
```
"""
LOG = """# Changes

## 0.2.0 (not released)

- `map.len()` returns a `u32`.

## 0.1.0 (commit 1a2b3c4d), 2026-11-22

- `get`.
"""


class TestBreaks(unittest.TestCase):
    def found(self, now):
        return list(breaks.broken({"map.md": PAGE.replace("KEY", "key")}, now))

    def test_another_name_of_a_parameter_breaks_nothing(self):
        self.assertEqual(self.found({"map.md": PAGE.replace("KEY", "query")}), [])

    def test_another_type_and_a_missing_call_break(self):
        changed = PAGE.replace("KEY", "key").replace("usize", "u32").replace("### get", "### find")
        self.assertEqual(self.found({"map.md": changed}), [("map.md", "get"), ("map.md", "len")])

    def test_a_call_that_has_moved_to_another_page_breaks_nothing(self):
        moved = "# map\n\n- [`get`](items.md#get): Reads.\n- [`len`](items.md#len): Counts.\n"
        self.assertEqual(self.found({"map.md": moved}), [])

    def test_of_a_page_that_is_gone_the_type_breaks(self):
        self.assertEqual(self.found({}), [("map.md", "map")])

    def test_a_row_in_code_of_the_newest_section_counts(self):
        section, commit = breaks.sections(LOG)
        self.assertEqual(commit, "1a2b3c4d")
        lacking = breaks.unnamed([("map.md", "get"), ("map.md", "len")], section)
        self.assertEqual(lacking, [("map.md", "get")])
