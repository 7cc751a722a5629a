"""How tools/reference reads sources and pages."""
import pathlib, tempfile, unittest

from scripts import script

reference = script("tools/reference")

SOURCE = """//! A module.

pub use crate::{one, two::{Three, Four as Five}};

ghost use Rattle.elsa_tables.specs.Insertions.{Grows, index_of};
ghost use Rattle.elsa_tables.specs.FirstWins as first;

/// A list.
#[derive(Clone, Drop)]
pub struct List<T> {
    items: Vec<T>,
}

impl<T> List<T> {
    /// Adds an item.
    ///
    /// # Errors
    ///
    /// Fails with `AllocError`.
    pub fn push(&mut self, item: T) -> Result<(), AllocError>
        ensures grows { Grows self.old self.new }
        // first.in_a_comment is not cited
        ensures keeps { first.value_at self.new }
    {
        self.items.push(item)
    }

    fn hidden(&self) {}

    /// Returns the length.
    pub fn len(&self) -> usize {
        self.items.len()
    }
}
"""


ALIASES = """
pub struct Frozen<K: Drop, T> {}

impl<K: Eq + Drop, T: Table<K>> Frozen<K, T>
where
    T::Key: Copy,
{
    pub fn get(&self) -> bool {}
}

pub type Map<K> = Frozen<K, Hashed<K>>;

pub type Other<K> = Map<K>;

#[deprecated(since = "1", note = "use Map")]
pub type Old<K> = Map<K>;

pub struct Pair<K, V> {}

impl<K, V> Pair<K, V> {
    pub fn key(&self) -> &K {}
}

pub type One<K> = Pair<K, ()>;
pub type Two<K, V> = Pair<K, V>;
"""

DEREFS = """
pub struct Items<T> {}
impl<T> Items<T> {
    /// Returns the length. It is exact.
    pub fn len(&self) -> usize {}
    pub fn get(&self, index: usize) -> Option<&T> {}
    pub fn merge(&mut self) {}
    pub fn of(count: usize) -> Self {}
}
pub struct Map<K> {}
impl<K: Drop> Deref
    for Map<K> {
    type Target = crate::Items<Entry<K>>;
}
impl<K> Map<K> {
    /// Returns the value of a key.
    pub fn get(&self, key: K) -> bool {}
}
pub struct Set<T> {}
impl<T> Deref for Set<T> {
    type Target = Map<T>;
}
"""


def library_of(text):
    """A library of one module, whose items are public, and its items by their names."""
    library, read = reference.Library.__new__(reference.Library), module(text)
    library.modules = {("crate", ()): read}
    library.paths = {("crate", read.file, it.name): [f"crate::{it.name}"] for it in read.items}
    return library, {it.name: it for it in read.items}


def module(text):
    with tempfile.TemporaryDirectory() as kept:
        file = pathlib.Path(kept) / "lib.rt"
        file.write_text(text)
        return reference.Module("crate", (), file)


class TestSources(unittest.TestCase):
    def setUp(self):
        self.read = module(SOURCE)

    def test_a_struct_has_its_doc_and_its_derived_traits_but_no_private_field(self):
        (item,) = self.read.items
        self.assertEqual((item.kind, item.name, item.doc), ("struct", "List", ["A list."]))
        self.assertEqual(item.derived, ["Clone", "Drop"])
        self.assertNotIn("items", " ".join(item.head))

    def test_only_public_methods_are_listed_with_signature_and_contract(self):
        push, length = self.read.methods["List"]
        self.assertEqual((push.name, length.name), ("push", "len"))
        self.assertEqual(push.signature, ["pub fn push(&mut self, item: T) -> Result<(), AllocError>"])
        self.assertEqual(push.contract[0], "ensures grows { Grows self.old self.new }")
        self.assertEqual((length.signature, length.contract), (["pub fn len(&self) -> usize"], []))

    def test_a_heading_of_a_comment_is_one_below_those_of_the_page(self):
        self.assertIn("#### Errors", self.read.methods["List"][0].doc)

    def test_a_contract_cites_what_it_names_and_not_what_a_comment_names(self):
        self.assertEqual(set(self.read.methods["List"][0].cited), {"Grows", "value_at"})

    def test_a_group_of_paths_is_read_to_its_depth(self):
        self.assertEqual(self.read.uses, ["crate::one", "crate::two::Three", "crate::two::Four@Five"])


class TestCalls(unittest.TestCase):
    def setUp(self):
        self.library, self.items = library_of(ALIASES)

    def test_an_alias_and_an_alias_of_it_have_the_calls_of_the_type_and_a_deprecated_name_has_no_page(self):
        self.assertNotIn("Old", self.items)
        for name in ("Frozen", "Map", "Other"):
            self.assertEqual([it.name for it in self.library.methods("crate", self.items[name])], ["get"], name)
        self.assertEqual([it for it, _ in self.library.aliases_of("Frozen", "crate")], ["crate::Map", "crate::Other"])

    def test_an_alias_of_a_special_case_is_known_by_the_page_of_its_type(self):
        for name, page in (("One", "crate-Pair.md"), ("Two", None), ("Pair", None), ("Map", "crate-Frozen.md")):
            own, _, there = reference.own_calls(self.library, "crate", self.items[name])
            self.assertEqual(there, page, name)
        self.assertEqual([it.name for it in own], ["get"])

    def test_a_call_is_told_with_the_bounds_of_its_impl(self):
        (get,) = self.library.methods("crate", self.items["Frozen"])
        bounds, alias = reference.bounds_of(get.block), reference.Alias(self.library, "crate", self.items["Map"])
        self.assertEqual(bounds, [("K", "Eq"), ("K", "Drop"), ("T", "Table<K>"), ("T::Key", "Copy")])
        self.assertEqual(reference.bounds_told(bounds[:3]), "`K: Eq + Drop`, `T: Table<K>`")
        self.assertEqual(reference.bounds_for(get, alias), (bounds[:2], {"Frozen", "K", "Hashed<K>"}))
        self.assertEqual(reference.common_bounds([(bounds[:2], {"K"}), (bounds[:1], {"K"}), ([], {"T"})]), bounds[:1])


class TestDeref(unittest.TestCase):
    def test_a_page_lists_the_reads_of_the_types_behind_it_but_those_that_its_own_calls_hide(self):
        library, items = library_of(DEREFS)

        def listed(name):
            own = reference.own_calls(library, "crate", items[name])[0]
            return [it for it in reference.through_deref(library, "crate", items[name], own) if it]

        items_part = ["## Methods from Deref to `Items`", "- [`len`](crate-Items.md#len): Returns the length."]
        map_part = ["## Methods from Deref to `Map`", "- [`get`](crate-Map.md#get): Returns the value of a key."]
        self.assertEqual(listed("Items"), [])
        self.assertEqual(listed("Map"), items_part)
        self.assertEqual(listed("Set"), map_part + items_part)


class TestPages(unittest.TestCase):
    def test_a_linked_page_without_calls_and_a_missing_picture_are_found(self):
        page = "[a](docs/reference/Bare.md) [b](docs/reference/Open.md) [c](docs/reference/Full.md)\n"
        page += "![x](bench/nothing.svg) ![y](bench/growth.svg)\n<img alt='z' src=\"none.png\">\n"
        made = {"Bare.md": "pub struct Bare {\n", "Open.md": "pub struct Open {\n    pub value: u64\n"}
        made |= {"Full.md": "pub type Full = Bare;\n\n### get\n"}
        found = list(reference.lacking({reference.root / "README.md": page}, made))
        pictures = [f"README.md: there is no picture {it}" for it in ("bench/nothing.svg", "none.png")]
        self.assertEqual(found, [*pictures, "README.md: docs/reference/Bare.md has no calls"])

    def test_a_heading_has_the_mark_that_a_link_names(self):
        marks = reference.marks_of("# `may_wait`\n\n```\n# no heading\n```\n## Which types: `Send`, `Sync`\n")
        self.assertEqual(marks, {"may_wait", "which-types-send-sync"})

    def test_the_files_that_a_page_names_are_read_without_placeholders_and_blocks(self):
        page = "`src/a.rt` and `tools/vendor ../mine vec`\n```\n`b.rt`\n```\n`crates/NAME/c.rt`, `v[i]`, `io/json`\n"
        self.assertEqual(list(reference.named_files(page)), [(1, "src/a.rt"), (1, "tools/vendor"), (5, "io/json")])

    def test_a_path_has_each_run_of_its_names(self):
        self.assertEqual(reference.parts_of_paths(["a/b/c"]), {"a", "b", "c", "a/b", "b/c", "a/b/c"})


if __name__ == "__main__":
    unittest.main()
