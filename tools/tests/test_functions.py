"""The names that a check prints of functions and impls."""
import pathlib, re, unittest

from scripts import root

from functions import functions_of, impl_name


class TestImplName(unittest.TestCase):
    def assert_name(self, header, name):
        self.assertTrue(re.fullmatch(impl_name(header), name), f"{impl_name(header)} isn't the name {name}")

    def test_an_impl_for_each_type_has_the_type_any(self):
        header = "impl<K: Ord, Q: OrderQuery<K>, A: Allocator + Copy> Seeks<K, Ordered<A>> for Q {"
        self.assert_name(header, "AnySeeksOrdered")

    def test_a_parameter_behind_a_reference_is_not_each_type(self):
        self.assert_name("impl<K: Eq + Hash> Query<K> for &K {", "RefQuery")

    def test_an_argument_of_the_type_is_not_each_type(self):
        self.assert_name("impl<Q: Copy> Seeks for Table<Q> {", "TableSeeks")

    def test_an_impl_without_a_trait_has_the_name_of_its_type(self):
        self.assert_name("impl<A: Allocator> World<A> {", "World")


class TestFunctionsOf(unittest.TestCase):
    def test_a_header_of_two_lines_is_read_whole(self):
        text = (root / "crates/elsa_cell/src/hashed.rt").read_text()
        found = functions_of(pathlib.Path("src/hashed.rt"), text)
        names = [it.name for it in found if re.fullmatch(it.path, "hashed::AnySeeksHashed::seek")]
        self.assertEqual(names, ["seek"])


if __name__ == "__main__":
    unittest.main()
