"""Which public calls have a result and no clause on it: exactly those that tools/bare_calls.txt has with a reason."""
import collections, re, unittest

from scripts import root, script
from test_reference import module

reference = script("tools/reference")

SOURCE = """pub fn told() -> u64
    ensures { result ≡ 1 }
{
    1
}

pub fn bare(at: u64) -> u64
    requires { at < 9 }
{
    at
}

impl<T> List<T> {
    pub fn len(&self) -> usize {
        self.items.len()
    }

    pub fn clear(&mut self) {
        self.items.clear();
    }

    pub(crate) fn inner(&self) -> usize {
        self.len()
    }
}

pub trait Gate {
    fn after(&self) -> bool;
}

impl<T> Gate for List<T> {
    fn after(&self) -> bool {
        true
    }
}
"""


def bare_in(modules):
    """How often each path is that of a public function or method with a result and no clause on it. The methods of an
    impl of a trait have the clauses of the trait."""
    found = collections.Counter()
    for (crate, path), it in modules.items():
        calls = [(call.name, call.head, call.contract) for call in it.items if call.kind == "fn"]
        for owner, methods in it.methods.items():
            own = [call for call in methods if not (call.impl and call.target)]
            calls += [(f"{owner}::{call.name}", call.signature, call.contract) for call in own]
        for name, signature, contract in calls:
            is_bare = "->" in "\n".join(signature) and not re.search(r"^ensures\b", "\n".join(contract), re.M)
            found.update(["::".join((crate, *path, name))] if is_bare else [])
    return found


class TestBareCalls(unittest.TestCase):
    def setUp(self):
        rows = (root / "tools" / "bare_calls.txt").read_text().split("\n")
        self.listed = collections.Counter(it.strip() for it in rows if it.startswith("    "))
        self.bare = bare_in(reference.Library().modules)

    def test_no_other_public_call_has_a_result_and_no_clause_on_it(self):
        self.assertEqual(sorted((self.bare - self.listed).elements()), [])

    def test_each_call_of_the_list_is_a_public_call_without_a_clause_on_its_result(self):
        self.assertEqual(sorted((self.listed - self.bare).elements()), [])

    def test_only_public_calls_and_those_of_traits_are_bare(self):
        found = bare_in({("crate", ("list",)): module(SOURCE)})
        self.assertEqual(sorted(found), ["crate::list::Gate::after", "crate::list::List::len", "crate::list::bare"])


if __name__ == "__main__":
    unittest.main()
