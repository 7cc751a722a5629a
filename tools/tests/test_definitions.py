"""How tools/definitions finds the definitions that public contracts cite, and their sentences."""
import unittest

from scripts import script

definitions = script("tools/definitions")

SOURCE = """/// Adds.
pub fn add(&mut self)
    ensures grows { Grows self.old self.new }
{
    hidden { Other }
}

fn private()
    ensures { Hidden }
{
}

pub extern "C" fn number(a: usize) -> usize
    ensures { IsNumber a result }
{
}

pub trait Core {
    fn apply(&mut self)
        ensures step { IsStep self.old self.new };
}
"""

SPECS = """-- about the file

module _ {T : Type 0} where
  -- the list was longer,
  -- and then x was appended
  abbrev pub Appends : List T → T → Type 0
  Appends xs x = Contains xs x

pub record View (T : Type 0) : Type 0 where
  pub seen : List T
"""


class TestContracts(unittest.TestCase):
    def test_a_private_file_with_calls_of_a_type_names_it(self):
        text = "impl<K: Map<u8>, V> Frozen<\n    K,\n> {\n}\n\nimpl Name {\n}\n\nimpl<T> Drop for Other<T> {\n}\n"
        self.assertEqual(list(definitions.types_with_calls(text)), ["Frozen", "Name"])

    def test_only_the_clauses_of_public_functions_are_read(self):
        clauses = definitions.public_contracts(SOURCE)
        for name in ("Grows", "IsNumber", "IsStep"):
            self.assertIn(name, clauses)
        for name in ("Other", "Hidden"):
            self.assertNotIn(name, clauses)


class TestSentences(unittest.TestCase):
    def test_a_definition_is_found_where_it_begins_and_not_where_it_is_used(self):
        self.assertEqual(definitions.line_of("Appends", SPECS), 5)
        self.assertEqual(definitions.line_of("View", SPECS), 8)
        self.assertIsNone(definitions.line_of("Contains", SPECS))

    def test_a_comment_of_several_lines_is_one_sentence(self):
        wanted = "The list was longer, and then x was appended."
        self.assertEqual(definitions.sentence_above(SPECS, 5), wanted)
        self.assertEqual(definitions.sentence_above(SPECS, 8), "")

    def test_a_name_of_code_keeps_its_small_letter(self):
        self.assertEqual(definitions.as_sentence("ys begins with xs"), "ys begins with xs.")
        self.assertEqual(definitions.as_sentence("an entry as a pair."), "An entry as a pair.")

    def test_each_definition_has_its_crate_as_a_heading_once(self):
        file = definitions.root / "crates" / "elsa_vec" / "specs" / "Vec.antt"
        text = definitions.table_of([("elsa_vec", file, 1, "a", "One."), ("elsa_vec", file, 2, "b", "Two.")])
        self.assertEqual(text.count("## `elsa_vec`"), 1)
        self.assertEqual(text.count("specs/Vec.antt`]"), 1)
        self.assertIn("- `a`: One.\n- `b`: Two.\n", text)


if __name__ == "__main__":
    unittest.main()
