"""The limits of ./test: in processor time, so that the load of the machine decides nothing."""
import unittest

from scripts import script

test = script("test")


class TestLimits(unittest.TestCase):
    def setUp(self):
        test.LIMIT, test.IDLE, test.LOOK = 1, 300, 0.2

    def tearDown(self):
        test.LIMIT, test.IDLE, test.LOOK = 900, 900, 10

    def is_late(self, command):
        output, errors, status = test.run(["sh", "-c", command])
        return status is None and b"had not ended" in errors

    def test_a_command_whose_children_use_the_processor_for_too_long_is_late(self):
        self.assertTrue(self.is_late("(while :; do :; done) & wait"))

    def test_a_command_that_does_nothing_is_late(self):
        test.IDLE = 2
        self.assertTrue(self.is_late("sleep 60"))

    def test_a_command_that_waits_and_works_in_turn_is_not_late(self):
        command = "for it in 1 2 3; do sleep 0.1; echo $it; done; echo e >&2; exit 3"
        self.assertEqual(test.run(["sh", "-c", command]), (b"1\n2\n3\n", b"e\n", 3))

    def test_the_input_is_given(self):
        self.assertEqual(test.run(["cat"], given=b"a\0b"), (b"a\0b", b"", 0))


class TestJoined(unittest.TestCase):
    """What counts of crates whose tests are built as one program."""

    def setUp(self):
        self.kept = test.run, test.build, test.tests_in
        test.tests_in = {"a": 2, "b": 1}.get

    def tearDown(self):
        test.run, test.build, test.tests_in = self.kept

    def results(self, names, listed, failing=(), broken=()):
        """The results where the program lists these tests, of which some fail, and these crates do not compile."""

        def build(own, kept, tests):
            if set(own) & set(broken):
                raise test.Unbuilt("no such name")
            return own

        def run(words, checks):
            own, name = words
            found = [it for it in listed if it.split("::")[0] in own]
            status = 0 if name == "--list" or name not in failing else 1
            return "".join(f"{it}: test\n" for it in found).encode(), b"", status

        test.build, test.run = build, run
        return {name: bool(fault) for name, fault in test.try_tests(names)}

    LISTED = ["a::x::one", "a::x::two", "b::y::one"]

    def test_each_test_counts(self):
        found = self.results(["a", "b"], self.LISTED, failing=["a::x::two"])
        self.assertEqual(found, {"a::x::one": False, "a::x::two": True, "b::y::one": False})

    def test_a_test_that_the_program_lacks_is_a_fault(self):
        self.assertTrue(self.results(["a", "b"], self.LISTED[1:])["a: all of its tests"])

    def test_a_crate_that_does_not_compile_hides_no_other(self):
        found = self.results(["a", "b"], self.LISTED, broken=["b"])
        self.assertEqual(found, {"a::x::one": False, "a::x::two": False, "b: its tests": True})


if __name__ == "__main__":
    unittest.main()
