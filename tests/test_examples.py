"""Each example has the transcript that was derived by hand, in both forms."""
import os
import unittest

import program


def untraced(text):
    """A transcript with the trace as it is without."""
    lines = []
    for line in text.decode("ascii").splitlines(True):
        words = line.split(" ")
        if words[0] == "answer":
            words[2:4] = []
        if words[0] != "event":
            lines.append(" ".join(words))
    return "".join(lines).encode("ascii")


class Examples(unittest.TestCase):
    def test_transcripts(self):
        for name in program.examples():
            script = program.text_of(program.script_of(name))
            for words, path in (
                (["replay"], program.plain_of(name)),
                (["replay", "--trace"], program.traced_of(name)),
            ):
                with self.subTest(name, words=words):
                    expected = program.text_of(path)
                    status = int(expected.split(b"\nend status ")[-1].split()[0]) if b"\nend" in expected else None
                    self.assertEqual(program.play(words, script), (expected, status))

    def test_each_example_says_what_to_look_at(self):
        for name in program.examples():
            with self.subTest(name):
                first = program.text_of(program.script_of(name)).split(b"\n")[0]
                self.assertTrue(first.startswith(b"# ") and b"look at" in first.lower(), first)

    def test_the_list_of_examples_says_the_same(self):
        listed = program.text_of(os.path.join(program.TOP, "docs", "EXAMPLES.md")).decode("utf-8")
        for name in program.examples():
            with self.subTest(name):
                first = program.text_of(program.script_of(name)).decode("utf-8").split("\n")[0]
                self.assertIn(f"\n| [{name}](../examples/{name}.script) | {first[2:]} |\n", listed)

    def test_both_forms_tell_the_same(self):
        for name in program.examples():
            with self.subTest(name):
                expected = program.text_of(program.plain_of(name))
                traced = program.text_of(program.traced_of(name))
                self.assertEqual(untraced(traced), expected)
                self.assertTrue(expected.startswith(b"fault ") or traced != expected, "an example that is played has its trace")

    def test_no_transcript_is_left_over(self):
        names = set(program.examples())
        for folder in (program.EXAMPLES, os.path.join(program.EXAMPLES, "traced")):
            for file in os.listdir(folder):
                if file.endswith(".stdout"):
                    self.assertIn(file[: -len(".script.stdout")], names)

    def test_each_kind_of_fault_has_an_example(self):
        # value, limit and long need larger scripts, which docs/FAULTS.md makes.
        kinds = {"head", "word", "number", "hex", "key", "range", "version", "order", "end", "unbuilt"}
        self.assertEqual({name[len("fault_") :] for name in program.examples() if name.startswith("fault_")}, kinds)


if __name__ == "__main__":
    unittest.main()
