"""Words of the command line that the program can't hold."""
import resource
import subprocess
import unittest

import program

WORDS = b"fault words\nend status 2 asked 0 answered 0\n"
MEMORY = b"fault memory\nend status 9 asked 0 answered 0\n"


def play_within(size, words):
    """What the program prints and its status, where its address space may have so many bytes."""
    done = subprocess.run(
        [program.PROGRAM, *words],
        stdin=subprocess.DEVNULL,
        stdout=subprocess.PIPE,
        stderr=subprocess.DEVNULL,
        check=False,
        preexec_fn=lambda: resource.setrlimit(resource.RLIMIT_AS, (size, size)),
    )
    return done.stdout, done.returncode


class Words(unittest.TestCase):
    def test_a_word_that_is_not_utf8(self):
        script = program.text_of(program.script_of("first_get"))
        for words in ([b"repl\xffay"], [b"replay", b"\xc3"], [b"\xff", b"replay"]):
            with self.subTest(words):
                self.assertEqual(program.play(words, script), (WORDS, 2))

    def test_no_memory_for_the_words(self):
        """In little memory the program doesn't start; in more it starts, and the words don't fit; in enough they do."""
        long_words = ["x" * 120_000] * 12
        outcomes = [play_within(size, long_words) for size in range(2 << 20, 20 << 20, 1 << 18)]
        told = [outcome for outcome in outcomes if outcome[1] in (2, 9)]
        for text, status in told:
            self.assertTrue((MEMORY if status == 9 else WORDS).startswith(text), text)
        self.assertIn((MEMORY, 9), told)
        self.assertEqual(outcomes[-1], (WORDS, 2))


if __name__ == "__main__":
    unittest.main()
