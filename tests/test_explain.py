"""The reasons that are told for a faulty line, and that the program tells the same line and kind."""
import unittest

import program
import explain

HEAD = b"storage 1\nown - ff\nlog\n"
BATCH = HEAD + b"batch 1\n"
LIFE = HEAD + b"life 1\n"

# A script, the kind of the fault in its last line, what the mark is under, and a part of what is said.
ROWS = [
    (b"storage 1\r\n", "head", "storage 1\\r", "only LF ends a line"),
    (b"storage\t1\n", "head", "storage\\t1", "here is a tab"),
    (b"\xef\xbb\xbfstorage 1\n", "head", "\\xef\\xbb\\xbfstorage 1", "byte order mark"),
    (b"# a comment\nlog\n", "head", "log", '"storage 1"'),
    (b"storage 1\nown - ff\nlog\r\n", "word", "log\\r", "CR LF"),
    (HEAD + b"SET 61 31\n", "word", "SET", 'did you mean "set"?'),
    (LIFE + b"get 61 @1\n", "word", "get", "ask READER get"),
    (LIFE + b"poll 1\n", "word", "poll", "do poll"),
    (b"storage 1\npatience\n", "word", " ", '"patience" has the word N'),
    (HEAD + b"frobnicate\n", "word", "frobnicate", "docs/SCRIPT.md has the lines"),
    (BATCH + b"set\t61 31\n", "word", "set\\t61", "tab"),
    (BATCH + b"set 61\t31\n", "word", "61\\t31", "tab"),
    (BATCH + b"set 61\n", "word", " ", 'VALUE is missing (no bytes are written "-")'),
    (BATCH + b"set 61 31 32\n", "word", "32", "one word too many"),
    (BATCH + b"clear 61\n", "word", " ", "END is missing"),
    (HEAD + b"batch\n", "word", " ", "VERSION is missing"),
    (LIFE + b"ask 1 get 61 1\n", "word", "1", "@1"),
    (LIFE + b"ask 1 get 61\n", "word", " ", "the version is missing"),
    (LIFE + b"ask 1 get 61 @1 @1\n", "word", "@1", "one word too many"),
    (LIFE + b"ask get 61 @1\n", "word", "get", "the number of the reader is missing"),
    (LIFE + b"ask 1 put 61 @1\n", "word", "put", "is no request"),
    (LIFE + b"last 1 get 61 @1\n", "word", "1", "a last request has no reader"),
    (LIFE + b"ask 1 range - ff 10 1000 forward @1\n", "word", "forward", "fwd or rev"),
    (LIFE + b"ask 1 range - ff 10 1000 @1\n", "word", " ", "is missing"),
    (LIFE + b"ask 1 key 61 lt 1 - ff @1\n", "word", "lt", "eq or ne"),
    (LIFE + b"do aply\n", "word", "aply", "a step is apply, began, durable, flush or poll READER"),
    (LIFE + b"do\n", "word", " ", "ACT is missing"),
    (LIFE + b"kill 0\n", "word", " ", "CHOICE is missing"),
    (LIFE + b"do poll\n", "word", " ", "READER is missing"),
    (LIFE + b"do apply 1 1\n", "word", "1", "one word too many"),
    (LIFE + b"close now\n", "word", "now", '"close" has no words after it'),
    (HEAD + b"batch 0\n", "number", "0", "from 1 to"),
    (HEAD + b"batch +1\n", "number", "+1", "without a sign"),
    (HEAD + b"batch 1,000\n", "number", "1,000", "digits alone: 1000"),
    (HEAD + b"batch 0x10\n", "number", "0x10", "decimal"),
    (HEAD + b"batch 000000000000000000001\n", "number", "000000000000000000001", "more than 20 digits"),
    (HEAD + b"batch 1\r\n", "number", "1\\r", "CR LF"),
    (b"storage 1\npatience 1001\n", "number", "1001", "N is a number from 1 to 1000"),
    (LIFE + b"ask 65 get 61 @1\n", "number", "65", "READER is a number from 1 to 64"),
    (LIFE + b"ask 1 get 61 @x\n", "number", "@x", "the version after @"),
    (LIFE + b"ask 1 get 61 @9223372036854775808\n", "number", "@9223372036854775808", "9223372036854775807"),
    (LIFE + b"ask 1 key 61 eq 1001 - ff @1\n", "number", "1001", "OFFSET is a number from -1000 to 1000"),
    (LIFE + b"ask 1 range - ff 0 1 fwd @1\n", "number", "0", "ROWS is a number from 1 to 10000"),
    (LIFE + b"do apply 0\n", "number", "0", "COUNT"),
    (LIFE + b"do flush 0\n", "number", "0", "COUNT"),
    (LIFE + b"kill x 0\n", "number", "x", "CALLS is a number from 0 to"),
    (LIFE + b"kill 0 -1\n", "number", "-1", "CHOICE"),
    (b"storage 1\nwindow 0\n", "number", "0", "N is a number from 1 to 4611686018427387904"),
    (b"storage 1\nswap 63\n", "number", "63", "N is a number from 64 to 268435456"),
    (b"storage 1\nquota 1048577\n", "number", "1048577", "N is a number from 1 to 1048576"),
    (LIFE + b"do poll 65\n", "number", "65", "READER"),
    (BATCH + b"set 616 31\n", "hex", "616", "KEY has 3 hex digits"),
    (BATCH + b"set 61 3\n", "hex", "3", "VALUE has 1 hex digits"),
    (BATCH + b"add 61 3\n", "hex", "3", "OPERAND has 1 hex digits"),
    (BATCH + b"set 0x61 31\n", "hex", "0x61", "without 0x: 61"),
    (BATCH + b"set hello 31\n", "hex", "hello", 'the text "hello" is 68656c6c6f in hex'),
    (BATCH + b'set "hello" 31\n', "hex", '"hello"', "without quotes"),
    (BATCH + b"set 61 31\r\n", "hex", "31\\r", "CR LF"),
    (BATCH + b"clear 61 6_\n", "hex", "6_", '"_" is no hex digit'),
    (BATCH + b"set ff 31\n", "key", "ff", "below ff"),
    (BATCH + b"set " + b"61" * 10_001 + b" 31\n", "key", "61" * 25, "10001 bytes"),
    (LIFE + b"ask 1 get ff00 @1\n", "key", "ff00", "below ff"),
    (BATCH + b"set 61 " + b"00" * 100_001 + b"\n", "value", "00" * 25, "100001 bytes"),
    (BATCH + b"append 61 " + b"00" * 100_001 + b"\n", "value", "00" * 25, "OPERAND has 100001 bytes"),
    (BATCH + b"clear 62 61\n", "range", "62 61", "62 isn't below 61"),
    (BATCH + b"clear 61 61\n", "range", "61 61", "ends with 00 after it"),
    (BATCH + b"clear 61 ff00\n", "range", "ff00", "above ff"),
    (BATCH + b"clear - " + b"61" * 10_002 + b"\n", "range", "61" * 25, "at most 10001"),
    (LIFE + b"ask 1 range 62 61 1 1 fwd @1\n", "range", "62 61", "isn't below"),
    (LIFE + b"ask 1 key 70 eq 1 61 62 @1\n", "range", "61 62", "lies outside"),
    (BATCH + b"set 61 31\nbatch 1\n", "version", "1", "the batch before has version 1"),
    (LIFE + b"close\nlife 0\n", "version", "0", "the life before has version 1"),
    (HEAD + b"set 61 31\n", "order", "set", 'after "log" come batch or life'),
    (HEAD + b"log\n", "order", "log", "come batch or life"),
    (BATCH + b"close\n", "order", "close", "in a batch come batch, a mutation or life"),
    (LIFE + b"set 61 31\n", "order", "set", "in a life come ask, last, do, close or kill"),
    (LIFE + b"close\nclose\n", "order", "close", 'after "close" come life or end'),
    (LIFE + b"kill 0 0\nkill 0 0\n", "order", "kill", 'after "kill" come life or end'),
    (LIFE + b"last get 61 @1\ndo apply\nkill 0 0\n", "order", "kill", 'with a "last" line'),
    (LIFE + b"close\nend\nend\n", "order", "end", "nothing follows the end"),
    (b"storage 1\npatience 3\npatience 3\n", "order", "patience", "for the second time"),
    (b"storage 1\nseed 1\npatience 3\nseed 1\n", "order", "seed", "for the second time"),
    (b"storage 1\nend\n", "order", "end", "in the head come window, patience, seed, swap, limit, quota, own or log"),
    (b"storage 1\nlog\n", "unbuilt", "log", 'put "own - ff" before "log"'),
    (b"storage 1\nown 61 62\n", "unbuilt", "own", 'a first "own - ff"'),
    (b"storage 1\nown - ff\r\n", "unbuilt", "own", "CR LF"),
    (BATCH + b"drop 61 62\n", "unbuilt", "drop", "aren't played yet"),
    (LIFE + b"ask 1 watch 61 none\n", "unbuilt", "watch", "isn't played yet"),
    (LIFE + b"do start\n", "unbuilt", "start", "isn't played yet"),
    (b"storage 1\nblock 500\n", "unbuilt", "block", "aren't played yet"),
    (b"storage 1\nwatches 500\n", "unbuilt", "watches", "aren't played yet"),
    (LIFE + b"cut 1\n", "unbuilt", "cut", "aren't played yet"),
]


class Reasons(unittest.TestCase):
    def test_reasons_of_lines(self):
        for script, kind, marked, part in ROWS:
            number = script.count(b"\n")
            with self.subTest(script[-60:], kind=kind):
                told = explain.of_script(number, kind, script)
                self.assertEqual(told[0], f"storage_tool: line {number} is faulty: {kind}")
                line, mark = told[1], told[2]
                begin, length = len(mark) - len(mark.lstrip(" ")), mark.count("^")
                self.assertEqual(line.ljust(len(mark))[begin : begin + length][:50], marked[:50])
                self.assertIn(part, "\n".join(told[3:]))
                self.assertNotIn("breaks a rule", told[3])

    def test_the_program_tells_the_same(self):
        for script, kind, _, _ in ROWS:
            with self.subTest(script[-60:], kind=kind):
                text, status = program.play(["replay"], script)
                self.assertEqual(status, 3)
                self.assertEqual(text.split(b"\n")[0].decode("ascii"), f"fault script line {script.count(bytes([10]))} {kind}")

    def test_scripts_that_stop_early(self):
        for script in (b"", b"# a comment", b"\n\n"):
            self.assertIn("has no lines", explain.of_script(1, "end", script)[1])
        self.assertIn('skipped is "log"', explain.of_script(4, "end", b"storage 1\nown - ff\nlog")[1])
        self.assertIn('isn\'t skipped is "own - ff"', explain.of_script(5, "end", b"storage 1\nown - ff\n# more\n\n")[1])

    def test_each_status(self):
        for status in (4, 5, 6, 8, 9, 10, 11):
            self.assertEqual(len(explain.of_status(status, ["replay"])), 1)
        self.assertEqual(explain.of_status(0, ["replay"]), [])
        self.assertIn("docs/FAULTS.md", explain.of_status(3, ["replay"])[0])


if __name__ == "__main__":
    unittest.main()
