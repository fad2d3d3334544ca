"""Each clause that docs/PROOFS.md names stands in the code, at a call of that name."""
import os
import re
import unittest

import program

CRATES = os.path.join(program.TOP, "crates")


def sources(crate):
    """The code of a crate, without its tests."""
    found = []
    for folder, _, files in os.walk(os.path.join(CRATES, crate, "src")):
        found += [program.text_of(os.path.join(folder, file)).decode("utf-8") for file in sorted(files) if file != "tests.rt"]
    return "\n".join(found)


def clauses_of(code):
    """The names of the clauses of each function, where "-" stands for one without a name."""
    found, name = {}, None
    for line in code.split("\n"):
        begins = re.match(r"\s*(?:pub(?:\([a-z]+\))? )?fn (\w+)", line)
        clause = re.match(r"\s*ensures\*? ?(\w*) ?\{", line)
        if begins:
            name = begins.group(1)
            found.setdefault(name, set())
        elif clause and name:
            found[name].add(clause.group(1) or "-")
    return found


def rows(text):
    """The rows of the tables of calls: the crate, the calls and the clauses, by their names."""
    crate = None
    for line in text.split("\n"):
        cells = [cell.strip() for cell in line.strip("|").split("|")]
        if not line.startswith("|") or len(cells) != 4 or cells[0] in ("Crate", "---"):
            continue
        crate = cells[0] or crate
        calls = re.findall(r"`([\w:]+)`", cells[1]) or calls
        yield crate, [call.split("::")[-1] for call in calls], re.findall(r"`(\w+)`", cells[2]) + (["-"] if "-" in cells[2] else [])


class Clauses(unittest.TestCase):
    def setUp(self):
        self.text = program.text_of(os.path.join(program.TOP, "docs", "PROOFS.md")).decode("utf-8")

    def test_the_clauses_of_calls(self):
        told = 0
        for crate, calls, clauses in rows(self.text):
            there = clauses_of(sources(crate))
            # A type or a trait stands for its functions.
            known = [there[call] for call in calls if call in there]
            all_known = set().union(*known) if len(known) == len(calls) else set().union(*there.values())
            for clause in clauses:
                with self.subTest(crate, calls=calls, clause=clause):
                    self.assertIn(clause, all_known)
                    told += 1
        self.assertGreater(told, 100)

    def test_calls_are_there(self):
        for crate, calls, _ in rows(self.text):
            code = sources(crate)
            for call in calls:
                with self.subTest(crate, call=call):
                    self.assertTrue(re.search(rf"\b(fn|struct|trait|enum) {call}\b", code))

    def test_laws_are_there(self):
        """The laws of a table of two columns are of st_model."""
        code = sources("st_model")
        for names in re.findall(r"^\| ((?:`\w+`(?:, )?)+) \| [^|]*\|$", self.text, re.MULTILINE):
            for name in re.findall(r"`(\w+)`", names):
                with self.subTest(name):
                    self.assertTrue(re.search(rf"\bpub fn {name}\b", code))

    def test_all_crates_are_told(self):
        told = {crate for crate, _, _ in rows(self.text)}
        self.assertEqual({crate for crate in os.listdir(CRATES) if os.path.isdir(os.path.join(CRATES, crate, "src"))} - told, set())


if __name__ == "__main__":
    unittest.main()
