"""What the documents show is what the commands print.

An indented line of a document that begins with "$ " is a command, and the lines below it up to the next one, or up to the end
of the indented block, are what it prints, on both streams. Such a line that begins with bin/ is a command whose output isn't
shown; it must succeed.
"""
import os
import re
import subprocess
import unittest

import program

DOCUMENTS = ["README.md", *sorted(os.path.join("docs", name) for name in os.listdir(os.path.join(program.TOP, "docs")) if name.endswith(".md"))]


def blocks(text):
    """The indented blocks of a document, each as its lines."""
    found, block = [], []
    for line in text.split("\n"):
        if line.startswith("    "):
            block.append(line[4:])
        elif block:
            found.append(block)
            block = []
    return found + ([block] if block else [])


def commands(text):
    """The commands of a document, each with what it prints, or none where that isn't shown."""
    for block in blocks(text):
        command, printed = None, []
        for line in block + ["$ "]:
            if not line.startswith("$ "):
                if command is not None:
                    printed.append(line)
                elif line.startswith("bin/") and not re.search(r"\b[A-Z]{3,}\b", line):
                    yield line, None
                continue
            if command:
                yield command, "".join(line + "\n" for line in printed)
            command, printed = line[2:], []


def run(command):
    return subprocess.run(
        ["bash", "-c", command], cwd=program.TOP, stdin=subprocess.DEVNULL, stdout=subprocess.PIPE, stderr=subprocess.STDOUT, check=False
    )


class Documents(unittest.TestCase):
    def test_commands_print_what_is_shown(self):
        for name in DOCUMENTS:
            text = program.text_of(os.path.join(program.TOP, name)).decode("utf-8")
            for command, printed in commands(text):
                with self.subTest(name, command=command):
                    done = run(command)
                    if printed is None:
                        self.assertEqual(done.returncode, 0, done.stdout)
                    else:
                        self.assertEqual(done.stdout.decode("utf-8"), printed)

    def test_links_lead_somewhere(self):
        for name in DOCUMENTS:
            path = os.path.join(program.TOP, name)
            for link in re.findall(r"\]\(([^)#]+)", program.text_of(path).decode("utf-8")):
                with self.subTest(name, link=link):
                    self.assertTrue(os.path.exists(os.path.join(os.path.dirname(path), link)))

    def test_files_that_are_named_are_there(self):
        names = r"`((?:bin|docs|examples|bench|tests|editors|crates)/[A-Za-z0-9_./]+[A-Za-z0-9_/])`"
        for name in DOCUMENTS:
            text = program.text_of(os.path.join(program.TOP, name)).decode("utf-8")
            for path in re.findall(names, text):
                with self.subTest(name, path=path):
                    if not re.search(r"\b[A-Z]{3,}\b", path.removeprefix("docs/")):
                        self.assertTrue(os.path.exists(os.path.join(program.TOP, path)), path)

    def test_a_script_that_is_shown_is_the_example(self):
        """A block that follows the name of an example and begins with its first line is the whole example, or a part."""
        for name in DOCUMENTS:
            text = program.text_of(os.path.join(program.TOP, name)).decode("utf-8")
            for example, block in re.findall(r"^`examples/(\w+)\.script`:\n\n((?:    .*\n)+)", text, re.MULTILINE):
                with self.subTest(name, example=example):
                    lines = program.text_of(program.script_of(example)).decode("utf-8").split("\n")
                    whole = [line for line in lines if line and not line.startswith("#")]
                    self.assertEqual([line[4:] for line in block.rstrip("\n").split("\n")], whole)

    def test_every_file_of_definitions_is_read_aloud(self):
        """Each has a paragraph that begins with its bold name, one for each crate that has a file of this name."""
        text = program.text_of(os.path.join(program.TOP, "docs", "DEFINITIONS.md")).decode("utf-8")
        told = [word for bold in re.findall(r"\*\*([^*]+)\*\*", text) for word in re.findall(r"\w+", bold)]
        crates = os.path.join(program.TOP, "crates")
        files = {}
        for crate in sorted(os.listdir(crates)):
            specs = os.path.join(crates, crate, "specs")
            for file in sorted(os.listdir(specs)) if os.path.isdir(specs) else []:
                files.setdefault(file[: -len(".antt")], []).append(crate)
        for name, of in files.items():
            if name != "Lib":
                with self.subTest(name, crates=of):
                    self.assertGreaterEqual(told.count(name), len(of))

    def test_every_crate_is_on_the_map(self):
        text = program.text_of(os.path.join(program.TOP, "docs", "ARCHITECTURE.md")).decode("utf-8")
        with open(os.path.join(program.TOP, "crates.txt"), encoding="utf-8") as lines:
            crates = [line.partition(":")[0] for line in lines if ":" in line and not line.startswith("#")]
        for crate in crates:
            with self.subTest(crate):
                self.assertIn(f"\n| {crate} | ", text)

    def test_the_script_and_the_transcript_of_the_readme(self):
        """They stand in two columns."""
        text = program.text_of(os.path.join(program.TOP, "README.md")).decode("utf-8")
        example = re.search(r"^On the left `examples/(\w+)\.script`", text, re.MULTILINE).group(1)
        block = next(block for block in blocks(text) if block[0].startswith("storage 1 "))
        left = [line[:24].rstrip() for line in block]
        right = [line[24:] for line in block if line[24:]]
        lines = program.text_of(program.script_of(example)).decode("utf-8").splitlines()
        self.assertEqual(left, [line for line in lines if not line.startswith("#")])
        self.assertEqual(right, program.text_of(program.traced_of(example)).decode("ascii").splitlines())

    def test_the_readme_is_short(self):
        self.assertLessEqual(len(program.text_of(os.path.join(program.TOP, "README.md"))), 6 * 1024)


if __name__ == "__main__":
    unittest.main()
