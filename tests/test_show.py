"""The drawings of played scripts: that all of a transcript is on them, and the states that they show."""
import os
import re
import subprocess
import unittest
import xml.etree.ElementTree as xml

import program
import drawing
import tracing

TRACES = os.path.join(program.TOP, "tests", "traces")
PICTURES = os.path.join(program.TOP, "docs", "pictures")
SHOW = os.path.join(program.BIN, "show")


def played(name):
    """The script and the transcript of an example that is played."""
    return program.script_of(name), program.traced_of(name)


def traced(name):
    """A script that isn't played yet, with its transcript by the rules."""
    return os.path.join(TRACES, name + ".script"), os.path.join(TRACES, name + ".transcript")


def read(paths):
    script, transcript = (program.text_of(path).decode("ascii") for path in paths)
    return tracing.read_script(script), tracing.read_transcript(transcript)


def all_paths():
    for name in program.examples():
        if not name.startswith("fault_"):
            yield played(name)
    for file in sorted(os.listdir(TRACES)):
        if file.endswith(".script"):
            yield traced(file[: -len(".script")])


def phases(name, number=1):
    """The phases of a life's keys behind each event, one sign for those from each border to the next."""
    script, transcript = read(traced(name))
    table = drawing.tables(script, transcript)[number - 1]
    return ["".join(drawing.PHASES[phase][0] for phase in table.phases(state)) for state in table.states]


class Drawn(unittest.TestCase):
    def test_every_event_poll_and_answer_is_drawn(self):
        for paths in all_paths():
            with self.subTest(paths[0]):
                script, transcript = read(paths)
                for table, life in zip(drawing.tables(script, transcript), transcript.lives):
                    self.assertEqual([row[0] for row in table.rows if row[0]], list(range(1, len(life.events) + 1)))
                    drawn = [poll for _, _, polls in table.rows for poll in polls if poll]
                    answers = life.answers.items()
                    places = [(number, place) for number, answer in answers for place in answer.places]
                    results = sorted((poll.request.number, poll.result) for poll in drawn if poll.result)
                    self.assertEqual(results, sorted((number, answer.result) for number, answer in answers))
                    made = sorted((poll.request.number, poll.place) for poll in drawn if poll.kind() != "stopped")
                    self.assertEqual(made, sorted(places))

    def test_text_has_all_of_it(self):
        for paths in all_paths():
            with self.subTest(paths[0]):
                script, transcript = read(paths)
                text = "\n".join(drawing.as_text(script, transcript))
                for life in transcript.lives:
                    for event in life.events:
                        self.assertIn(" ".join(event), text)
                    for answer in life.answers.values():
                        self.assertIn(drawing.cut(answer.result, drawing.MOST - 6).rstrip("."), text)
                self.assertIn(transcript.end, text)

    def test_colours_change_nothing_else(self):
        for paths in all_paths():
            with self.subTest(paths[0]):
                painted = drawing.as_text(*read(paths), is_painted=True)
                plain = [re.sub("\033\\[[0-9]+m", "", line).rstrip() for line in painted]
                self.assertEqual(plain, drawing.as_text(*read(paths)))
                self.assertNotEqual(painted, plain)

    def test_pictures_are_pictures_without_overlaps(self):
        for paths in all_paths():
            with self.subTest(paths[0]):
                picture = xml.fromstring(drawing.as_svg("a script", *read(paths)))
                width, height = float(picture.get("width")), float(picture.get("height"))
                boxes = []
                for text in picture.iter("{http://www.w3.org/2000/svg}text"):
                    x, y = float(text.get("x")), float(text.get("y"))
                    boxes.append((x, y - 10, x + len(text.text) * drawing.LETTER, y + 2, text.text))
                for at, (x, y, to_x, to_y, text) in enumerate(boxes):
                    self.assertTrue(0 <= x and to_x <= width and 0 <= y and to_y <= height, text)
                    for x2, y2, to_x2, to_y2, text2 in boxes[:at]:
                        apart = to_x <= x2 or to_x2 <= x or to_y <= y2 or to_y2 <= y
                        self.assertTrue(apart, f"{text!r} and {text2!r}")


class States(unittest.TestCase):
    def test_a_fetch(self):
        expected = ["=..", "=..", "=ww", "=oo", "=+o", "=+o", "=++", "=**", "=##", "=~~", "=~~", "=~~", "==="]
        self.assertEqual(phases("shard_fetch"), expected)

    def test_a_source_that_is_too_old(self):
        expected = "=.. =.. =ww =oo =+o =+o =+w =*w =#w =~w =~o =~+ =~* =~# =~~ =~~ =~~ ===".split()
        self.assertEqual(phases("too_old_split"), expected)

    def test_a_drop_over_a_crash(self):
        self.assertEqual(phases("drop_and_reassign"), "=== === =.= =w= =w= =w= =w=".split())
        # The drop wasn't durable, so the second life opens with the keys.
        expected = "=== =.= =w= =w= =w= =w= =w= =o= =+= =*= =#= =~=".split() + ["=~="] * 10 + ["==="]
        self.assertEqual(phases("drop_and_reassign", 2), expected)

    def test_versions(self):
        script, transcript = read(traced("shard_fetch"))
        states = tracing.states(script, transcript.lives[0])
        self.assertEqual([state.newest for state in states], [0, 1, 2, 2, 2, 3, 3, 3, 3, 4, 5, 5, 5])
        self.assertEqual([state.durable for state in states], [0] * 8 + [2] * 4 + [4])

    def test_watches(self):
        script, transcript = read(traced("watch_fires"))
        states = tracing.states(script, transcript.lives[0])
        self.assertEqual([len(state.watches) for state in states], [0, 0, 1, 1, 1, 0])

    def test_sets_of_keys(self):
        a, b, c, d = (bytes([0x60 + n]) for n in range(4))
        self.assertEqual(tracing.add([(a, b)], (b, c)), [(a, c)])
        self.assertEqual(tracing.add([(a, b)], (c, d)), [(a, b), (c, d)])
        self.assertEqual(tracing.remove([(a, d)], (b, c)), [(a, b), (c, d)])
        self.assertEqual(tracing.remove([(a, b), (c, d)], (a, c)), [(c, d)])


class Command(unittest.TestCase):
    def show(self, *words):
        return subprocess.run([SHOW, *words], capture_output=True, text=True, check=False)

    def test_it_plays_and_draws_each_example(self):
        for name in program.examples():
            with self.subTest(name):
                script, transcript = program.script_of(name), program.traced_of(name)
                done = self.show(script)
                text = program.text_of(transcript).decode("ascii")
                if name.startswith("fault_"):
                    self.assertEqual((done.stdout, done.returncode), (text, 3))
                    self.assertIn("docs/FAULTS.md", done.stderr)
                else:
                    status = int(re.search("^end status ([0-9]+) ", text, re.MULTILINE).group(1))
                    self.assertEqual((done.returncode, done.stderr == ""), (status, status == 0))
                    self.assertEqual(done.stdout, "\n".join(drawing.as_text(*read((script, transcript)))) + "\n")

    def test_a_file_that_is_not_there(self):
        done = self.show("no/such.script")
        self.assertEqual((done.returncode, done.stdout), (1, ""))
        self.assertTrue(re.match("bin/show: .*no/such.script", done.stderr))

    def test_the_pictures_of_the_documents_are_drawn_so(self):
        for name in ("read_too_early", "future_version", "ranges_and_selectors"):
            with self.subTest(name):
                picture = drawing.as_svg(name + ".script", *read(played(name)))
                self.assertEqual(program.text_of(os.path.join(PICTURES, name + ".svg")).decode("utf-8"), picture)


if __name__ == "__main__":
    unittest.main()
