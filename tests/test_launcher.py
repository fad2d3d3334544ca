"""The launcher, over a program and a toolchain that only pretend."""
import os
import pty
import shutil
import stat
import subprocess
import tempfile
import unittest

TOP = os.path.dirname(os.path.dirname(os.path.realpath(__file__)))

# It reads only as `replay`, and takes a script to be right where its first line is.
PROGRAM = """\
#!/bin/sh
ended() { printf 'fault %s\\nend status %s asked 0 answered 0\\n' "$1" "$2"; exit "$2"; }
case "$*" in replay | "replay --trace") ;; *) ended words 2 ;; esac
script=$(mktemp)
trap 'rm "$script"' EXIT
cat > "$script" 2> /dev/null || ended "read 1" 4
[ "$(head -n 1 "$script")" = "storage 1" ] || ended "script line 1 head" 3
echo "played $(wc -c < "$script")"
"""

# It notes each call, says something of its own, and puts the program there where it is asked to run it.
TOOLCHAIN = """\
#!/bin/sh
echo "$* in $(basename "$PWD")" >> "$CALLS"
echo "rt: waiting for another copy" >&2
echo "so far: 1 of 2 functions checked" >&2
[ "$(basename "$PWD")" != "$FAILS" ] || { echo "a goal is open" >&2; exit 1; }
case "$1" in run) mkdir -p out; cp "$PROGRAM" out/storage_tool; chmod +x out/storage_tool;; esac
"""

CRATES = "# a comment\nlow:\nother: low\nstorage_tool: low\n"


def write(path, text, mode=0o644):
    os.makedirs(os.path.dirname(path), exist_ok=True)
    with open(path, "w", encoding="utf-8") as out:
        out.write(text)
    os.chmod(path, mode)


class Launcher(unittest.TestCase):
    def setUp(self):
        self.top = tempfile.mkdtemp()
        self.addCleanup(shutil.rmtree, self.top)
        shutil.copytree(os.path.join(TOP, "bin"), self.at("bin"))
        write(self.at("crates.txt"), CRATES)
        for crate in ("low", "other", "storage_tool"):
            write(self.at("crates", crate, "src", "lib.rt"), crate)
        write(self.at("crates", "storage_tool", "stdin"), "storage 1\n")
        write(self.at("program"), PROGRAM)
        write(self.at("path", "rt"), TOOLCHAIN, 0o755)
        self.environment = {
            **os.environ,
            "PATH": self.at("path") + os.pathsep + os.environ["PATH"],
            "CALLS": self.at("calls"),
            "PROGRAM": self.at("program"),
            "FAILS": "",
        }

    def at(self, *parts):
        return os.path.join(self.top, *parts)

    def run_with(self, *words, **given):
        return subprocess.run(
            [self.at("bin", "storage_tool"), *words], capture_output=True, env=self.environment, check=False, **given
        )

    def calls(self):
        """The calls of the toolchain since the last time."""
        if not os.path.exists(self.at("calls")):
            return []
        with open(self.at("calls"), encoding="utf-8") as calls:
            lines = calls.read().splitlines()
        os.remove(self.at("calls"))
        return lines

    def built(self):
        """Builds the program, so that what follows is of a program that stands."""
        self.run_with("replay", input=b"storage 1\n")
        self.calls()


class Building(Launcher):
    def test_it_builds_what_the_program_stands_on_with_progress(self):
        done = self.run_with("replay", input=b"storage 1\n")
        self.assertEqual((done.returncode, done.stdout), (0, b"played 10\n"))
        self.assertEqual(self.calls(), ["lib in low", "run -- replay in storage_tool"])
        for line in ("2 crates", "low (1 of 2)", "storage_tool (2 of 2)", "rt: waiting for another copy", "so far: 1 of 2"):
            self.assertIn(line, done.stderr.decode())

    def test_it_builds_once(self):
        self.built()
        done = self.run_with("replay", input=b"storage 1\n")
        self.assertEqual((self.calls(), done.stderr), ([], b""))

    def test_a_crate_that_the_program_does_not_stand_on_changes_nothing(self):
        self.built()
        write(self.at("crates", "other", "src", "lib.rt"), "changed")
        write(self.at("crates.txt"), CRATES.replace("other: low", "another: low"))
        self.run_with("replay", input=b"storage 1\n")
        self.assertEqual(self.calls(), [])

    def test_a_crate_below_that_changed_is_built_again(self):
        changes = {
            "changed": lambda: write(self.at("crates", "low", "src", "lib.rt"), "changed"),
            "added": lambda: write(self.at("crates", "low", "specs", "Lib.antt"), ""),
            "removed": lambda: os.remove(self.at("crates", "low", "specs", "Lib.antt")),
            "on one more": lambda: write(self.at("crates.txt"), CRATES.replace("tool: low", "tool: low other")),
        }
        self.built()
        for what, change in changes.items():
            with self.subTest(what):
                change()
                self.run_with("replay", input=b"storage 1\n")
                self.assertEqual(self.calls()[-1], "run -- replay in storage_tool")

    def test_a_touched_file_changes_nothing(self):
        self.built()
        os.utime(self.at("crates", "low", "src", "lib.rt"))
        self.run_with("replay", input=b"storage 1\n")
        self.assertEqual(self.calls(), [])

    def test_a_failed_build_is_told(self):
        self.environment["FAILS"] = "low"
        done = self.run_with("replay", input=b"storage 1\n")
        self.assertEqual((done.returncode, done.stdout), (1, b""))
        self.assertIn("low could not be built", done.stderr.decode())
        self.assertIn("a goal is open", done.stderr.decode())

    def test_a_missing_toolchain_is_told(self):
        self.environment["PATH"] = self.at("empty")
        os.mkdir(self.at("empty"))
        for name in ("env", "bash", "dirname", "readlink", "python3"):
            os.symlink(shutil.which(name), self.at("empty", name))
        done = self.run_with("replay", input=b"storage 1\n")
        self.assertEqual(done.returncode, 1)
        self.assertIn("rt isn't on the path", done.stderr.decode())

    def test_what_the_gate_built_is_taken(self):
        write(self.at("crates", "storage_tool", "out", "storage_tool"), PROGRAM)
        subprocess.run(["python3", self.at("bin", "building.py"), "--mark"], check=True)
        done = self.run_with("replay", input=b"storage 1\n")
        self.assertEqual((done.returncode, self.calls()), (0, []))


class Words(Launcher):
    def test_help_and_version_need_no_program(self):
        for words in ("--help", "-h"):
            done = self.run_with(words)
            self.assertEqual((done.returncode, done.stderr), (0, b""))
            self.assertIn(b"usage: bin/storage_tool replay", done.stdout)
        done = self.run_with("--version")
        self.assertEqual(done.returncode, 0)
        self.assertIn(b"storage_tool of Repquartz, commit", done.stdout)
        self.assertFalse(os.path.exists(self.at("crates", "storage_tool", "out")))

    def test_other_words_have_the_usage(self):
        self.built()
        for words in ((), ("walk",), ("replay", "--help"), ("--trace",)):
            done = self.run_with(*words)
            self.assertEqual((done.returncode, done.stdout), (2, b"fault words\nend status 2 asked 0 answered 0\n"))
            self.assertIn("usage: bin/storage_tool replay [--trace] < SCRIPT", done.stderr.decode())
            self.assertNotIn("names a file", done.stderr.decode())

    def test_a_file_among_the_words_is_told(self):
        self.built()
        for words in (("replay", self.at("program")), (self.at("program"),)):
            self.assertIn("replay reads standard input: use < FILE", self.run_with(*words).stderr.decode())


class Input(Launcher):
    EXPLAINED = ["storage_tool: line 1 is faulty: head", "  1 | storage 2", "      ^^^^^^^^^"]

    def setUp(self):
        super().setUp()
        self.built()
        write(self.at("faulty"), "storage 2\nlog\n")
        write(self.at("right"), "storage 1\nlog\n")

    def assert_explained(self, done):
        self.assertEqual((done.returncode, done.stdout), (3, b"fault script line 1 head\nend status 3 asked 0 answered 0\n"))
        self.assertEqual(done.stderr.decode().splitlines()[:3], self.EXPLAINED)

    def test_a_faulty_file_is_explained(self):
        with open(self.at("faulty"), "rb") as script:
            self.assert_explained(self.run_with("replay", stdin=script))

    def test_a_faulty_pipe_is_explained(self):
        self.assert_explained(self.run_with("replay", "--trace", input=b"storage 2\nlog\n"))

    def test_a_file_is_read_from_where_it_stands(self):
        write(self.at("both"), "storage 1\nstorage 2\n")
        with open(self.at("both"), "rb") as script:
            os.lseek(script.fileno(), 10, os.SEEK_SET)
            self.assert_explained(self.run_with("replay", stdin=script))

    def test_nothing_is_added_to_what_is_played(self):
        with open(self.at("right"), "rb") as script:
            done = self.run_with("replay", stdin=script)
        self.assertEqual((done.returncode, done.stdout, done.stderr), (0, b"played 14\n", b""))
        done = self.run_with("replay", input=b"storage 1\n" + b"#\n" * 500_000)
        self.assertEqual((done.returncode, done.stdout, done.stderr), (0, b"played 1000010\n", b""))

    def test_a_failed_read_is_told(self):
        folder = os.open(self.top, os.O_RDONLY)
        self.addCleanup(os.close, folder)
        done = self.run_with("replay", stdin=folder)
        self.assertEqual(done.returncode, 4)
        self.assertIn("standard input could not be read", done.stderr.decode())

    def test_a_closed_input_is_told(self):
        done = self.run_with("replay", preexec_fn=lambda: os.close(0))
        self.assertEqual(done.returncode, 4)

    def test_a_terminal_is_told_that_it_waits(self):
        master, slave = pty.openpty()
        os.write(master, b"storage 1\n\x04")
        done = self.run_with("replay", stdin=slave)
        os.close(master)
        os.close(slave)
        self.assertEqual((done.returncode, done.stdout), (0, b"played 10\n"))
        self.assertIn("waiting for a script from the terminal", done.stderr.decode())

    def test_a_program_that_is_killed_is_told_by_its_status(self):
        path = self.at("crates", "storage_tool", "out", "storage_tool")
        write(path, "#!/bin/sh\nkill -TERM $$\n", stat.S_IRWXU)
        self.assertEqual(self.run_with("replay", input=b"").returncode, 128 + 15)


if __name__ == "__main__":
    unittest.main()
