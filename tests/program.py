"""Where the tests find the repository and the program that was built."""
import os
import subprocess
import sys

TOP = os.path.dirname(os.path.dirname(os.path.realpath(__file__)))
BIN = os.path.join(TOP, "bin")
EXAMPLES = os.path.join(TOP, "examples")
PROGRAM = os.path.join(TOP, "crates", "storage_tool", "out", "storage_tool")

sys.path.insert(0, BIN)


def examples():
    """The names of all examples, without .script."""
    return sorted(name[: -len(".script")] for name in os.listdir(EXAMPLES) if name.endswith(".script"))


def script_of(name):
    return os.path.join(EXAMPLES, name + ".script")


def plain_of(name):
    """The transcript of an example."""
    return script_of(name) + ".stdout"


def traced_of(name):
    """The transcript of an example in the form with the trace. That of a faulty script has none of its own."""
    path = os.path.join(EXAMPLES, "traced", name + ".script.stdout")
    return path if os.path.exists(path) else plain_of(name)


def text_of(path):
    with open(path, "rb") as text:
        return text.read()


def play(words, script):
    """Plays a script, which is bytes: what the program printed, and its status."""
    done = subprocess.run([PROGRAM, *words], input=script, stdout=subprocess.PIPE, check=False)
    return done.stdout, done.returncode
