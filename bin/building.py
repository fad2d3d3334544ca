"""Builds the program, where a crate that it stands on changed since it was built."""
import hashlib
import os
import subprocess
import sys

TOP = os.path.dirname(os.path.dirname(os.path.realpath(__file__)))
NAME = "storage_tool"
PARTS = ("src", "specs", "proofs")


class Failed(Exception):
    """Why the program could not be built."""


def program(top=TOP):
    """The path of the program."""
    return os.path.join(top, "crates", NAME, "out", NAME)


def stamp(top=TOP):
    """The path of the file that says from which sources the program was built."""
    return program(top) + ".sources"


def crates_below(top=TOP, name=NAME):
    """The crates that a crate stands on and the crate itself, lowest first, each with its line of crates.txt."""
    stands_on = {}
    with open(os.path.join(top, "crates.txt"), encoding="utf-8") as lines:
        for line in lines:
            crate, colon, others = line.partition("#")[0].partition(":")
            if colon:
                stands_on[crate.split()[0]] = others.split()
    found = []

    def add(crate):
        if crate in stands_on and crate not in found:
            for other in stands_on[crate]:
                add(other)
            found.append(crate)

    add(name)
    return [(crate, stands_on[crate]) for crate in found]


def digest(top=TOP):
    """A sum over all that the program is built from."""
    sum_ = hashlib.sha256()
    for crate, others in crates_below(top):
        sum_.update(f"{crate}: {' '.join(others)}\n".encode())
        for part in PARTS:
            for folder, folders, files in os.walk(os.path.join(top, "crates", crate, part)):
                folders.sort()
                for file in sorted(files):
                    path = os.path.join(folder, file)
                    with open(path, "rb") as source:
                        text = source.read()
                    sum_.update(f"{os.path.relpath(path, top)} {len(text)}\n".encode())
                    sum_.update(text)
    return sum_.hexdigest()


def is_built(top=TOP):
    """Whether the program stands there, built from the sources as they are."""
    try:
        with open(stamp(top), encoding="ascii") as made:
            return os.access(program(top), os.X_OK) and made.read() == digest(top)
    except OSError:
        return False


def mark(top=TOP, of=None):
    """Says that the program was built from these sources."""
    os.chmod(program(top), 0o755)
    with open(stamp(top), "w", encoding="ascii") as made:
        made.write(of or digest(top))


def call(words, folder, say, stdin=subprocess.DEVNULL):
    """Runs rt, and answers what it printed. What it says of itself and of how far it came goes on as progress."""
    try:
        child = subprocess.Popen(
            words, cwd=folder, stdin=stdin, stdout=subprocess.PIPE, stderr=subprocess.PIPE, text=True, errors="replace"
        )
    except FileNotFoundError:
        raise Failed("rt isn't on the path: the kit of Rattle must be installed") from None
    told = []
    for line in child.stderr:
        told.append(line)
        if line.startswith(("rt: ", "so far: ")):
            say("  " + line.rstrip())
    output = child.stdout.read()
    if child.wait() != 0:
        raise Failed("rt said last:\n" + "".join((told + [output])[-20:]).rstrip())
    return output


def build(top=TOP, say=lambda line: print(line, file=sys.stderr, flush=True)):
    """Proves and builds the program, and what it stands on where that changed."""
    sources = digest(top)
    crates = crates_below(top)
    say(f"storage_tool: proving and building the program and what it stands on, {len(crates)} crates; the first time takes minutes")
    for place, (crate, _) in enumerate(crates, 1):
        say(f"storage_tool: {crate} ({place} of {len(crates)})")
        folder = os.path.join(top, "crates", crate)
        try:
            if crate != NAME:
                call(["rt", "lib"], folder, say)
                continue
            with open(os.path.join(folder, "stdin"), "rb") as script:
                call(["rt", "run", "--", "replay"], folder, say, script)
        except Failed as why:
            raise Failed(f"{crate} could not be built: {why}") from None
    # It may not have had to change, and it has played its stored run.
    mark(top, sources)


if __name__ == "__main__":
    if sys.argv[1:] != ["--mark"]:
        sys.exit("usage: building.py --mark   says that the program was just built from the sources as they are")
    mark()
