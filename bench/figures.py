"""Builds and runs small programs over the repository's crates, for the figures of crates that the program doesn't show."""
import contextlib
import os
import shutil
import subprocess
import sys
import tempfile

TOP = os.path.dirname(os.path.dirname(os.path.realpath(__file__)))


@contextlib.contextmanager
def made(crates, text, proofs=None):
    """The folder of a program over the crates, while it stands. `crates` gives what each is built on, and `proofs` the
    files that the program's own proof needs."""
    with tempfile.TemporaryDirectory() as folder:
        for crate in crates:
            for part in ("src", "specs", "proofs"):
                source = os.path.join(TOP, "crates", crate, part)
                if os.path.isdir(source):
                    shutil.copytree(source, os.path.join(folder, "crates", crate, part))
        program = os.path.join(folder, "crates", "figures")
        for part in ("src", "specs"):
            os.makedirs(os.path.join(program, part))
        with open(os.path.join(program, "src", "main.rt"), "w", encoding="utf-8") as out:
            out.write(text)
        open(os.path.join(program, "specs", "Lib.antt"), "w", encoding="utf-8").close()
        for name, proof in (proofs or {}).items():
            file = os.path.join(program, "proofs", name)
            os.makedirs(os.path.dirname(file), exist_ok=True)
            with open(file, "w", encoding="utf-8") as out:
                out.write(proof)
        with open(os.path.join(folder, "crates.txt"), "w", encoding="utf-8") as out:
            out.writelines(f"{crate}: {below}\n" for crate, below in crates.items())
            out.write("figures: bytes " + " ".join(crates) + "\n")
        yield program


def numbers(printed):
    """The rows of numbers among printed lines."""
    lines = [line.split() for line in printed.splitlines()]
    return [[int(word) for word in line] for line in lines if line and all(word.isdigit() for word in line)]


def rows_of(crates, text, count, proofs=None):
    """The rows of numbers, so many, that a program over the crates prints."""
    with made(crates, text, proofs) as program:
        done = subprocess.run(["rt", "run"], cwd=program, stdout=subprocess.PIPE, text=True, check=False)
    rows = numbers(done.stdout)
    if len(rows) != count:
        sys.exit(f"bench: the program told no {count} rows of numbers\n{done.stdout[-2000:]}")
    return rows


def costs_of(crates, text, words, proofs=None):
    """What the program takes with each of the words: its processor time in microseconds, and its peak of memory in bytes."""
    found = []
    with made(crates, text, proofs) as program:
        subprocess.run(["rt", "run"], cwd=program, stdout=subprocess.DEVNULL, check=True)
        for word in words:
            child = subprocess.Popen([os.path.join(program, "out", "figures"), word], stdout=subprocess.PIPE, text=True)
            printed = child.stdout.read()
            _, status, used = os.wait4(child.pid, 0)
            child.stdout.close()
            child.returncode = os.waitstatus_to_exitcode(status)
            if child.returncode != 0 or printed.split() != [word]:
                sys.exit(f"bench: the program answered {printed[-2000:]!r}")
            found.append((round((used.ru_utime + used.ru_stime) * 1e6), used.ru_maxrss * 1024))
    return found


def within(what, once, more, at_most, unit):
    """Prints how much more it is, and answers whether that is within its bound."""
    figure = more / once
    print(f"{what}: {figure:.2f}, at most {at_most} ({more:,} {unit} over {once:,})")
    if figure > at_most:
        print(f"bench: {what}: {figure:.2f} is above {at_most}", file=sys.stderr)
    return figure <= at_most
