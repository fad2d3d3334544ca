"""Runs the proved program with the words that it is given, on standard input, and ends with its status.

Where the program isn't built, or a crate that it stands on changed, it is proved and built first. What is said beside the
program's own output goes to standard error. Where the program can't be built, the status is 1.
"""
import os
import signal
import stat
import subprocess
import sys

sys.path.insert(0, os.path.dirname(os.path.realpath(__file__)))
sys.dont_write_bytecode = True

import building  # noqa: E402
import explain  # noqa: E402

# The descriptor of the command's standard input.
INPUT = 3

HELP = """\
usage: bin/storage_tool replay [--trace] < SCRIPT

Plays a script on one storage server, and writes a transcript to standard output.

  replay            the answer of each request
  replay --trace    the events of the server too, and at which of them each request was polled
  --help, -h        this text
  --version         which program this is

A first script:   bin/storage_tool replay --trace < examples/read_too_early.script
As a picture:     bin/show examples/read_too_early.script

The status is 0 for a script that was played, 2 for other words, 3 for a faulty script, 4 and 5 where reading or writing
failed, 6 where the disk failed, 8 and 11 for a store that can't be opened, 9 for want of memory, 10 for a full file, and 1
where the program can't be built.

docs/SCRIPT.md has the lines of a script, docs/TRANSCRIPT.md those of a transcript, docs/FAULTS.md what can go wrong.
"""


def say(line):
    print(line, file=sys.stderr, flush=True)


def version():
    """Which program this is, as far as the repository and the kit tell."""
    told = []
    for words in (["git", "-C", building.TOP, "describe", "--always", "--dirty"], ["rt", "version"]):
        try:
            done = subprocess.run(words, stdout=subprocess.PIPE, stderr=subprocess.DEVNULL, text=True, check=True)
            told.append(done.stdout.strip())
        except (OSError, subprocess.CalledProcessError):
            told.append("unknown")
    return f"storage_tool of Repquartz, commit {told[0]}, proved with {told[1]}"


def relay(child):
    """Hands standard input on to the program, and answers what was handed on."""
    pieces = []
    try:
        while piece := os.read(INPUT, 1 << 16):
            pieces.append(piece)
            child.stdin.write(piece)
        child.stdin.close()
    except BrokenPipeError:
        # The program has read enough.
        pass
    return b"".join(pieces)


def input_mode():
    """What kind of file standard input is, and none where it is closed."""
    try:
        return os.fstat(INPUT).st_mode
    except OSError:
        return None


def run(words):
    """Runs the program on standard input itself."""
    return subprocess.call([building.program(), *words], stdin=INPUT)


def play(words):
    """Runs the program: its status, and the script where it can be looked at."""
    mode = input_mode()
    if mode is None:
        os.close(0)
        return subprocess.call([building.program(), *words]), None
    if stat.S_ISFIFO(mode):
        # A pipe can't be read twice.
        child = subprocess.Popen([building.program(), *words], stdin=subprocess.PIPE, bufsize=0)
        script = relay(child)
        return child.wait(), script
    if not stat.S_ISREG(mode):
        return run(words), None
    at = os.lseek(INPUT, 0, os.SEEK_CUR)
    status = run(words)
    return status, read_again(at) if status == 3 else None


def read_again(at):
    """The bytes of standard input from a place on, as far as a script may go."""
    pieces, most = [], at + explain.MAX_BYTES + 1
    while at < most and (piece := os.pread(INPUT, min(1 << 20, most - at), at)):
        pieces.append(piece)
        at += len(piece)
    return b"".join(pieces)


def fault_of(script):
    """The line and the kind of a faulty script's fault, as the program tells them once more."""
    done = subprocess.run([building.program(), "replay"], input=script, stdout=subprocess.PIPE, check=False)
    words = done.stdout.split(b"\n")[0].split(b" ")
    if words[:3] != [b"fault", b"script", b"line"]:
        return None
    return int(words[3]), words[4].decode("ascii")


def main(words):
    if words in (["--help"], ["-h"]):
        print(HELP, end="")
        return 0
    if words == ["--version"]:
        print(version())
        return 0
    if not building.is_built():
        try:
            building.build()
        except building.Failed as why:
            say(f"storage_tool: {why}")
            return 1
    if words in (["replay"], ["replay", "--trace"]):
        if os.isatty(INPUT):
            say("storage_tool: waiting for a script from the terminal; end it with Ctrl-D, or use < FILE")
        status, script = play(words)
    else:
        status, script = subprocess.call([building.program(), *words], stdin=subprocess.DEVNULL), None
    if status < 0:
        return 128 - status
    fault = fault_of(script) if status == 3 and script is not None else None
    for line in explain.of_status(status, words, fault, script):
        say(line)
    return status


if __name__ == "__main__":
    try:
        sys.exit(main(sys.argv[1:]))
    except KeyboardInterrupt:
        sys.exit(128 + signal.SIGINT)
