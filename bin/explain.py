"""Says in plain words what a status of the program means, and what is wrong with a faulty script.

The program judges a script. What is here only looks for the reason of a judgement that was made: it is told the line and the
kind of the fault, and never finds a fault of its own.
"""
import difflib
import os
import re

MAX_BYTES = 67_108_864
MAX_VERSION = 9_223_372_036_854_775_807
WIDTH = 60

OPERATIONS = ("add", "and", "or", "xor", "max", "min", "byte_min", "byte_max", "append", "compare_and_clear")
MUTATIONS = ("set", "clear", *OPERATIONS)
LATER = ("block", "watches", "assign", "drop", "cut", "peerfail")

# The options, each with the bounds of its number.
OPTIONS = {
    "window": (1, 1 << 62),
    "patience": (1, 1_000),
    "seed": (0, (1 << 64) - 1),
    "swap": (64, 1 << 28),
    "limit": (64, 1 << 28),
    "quota": (1, 1 << 20),
}

# The words after the first of each form. A name stands for a word that is judged, and other words for themselves.
FORMS = {
    "storage": ["1"],
    **{word: ["N"] for word in OPTIONS},
    "own": ["-", "ff"],
    "log": [],
    "batch": ["VERSION"],
    "set": ["KEY", "VALUE"],
    "clear": ["BEGIN", "END"],
    **{word: ["KEY", "OPERAND"] for word in OPERATIONS},
    "life": ["VERSION"],
    "ask": ["READER", "REQUEST"],
    "last": ["REQUEST"],
    "do": ["ACT"],
    "close": [],
    "kill": ["CALLS", "CHOICE"],
    "end": [],
}
REQUESTS = {
    "get": ["KEY", "@V"],
    "range": ["BEGIN", "END", "ROWS", "BYTES", "fwd|rev", "@V"],
    "key": ["KEY", "eq|ne", "OFFSET", "BEGIN", "END", "@V"],
}
ACTS = {**{word: ["[COUNT]"] for word in ("apply", "began", "durable", "flush")}, "poll": ["READER", "[COUNT]"]}

BOUNDS = {
    "VERSION": (0, MAX_VERSION),
    "READER": (1, 64),
    "ROWS": (1, 10_000),
    "BYTES": (1, 100_000),
    "COUNT": (1, 1_000_000),
    "CALLS": (0, MAX_VERSION),
    "CHOICE": (0, (1 << 64) - 1),
    "OFFSET": (-1_000, 1_000),
    "@V": (0, MAX_VERSION),
}
BYTE_WORDS = ("KEY", "VALUE", "OPERAND", "BEGIN", "END")

# Where a line may stand: the place that the lines before lead to, with the words that may come next.
NEXT = {
    "the first line": (*OPTIONS, "own", "log"),
    "log": ("batch", "life"),
    "batch": ("batch", *MUTATIONS, "life"),
    "life": ("ask", "last", "do", "close", "kill"),
    "close": ("life", "end"),
    "kill": ("life", "end"),
    "end": (),
}

PLACES = re.compile(rb"^ *(log|batch|life|close|kill|end)(?= |$)", re.MULTILINE)
LASTS = re.compile(rb"^ *(life|last)(?= |$)", re.MULTILINE)
VERSIONS = {form: re.compile(rb"^ *" + form.encode() + rb" +([0-9]+)", re.MULTILINE) for form in ("batch", "life")}


class Word:
    """A word of a line, and where it begins."""

    def __init__(self, text, at):
        self.bytes = text
        self.text = shown(text)
        self.at = at

    def __eq__(self, other):
        return self.bytes == other.encode()

    def is_among(self, words):
        return any(self == word for word in words)


class Reason:
    """What is wrong, in plain words, with the place in the line that it is about."""

    def __init__(self, text, begin=0, length=0):
        self.text = text
        self.begin = begin
        self.length = length


def at(word, text):
    return Reason(text, word.at, len(word.bytes))


def shown(text):
    """Bytes as a terminal can show them."""
    names = {0x09: "\\t", 0x0D: "\\r"}
    return "".join(chr(byte) if 0x20 <= byte < 0x7F else names.get(byte, f"\\x{byte:02x}") for byte in text)


def cut(text, most=WIDTH):
    return text if len(text) <= most else text[:most] + "..."


def words_of(line):
    return [Word(found.group(), found.start()) for found in re.finditer(rb"[^ ]+", line)]


def is_skipped(line):
    return not line.strip(b" ") or line.lstrip(b" ").startswith(b"#")


def line_at(script, number):
    """The line of this number, and the place where it begins. A script may have millions of lines."""
    begin = 0
    for _ in range(number - 1):
        begin = script.index(b"\n", begin) + 1
    end = script.find(b"\n", begin)
    return script[begin:] if end < 0 else script[begin:end], begin


def last_line(script):
    """The last line that isn't skipped, or none."""
    end = len(script) - script.endswith(b"\n")
    while end > 0:
        begin = script.rfind(b"\n", 0, end) + 1
        if not is_skipped(script[begin:end]):
            return script[begin:end]
        end = begin - 1
    return None


def last_match(pattern, before):
    """The word that the last match of a pattern is about, or none."""
    found = None
    for found in pattern.finditer(before):
        pass
    return found.group(1).decode("ascii") if found else None


# Single words


def in_hex(text):
    return f'the text "{text}" is {text.encode().hex()} in hex'


def bytes_fault(name, word):
    """Why a word is no bytes."""
    text = word.text
    if word.bytes.endswith(b"\r"):
        return f"{name} ends with a carriage return"
    if b"\t" in word.bytes:
        return f"{name} has a tab in it: only spaces part words"
    if text[:2] in ("0x", "0X"):
        return f"{name} is written without 0x: {cut(text[2:]) or '-'}"
    if word.bytes[:1] in (b'"', b"'"):
        return f"{name} is written in hex, without quotes: {in_hex(cut(text.strip(chr(34) + chr(39)), 20))}"
    strange = re.search(rb"[^0-9a-fA-F]", word.bytes)
    if strange:
        why = f'"{shown(strange.group())}" is no hex digit'
        plain = word.bytes.isalnum() and len(word.bytes) <= 20
        return f"{name} is written in hex, and {why}" + (f"; {in_hex(text)}" if plain else "")
    return f"{name} has {len(word.bytes)} hex digits, and two make a byte: one is missing"


def number_fault(name, text, low, high):
    """Why a word is no number within these bounds."""
    if re.fullmatch(r"\d{1,20}", text) or (name == "OFFSET" and re.fullmatch(r"-\d{1,20}", text)):
        return f"{name} is a number from {low} to {high}"
    if text.endswith("\\r"):
        return f"{name} ends with a carriage return"
    if text.startswith("+"):
        return f"{name} is written without a sign"
    if re.fullmatch(r"\d{21,}", text):
        return f"{name} has more than 20 digits"
    if re.fullmatch(r"\d[\d_,.]*\d", text):
        return f"{name} is written with digits alone: {re.sub(r'[^0-9]', '', text)}"
    if text[:2] in ("0x", "0X"):
        return f"{name} is a decimal number, without 0x"
    return f"{name} is a number from {low} to {high}, in decimal digits"


def bytes_of(word):
    """The bytes of a word that is hex."""
    if word == "-":
        return b""
    return bytes.fromhex(word.text) if re.fullmatch(rb"([0-9a-fA-F]{2})+", word.bytes) else None


def word_fault(name, word, form):
    """The kind of a single word's fault, with the reason, or none."""
    if name in BOUNDS or name == "N":
        low, high = OPTIONS[form] if name == "N" else BOUNDS[name]
        if name == "VERSION" and form == "batch":
            low = 1
        text = word.text[1:] if name == "@V" else word.text
        sign = r"-?" if name == "OFFSET" else ""
        if re.fullmatch(sign + r"[0-9]{1,20}", text) and low <= int(text) <= high:
            return None
        return "number", number_fault("the version after @" if name == "@V" else name, text, low, high)
    if name not in BYTE_WORDS:
        return None
    found = bytes_of(word)
    if found is None:
        return "hex", bytes_fault(name, word)
    if name == "KEY" and found >= b"\xff":
        return "key", f"{name} is ff or begins with it, and the keys of users are below ff"
    if name == "KEY" and len(found) > 10_000:
        return "key", f"{name} has {len(found)} bytes, and keys have at most 10000"
    if name in ("VALUE", "OPERAND") and len(found) > 100_000:
        return "value", f"{name} has {len(found)} bytes, and values have at most 100000"
    return None


# Lines


def shape(words):
    """What the words after the first should be, as far as the words tell, with those that they are."""
    form, rest = words[0].text, words[1:]
    names = FORMS.get(form, [])
    if "REQUEST" in names:
        place = names.index("REQUEST")
        request = rest[place].text if len(rest) > place else ""
        if request in REQUESTS:
            return names[:place] + [request] + REQUESTS[request], rest
    if form == "do" and rest and rest[0].text in ACTS:
        names = [rest[0].text] + ACTS[rest[0].text]
    return names, rest


def usage(form, names):
    of = "no words after it" if not names else f"the word{'s' if len(names) > 1 else ''} {' '.join(names)}"
    return f'"{form}" has {of}'


def count_fault(words, end):
    """A wrong number of words."""
    form = words[0].text
    names, rest = shape(words)
    least = len([name for name in names if not name.startswith("[")])
    if len(rest) > len(names):
        extra = "one word" if len(rest) == len(names) + 1 else f"{len(rest) - len(names)} words"
        return at(rest[len(names)], f"{extra} too many: {usage(form, names)}")
    if len(rest) < least:
        missing = names[len(rest)]
        hint = ' (no bytes are written "-")' if missing in BYTE_WORDS else ""
        return Reason(f"{missing} is missing{hint}: {usage(form, names)}", end, 1)
    return None


def version_fault(words):
    """A request whose last word should be a version."""
    names, rest = shape(words)
    if "@V" in names and len(rest) == len(names) and not rest[-1].bytes.startswith(b"@"):
        return at(rest[-1], f'the version of a request is written with "@" before it: @{cut(rest[-1].text, 20)}')
    if "@V" in names and len(rest) == len(names) - 1 and not rest[-1].bytes.startswith(b"@"):
        return Reason('the version is missing: a request ends with "@" and its version, as @10', words[-1].at + len(words[-1].bytes), 1)
    return None


def unknown_request(words):
    """A step or a request that isn't known."""
    form, rest = words[0].text, words[1:]
    if form == "do" and rest and rest[0].text not in ACTS:
        return at(rest[0], f'"{cut(rest[0].text, 20)}" is no step: a step is apply, began, durable, flush or poll READER')
    place = 1 if form == "ask" else 0
    if form in ("ask", "last") and len(rest) > place and rest[place].text not in REQUESTS:
        hint = ""
        if form == "ask" and rest[0].text in REQUESTS:
            return at(rest[0], "the number of the reader is missing: ask READER REQUEST")
        if form == "last" and rest[0].text.isdigit():
            hint = "; a last request has no reader"
        return at(rest[place], f'"{cut(rest[place].text, 20)}" is no request: a request is get, range or key{hint}')
    return None


def unknown_word(words):
    """A word that isn't one of the two that may stand at its place."""
    names, rest = shape(words)
    for name, word in zip(names, rest):
        if "|" in name and word.text not in name.split("|"):
            return at(word, f'"{cut(word.text, 20)}" isn\'t {name.replace("|", " or ")}')
    return None


def why_word(words, line):
    form = words[0]
    known = [*FORMS, *LATER]
    if form.text not in known:
        if b"\t" in form.bytes:
            return at(form, "there is a tab in this word: only spaces part words")
        if form.text in REQUESTS:
            return at(form, f'a request is asked by a reader: ask READER {form.text} .., or last {form.text} ..')
        if form.text in ACTS:
            return at(form, f'a step is written do {form.text}')
        near = difflib.get_close_matches(form.text.lower(), known, 1, 0.75)
        hint = f': did you mean "{near[0]}"?' if near else "; docs/SCRIPT.md has the lines of a script"
        return at(form, f'no line begins with "{cut(form.text, 20)}"{hint}')
    tabbed = next((word for word in words if b"\t" in word.bytes), None)
    if tabbed:
        return at(tabbed, "there is a tab in this word: only spaces part words")
    end = len(line.rstrip(b" "))
    return (
        unknown_request(words)
        or version_fault(words)
        or count_fault(words, end)
        or unknown_word(words)
        or at(form, usage(form.text, shape(words)[0]))
    )


def why_single(words, kind):
    names, rest = shape(words)
    for name, word in zip(names, rest):
        found = word_fault(name.strip("[]"), word, words[0].text)
        if found and found[0] == kind:
            return at(word, found[1])
    return None


def why_range(words):
    names, rest = shape(words)
    if "BEGIN" not in names:
        return None
    place = names.index("BEGIN")
    first, last = rest[place], rest[place + 1]
    begin, end = bytes_of(first), bytes_of(last)
    both = lambda text: Reason(text, first.at, last.at + len(last.bytes) - first.at)
    if begin is None or end is None:
        return None
    if "OFFSET" in names:
        key = bytes_of(rest[names.index("KEY")])
        if key is not None and (key < begin or end < key):
            return both("KEY must be at least BEGIN and at most END, and it lies outside")
    if end > b"\xff":
        return at(last, "END is above ff, where the keys end")
    for word, found, name in ((first, begin, "BEGIN"), (last, end, "END")):
        if len(found) > 10_001:
            return at(word, f"{name} has {len(found)} bytes, and the ends of a range have at most 10001")
    if begin >= end:
        hint = "; the range of this one key ends with 00 after it" if begin == end else ""
        return both(f"BEGIN must be below END, and {cut(first.text, 20)} isn't below {cut(last.text, 20)}{hint}")
    return None


def why_version(words, before):
    form = "life" if words[0] == "life" else "batch"
    last = last_match(VERSIONS[form], before)
    if form == "life":
        return at(words[1], f"versions of lives don't fall, and the life before has version {last}")
    return at(words[1], f"versions of batches rise, and the batch before has version {last}")


def place_of(before):
    """The place that the lines before lead to, which the last of them that leads to one tells."""
    return last_match(PLACES, before) or "the first line"


def why_order(words, before):
    form = words[0]
    place = place_of(before)
    if form.is_among(OPTIONS) and place == "the first line":
        return at(form, f'"{form.text}" stands here for the second time')
    if form == "kill" and place == "life" and last_match(LASTS, before) == "last":
        return at(form, 'a life with a "last" line isn\'t killed: it ends with "close"')
    nexts = ["a mutation" if word == "set" else word for word in NEXT[place] if word not in MUTATIONS or word == "set"]
    after = {"the first line": "in the head", "log": 'after "log"', "batch": "in a batch", "life": "in a life"}.get(place, f'after "{place}"')
    come = f"{after} come {', '.join(nexts[:-1])}{' or ' if nexts[:-1] else ''}{nexts[-1]}" if nexts else "nothing follows the end"
    return at(form, f'"{form.text}" doesn\'t stand here: {come}')


def why_limit(words):
    if words[0] == "batch":
        return at(words[0], "a script has at most 1000000 batches")
    if words[0] == "life":
        return at(words[0], "a script has at most 1000 lives")
    return at(words[0], "a script has at most 100000 requests, and the ROWS of its ranges are at most 10000000 together")


def why_unbuilt(words):
    form = words[0]
    if form == "own":
        return at(form, 'the only "own" line that is played yet is a first "own - ff"')
    if form == "log":
        return at(form, 'the server owns no key: put "own - ff" before "log"')
    if form.text in ("do", "ask"):
        word = words[1 if form == "do" else 2]
        return at(word, f'"{cut(word.text, 20)}" is part of scripts, and isn\'t played yet')
    return at(form, f'"{cut(form.text, 20)}" lines are part of scripts, and aren\'t played yet')


def why_head(words, line):
    whole = Reason('the first line that isn\'t skipped must be the two words "storage 1"', words[0].at, len(line.rstrip(b" ")) - words[0].at)
    if line.startswith(b"\xef\xbb\xbf"):
        whole.text += "; there is a byte order mark before it"
    elif b"\t" in line:
        whole.text += "; only spaces part words, and here is a tab"
    elif line.startswith((b"\xff\xfe", b"\xfe\xff")) or b"\x00" in line:
        whole.text += "; the file seems to be UTF-16, and a script is of single bytes"
    return whole


def reason(kind, line, before):
    """Why a line has a fault of this kind, where this is the script before it."""
    words = words_of(line)
    if kind == "head":
        found = why_head(words, line)
    elif kind == "word":
        found = why_word(words, line)
    elif kind in ("number", "hex", "key", "value"):
        found = why_single(words, kind)
    elif kind == "range":
        found = why_range(words)
    elif kind == "version":
        found = why_version(words, before)
    elif kind == "order":
        found = why_order(words, before)
    elif kind == "limit":
        found = why_limit(words)
    else:
        found = why_unbuilt(words)
    return found or Reason("this line breaks a rule of scripts")


# What is said


def marked(number, line, found):
    """The line, and a mark under the place that a reason is about."""
    text, begin = shown(line), len(shown(line[: found.begin]))
    length = max(len(shown(line[found.begin : found.begin + found.length])), 1)
    left = 0
    if len(text) > WIDTH and begin + min(length, 8) > WIDTH:
        left = begin - 20
        text, begin = "..." + text[left:], begin - left + 3
    over = len(text) > WIDTH + 3
    text = text[:WIDTH] + "..." if over else text
    head = f"  {number} | "
    return [head + text, " " * (len(head) + begin) + "^" * min(length, max(len(text) - begin, 1))]


def of_script(number, kind, script):
    """What is wrong with a script, whose fault is of this kind in the line of this number."""
    if kind == "long":
        return ["storage_tool: the script is faulty: long", f"  a script has at most {MAX_BYTES} bytes (64 MiB)"]
    told = [f"storage_tool: line {number} is faulty: {kind}"]
    if kind == "end":
        last = last_line(script)
        if last is None:
            return told + ["  the script has no lines"]
        return told + [f'  the script stops before its line "end": the last line that isn\'t skipped is "{cut(shown(last.strip(b" ")))}"']
    line, begin = line_at(script, number)
    found = reason(kind, line, script[:begin])
    told += marked(number, line, found) + ["  " + found.text]
    if line.endswith(b"\r"):
        told.append("  the line ends with CR LF, and only LF ends a line: tr -d '\\r' < FILE takes the CRs out")
    return told


def of_words(words):
    """What is wrong with the words of the command line."""
    told = ["storage_tool: the words after it are replay, or replay --trace"]
    for word in words:
        if word not in ("replay", "--trace") and not word.startswith("-") and os.path.exists(word):
            told.append(f'  "{cut(word)}" names a file; replay reads standard input: use < FILE')
            break
    return told + ["  usage: bin/storage_tool replay [--trace] < SCRIPT", "  help: bin/storage_tool --help"]


# The statuses that are told in one line.
SAID = {
    4: "standard input could not be read",
    5: "standard output could not be written",
    6: "the disk failed; docs/FAULTS.md explains it",
    8: "the files of the disk are no store; docs/FAULTS.md explains it",
    9: "memory was refused",
    10: "a commit has no room in its file; docs/FAULTS.md explains it",
    11: "the store of the disk is that of another log; docs/FAULTS.md explains it",
}


def of_status(status, words, fault=None, script=None):
    """What to say beside a transcript. `fault` is the line and the kind of a faulty script, where they are known."""
    if status == 2:
        return of_words(words)
    if status == 3 and fault and script is not None:
        return of_script(*fault, script) + [f'  see docs/FAULTS.md, "{fault[1]}"']
    if status == 3:
        return ["storage_tool: the script is faulty; docs/FAULTS.md explains each kind of fault"]
    return ["storage_tool: " + SAID[status]] if status in SAID else []
