"""Reads a script and its transcript with the trace, and goes through the events: the state of the server behind each."""
from dataclasses import dataclass, field, replace

WINDOW = 5_000_000
END = "ff"


@dataclass(frozen=True)
class Request:
    """A request of a script. The last ones, which no reader asks, have reader 0."""

    number: int
    reader: int
    words: tuple

    def text(self):
        return " ".join(self.words)


@dataclass
class Plan:
    """What a script says of one life."""

    upto: int
    requests: list = field(default_factory=list)
    closing: str = "close"


@dataclass
class Batch:
    version: int
    moves: list = field(default_factory=list)


@dataclass
class Script:
    window: int = WINDOW
    own: list = field(default_factory=list)
    log: list = field(default_factory=list)
    plans: list = field(default_factory=list)


@dataclass
class Answer:
    """The places of a request's polls, and its result."""

    places: list
    result: str


@dataclass
class Life:
    number: int
    opened: int
    events: list = field(default_factory=list)
    answers: dict = field(default_factory=dict)
    ending: str = ""


@dataclass
class Transcript:
    lives: list = field(default_factory=list)
    fault: str = ""
    end: str = ""


def key(word):
    """The bytes of a key, which compare as keys do."""
    return b"" if word == "-" else bytes.fromhex(word)


def word(bytes_):
    return bytes_.hex() or "-"


def read_script(text):
    """What a script says, as far as a picture needs it. It must be one that the program has played."""
    script, number = Script(), 0
    for line in text.splitlines():
        words = line.split()
        if not words or words[0].startswith("#"):
            continue
        first, rest = words[0], words[1:]
        if first == "window":
            script.window = int(rest[0])
        elif first == "own":
            script.own = add(script.own, (key(rest[0]), key(rest[1])))
        elif first == "batch":
            script.log.append(Batch(int(rest[0])))
        elif first in ("assign", "drop"):
            script.log[-1].moves.append((first, key(rest[0]), key(rest[1])))
        elif first == "life":
            script.plans.append(Plan(int(rest[0])))
        elif first in ("ask", "last"):
            number += 1
            reader = int(rest.pop(0)) if first == "ask" else 0
            script.plans[-1].requests.append(Request(number, reader, tuple(rest)))
        elif first in ("close", "kill"):
            script.plans[-1].closing = " ".join(words)
    return script


def read_transcript(text):
    """The lives of a transcript in the form with the trace."""
    transcript = Transcript()
    for line in text.splitlines():
        words = line.split(" ")
        if words[0] == "life" and words[2] == "opened":
            transcript.lives.append(Life(int(words[1]), int(words[3]), [("opened", words[3])]))
        elif words[0] == "life":
            transcript.lives[-1].ending = words[2]
        elif words[0] == "event":
            transcript.lives[-1].events.append(tuple(words[1:]))
        elif words[0] == "answer":
            places = [] if words[3] == "-" else [int(place) for place in words[3].split(",")]
            transcript.lives[-1].answers[int(words[1])] = Answer(places, " ".join(words[4:]))
        elif words[0] == "fault":
            transcript.fault = line
        elif words[0] == "end":
            transcript.end = line
    return transcript


# Sets of keys, as ranges that rise and don't touch.


def add(ranges, range_):
    begin, end = range_
    apart = [(b, e) for b, e in ranges if e < begin or end < b]
    near = [(b, e) for b, e in ranges if not (e < begin or end < b)] + [(begin, end)]
    return sorted(apart + [(min(b for b, _ in near), max(e for _, e in near))])


def remove(ranges, range_):
    begin, end = range_
    left = [(b, min(e, begin)) for b, e in ranges] + [(max(b, end), e) for b, e in ranges]
    return sorted({(b, e) for b, e in left if b < e})


def assigned(script, version):
    """The keys that the moves up to a version leave to the server."""
    ranges = script.own
    for batch in script.log:
        for move, begin, end in batch.moves:
            if batch.version <= version:
                ranges = (add if move == "assign" else remove)(ranges, (begin, end))
    return ranges


# The server's state behind each event.


@dataclass(frozen=True)
class Piece:
    """A range of keys with its phase: absent, waits, fetching, sent or readable."""

    begin: bytes
    end: bytes
    phase: str
    # Since when it is absent or waits, or at which version it is fetched or sent.
    version: int = 0
    # Of a fetched piece: how far it is fetched, taken by a commit, and in the base.
    upto: bytes = b""
    taken: bytes = b""
    base: bytes = b""

    def part(self, begin, end):
        within = lambda place: min(max(place, begin), end)
        return replace(self, begin=begin, end=end, upto=within(self.upto), taken=within(self.taken), base=within(self.base))

    def cut(self, *places):
        """Its parts, cut at these places."""
        ends = sorted({place for place in places if self.begin < place < self.end} | {self.begin, self.end})
        return [self.part(begin, end) for begin, end in zip(ends, ends[1:])]


@dataclass(frozen=True)
class State:
    oldest: int
    durable: int
    newest: int
    available: tuple
    pieces: tuple
    flight: tuple = ()
    # The watches that stand: the number of each with its key.
    watches: tuple = ()


def opening(script, version, available):
    """The state at the opening of a life."""
    held = assigned(script, version)
    ends = [place for range_ in held + available for place in range_]
    inside = lambda ranges, piece: any(b <= piece.begin and piece.end <= e for b, e in ranges)
    pieces = []
    for piece in Piece(b"", key(END), "absent", version).cut(*ends):
        phase = "readable" if inside(available, piece) else "waits" if inside(held, piece) else "absent"
        pieces.append(replace(piece, phase=phase))
    return State(version, version, version, tuple(available), tuple(pieces))


def moved(pieces, move, version):
    """The pieces behind a move."""
    kind, begin, end = move
    found = []
    for piece in pieces:
        if (piece.phase == "absent") != (kind == "assign"):
            found.append(piece)
            continue
        for part in piece.cut(begin, end):
            if begin <= part.begin and part.end <= end:
                part = replace(part, phase="waits") if kind == "assign" else Piece(part.begin, part.end, "absent", version)
            found.append(part)
    return found


def applied(script, state, version):
    batch = next(batch for batch in script.log if batch.version == version)
    pieces = list(state.pieces)
    for move in batch.moves:
        pieces = moved(pieces, move, version)
    pieces = [
        Piece(piece.begin, piece.end, "sent", version)
        if piece.phase == "fetching" and piece.base == piece.upto == piece.end
        else piece
        for piece in pieces
    ]
    return replace(state, newest=version, pieces=tuple(pieces))


def changed(state, begin, change):
    """The state in which the piece that begins at a key is changed into these pieces."""
    pieces = []
    for piece in state.pieces:
        pieces += change(piece) if piece.begin == begin else [piece]
    return replace(state, pieces=tuple(pieces))


def began(script, state, version):
    ranges = list(state.available)
    for batch in script.log:
        for move, begin, end in batch.moves:
            if move == "drop" and state.durable < batch.version <= version:
                ranges = remove(ranges, (begin, end))
    for piece in state.pieces:
        if piece.phase == "sent" and piece.version <= version:
            ranges = add(ranges, (piece.begin, piece.end))
    pieces = [replace(piece, taken=piece.upto) if piece.phase == "fetching" else piece for piece in state.pieces]
    return replace(state, flight=(version, tuple(ranges)), pieces=tuple(pieces))


def ended(state, version):
    pieces = []
    for piece in state.pieces:
        if piece.phase == "fetching":
            piece = replace(piece, base=piece.taken)
        elif piece.phase == "sent" and piece.version <= version:
            piece = Piece(piece.begin, piece.end, "readable")
        pieces.append(piece)
    available = state.flight[1] if state.flight else state.available
    return replace(state, oldest=version, durable=version, available=available, flight=(), pieces=tuple(pieces))


def split(piece, place, durable):
    """The parts of a piece whose rest must be fetched anew."""
    if place == piece.begin:
        return [Piece(piece.begin, piece.end, "waits", durable)]
    left, right = piece.cut(place)
    return [left, Piece(right.begin, right.end, "waits", durable)]


def behind(script, state, event):
    """The state behind one event."""
    name, rest = event[0], event[1:]
    if name == "applied":
        return applied(script, state, int(rest[0]))
    if name == "start":
        begin = key(rest[0])
        fetched = lambda piece: [Piece(piece.begin, piece.end, "fetching", int(rest[1]), begin, begin, begin)]
        return changed(state, begin, fetched)
    if name == "block":
        return changed(state, key(rest[0]), lambda piece: [replace(piece, upto=key(rest[1]))])
    if name == "split":
        return changed(state, key(rest[0]), lambda piece: split(piece, key(rest[1]), state.durable))
    if name == "began":
        return began(script, state, int(rest[0]))
    if name == "durable":
        return ended(state, int(rest[0]))
    if name == "watched":
        return replace(state, watches=state.watches + ((int(rest[0]), rest[1]),))
    if name == "unwatched":
        return replace(state, watches=tuple(watch for watch in state.watches if watch[0] != int(rest[0])))
    return state


def states(script, life, before=None):
    """The states of a life, one behind each event. `before` is the last state of the life before."""
    available = script.own
    if before is not None and (before.durable or before.flight):
        is_flight = before.flight and before.flight[0] == life.opened
        available = list(before.flight[1] if is_flight else before.available)
    found = [opening(script, life.opened, available)]
    for event in life.events[1:]:
        found.append(behind(script, found[-1], event))
    return found


def fetched(piece, begin):
    """How far the part of a fetched piece that begins at a key has come."""
    if begin < piece.base:
        return "in base"
    if begin < piece.taken:
        return "taken"
    return "fetched" if begin < piece.upto else "to fetch"


def phase_at(state, begin):
    """The phase of the keys that begin at a key, which no piece's end parts."""
    for piece in state.pieces:
        if piece.begin <= begin < piece.end:
            return fetched(piece, begin) if piece.phase == "fetching" else piece.phase
    return "absent"


def borders(all_states):
    """The keys at which some piece of some state begins, ends, or is fetched up to."""
    found = {b"", key(END)}
    for state in all_states:
        for piece in state.pieces:
            found |= {piece.begin, piece.end}
            if piece.phase == "fetching":
                found |= {piece.base, piece.taken, piece.upto}
    return sorted(found)


# What readers see of it.


@dataclass(frozen=True)
class Poll:
    """A poll at a place. It is the last one of its request, and has the result, or it waits."""

    request: Request
    place: int
    result: str = ""

    def kind(self):
        """waits, answered, refused or stopped."""
        if not self.result:
            return "waits"
        if self.result == "stopped":
            return "stopped"
        return "refused" if self.result.startswith(("1001 ", "1007 ", "1009 ", "too_many_watches ")) else "answered"

    def text(self):
        return f"{self.request.number} {self.result or 'waits'}"


def polls(plan, life):
    """The polls of each reader in their order, by reader. What no poll answered stands at the last place."""
    found = {}
    for request in plan.requests:
        answer = life.answers.get(request.number)
        if answer is None:
            continue
        made = found.setdefault(request.reader, [])
        if answer.result == "stopped":
            made += [Poll(request, place) for place in answer.places]
            made.append(Poll(request, len(life.events), "stopped"))
            continue
        made += [Poll(request, place) for place in answer.places[:-1]]
        made.append(Poll(request, answer.places[-1] if answer.places else len(life.events), answer.result))
    return found
