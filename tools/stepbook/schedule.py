"""Step books as text and as bytes: schedules in words, turned into books and back.

A schedule has a line for the desk and a line a step, in the words of docs/GLOSSARY.md; '#' starts a comment. Any number that fits its
place in the book is taken: whether a step is refused is for the desk to say. What a kind of step does not read is written as 0, and not
shown.
"""

import codecs
import struct

MARK = b"QBAK"
GREATEST = 65536
# the parameters of a desk, in the order of the book
NAMES = ("workers", "slots", "cards", "T", "Q", "C", "E")
PARAMETERS = struct.Struct(f"<{len(NAMES)}I")
STEP = struct.Struct("<BBBxII")
TRAILER = struct.Struct("<II4s")
# the bytes of the parameters in a book from before E
BEFORE_E = PARAMETERS.size - 4
MOST_STEPS = (GREATEST - PARAMETERS.size - TRAILER.size) // STEP.size

# a step's fields in the order of the book, with their greatest values
FIELDS = {"kind": 255, "worker": 255, "slot": 255, "card": 2**32 - 1, "guest": 2**32 - 1}

# a second worker, and the card from which a portion starts, stand in the field of the card, a limit in that of the guest; these and
# workers are written without their names
PLACES = {"heir": "card", "start": "card", "limit": "guest"}
BARE = ("worker", *PLACES)

# each kind of step with the fields that it reads
KINDS = {
    1: ("allocate", ("worker", "card", "guest")),
    2: ("publish", ("worker", "card")),
    3: ("protect", ("worker", "slot", "card")),
    4: ("check", ("worker", "slot")),
    5: ("use", ("worker", "slot")),
    6: ("clear", ("worker", "slot")),
    7: ("remove", ("worker", "card")),
    8: ("retire", ("worker", "card")),
    9: ("drain", ("worker",)),
    10: ("rooster", ("worker",)),
    11: ("tick", ()),
    12: ("manage", ("worker",)),
    13: ("roll call", ()),
    14: ("repost", ("worker", "card")),
    15: ("leave", ("worker", "heir")),
    16: ("join", ("worker",)),
    17: ("portion", ("worker", "start", "limit")),
}
NUMBERS = {name: kind for kind, (name, _) in KINDS.items()}
TICK = NUMBERS["tick"]

# how the desk and a step of any other kind are written
DESK = " ".join(["desk", *(name.upper() for name in NAMES)])
ANY = "step KIND worker WORKER slot SLOT card CARD guest GUEST"


class Wrong(Exception):
    """What is wrong with a schedule or a book."""


def number(text, name, most):
    """The number that a word is."""
    if not (text.isascii() and text.isdigit()):
        raise Wrong(f"{name} is a number, not '{text}'")
    if int(text) > most:
        raise Wrong(f"{name} is at most {most}")
    return int(text)


def form(kind):
    """How a step of this kind is written."""
    if kind == TICK:
        return "tick [TIMES]"
    name, reads = KINDS[kind]
    return " ".join([name, *written(reads, {field: field.upper() for field in reads})])


def stands_in(field):
    """The field of the book in which a field stands."""
    return PLACES.get(field, field)


def written(names, values):
    """The fields in this order: a name and a number each, the number alone where the field is bare."""
    return [str(values[name]) if name in BARE else f"{name} {values[name]}" for name in names]


def read_fields(words, names, bare, line):
    """The fields of the book that stand in this order, by their names or bare."""
    pattern = [word for name in names for word in ([None] if name in bare else [name, None])]
    if len(words) != len(pattern) or any(name not in (None, word) for name, word in zip(pattern, words)):
        raise Wrong(f"this is written '{line}'")
    numbers = [word for name, word in zip(pattern, words) if name is None]
    return {stands_in(name): number(word, name, FIELDS[stands_in(name)]) for name, word in zip(names, numbers)}


def read_steps(words):
    """The steps of a line: tuples of five numbers."""
    name = next((name for name in NUMBERS if words[: len(name.split())] == name.split()), words[0])
    rest = words[len(name.split()) :]
    if name == "step":
        fields = read_fields(rest, FIELDS, ("kind",), ANY)
        return [tuple(fields.values())]
    if name not in NUMBERS:
        raise Wrong(f"there is no step '{name}'")
    kind = NUMBERS[name]
    if kind == TICK:
        return [(TICK, 0, 0, 0, 0)] * ticks(rest)
    fields = read_fields(rest, KINDS[kind][1], BARE, form(kind))
    return [(kind, *(fields.get(field, 0) for field in list(FIELDS)[1:]))]


def ticks(words):
    """How many ticks a line asks for."""
    if len(words) > 1:
        raise Wrong(f"this is written '{form(TICK)}'")
    times = number(words[0], "times", MOST_STEPS) if words else 1
    if times == 0:
        raise Wrong("times is at least 1")
    return times


def read_desk(words):
    """The parameters."""
    if words[0] != "desk":
        raise Wrong(f"the desk comes first: '{DESK}'")
    if len(words) == len(NAMES):
        raise Wrong(f"this is written '{DESK}': E comes last, 0 if the roosters come in time")
    if len(words) != 1 + len(NAMES):
        raise Wrong(f"this is written '{DESK}'")
    return [number(word, name, 2**32 - 1) for word, name in zip(words[1:], NAMES)]


def parse(text):
    """The parameters and the steps of a schedule; what is wrong is said with its line."""
    parameters, steps = None, []
    for place, line in enumerate(text.split("\n"), 1):
        words = line.split("#")[0].split()
        if not words:
            continue
        try:
            if parameters is None:
                parameters = read_desk(words)
            elif words[0] == "desk":
                raise Wrong("there is one desk in a book")
            else:
                steps += read_steps(words)
            if len(steps) > MOST_STEPS:
                raise Wrong(f"a book holds at most {MOST_STEPS} steps")
        except Wrong as wrong:
            raise Wrong(f"line {place}: {wrong}") from None
    if parameters is None:
        raise Wrong(f"there is no desk: '{DESK}'")
    return parameters, steps


def closed(parameters, steps):
    """The book of these bytes, with its trailer."""
    distance = len(parameters) + len(steps) + TRAILER.size
    return parameters + steps + TRAILER.pack(len(steps) // STEP.size, distance, MARK)


def pack(parameters, steps):
    """The bytes of a book."""
    return closed(PARAMETERS.pack(*parameters), b"".join(STEP.pack(*step) for step in steps))


def parts(book):
    """The bytes of the parameters and of the steps of a book, also of one from before E, from its trailer back."""
    if len(book) > GREATEST:
        raise Wrong(f"a book has at most {GREATEST} bytes (the desk says 18)")
    if len(book) < TRAILER.size:
        raise Wrong("the trailer does not fit (the desk says 19)")
    count, distance, mark = TRAILER.unpack(book[-TRAILER.size :])
    if mark != MARK:
        raise Wrong("the last four bytes are not QBAK (the desk says 19)")
    size = distance - STEP.size * count - TRAILER.size
    if size not in (PARAMETERS.size, BEFORE_E):
        raise Wrong(f"{count} steps do not fit a distance of {distance} bytes (the desk says 19)")
    if distance > len(book):
        raise Wrong("the trailer points before the start of the file (the desk says 19)")
    start = len(book) - distance
    return book[start : start + size], book[start + size : -TRAILER.size]


def parts_of_now(book):
    """The same, of a book with E alone."""
    parameters, steps = parts(book)
    if len(parameters) == BEFORE_E:
        raise Wrong("this is a book from before the parameter E, which 'book upgrade' writes anew (the desk says 19)")
    return parameters, steps


def unpack(book):
    """The parameters and the steps of a book."""
    parameters, steps = parts_of_now(book)
    return list(PARAMETERS.unpack(parameters)), list(STEP.iter_unpack(steps))


def step_line(step):
    """A step in words."""
    fields = dict(zip(FIELDS, step))
    if step[0] not in KINDS:
        return "step " + " ".join([str(step[0]), *(f"{field} {fields[field]}" for field in list(FIELDS)[1:])])
    name, reads = KINDS[step[0]]
    return " ".join([name, *written(reads, {field: fields[stands_in(field)] for field in reads})])


def lines(parameters, steps):
    """A schedule in words; ticks in a row stand on one line."""
    yield "desk " + " ".join(map(str, parameters))
    row = 0
    for place, step in enumerate(steps):
        if step[0] != TICK:
            yield step_line(step)
            continue
        row += 1
        if place + 1 == len(steps) or steps[place + 1][0] != TICK:
            yield "tick" if row == 1 else f"tick {row}"
            row = 0


def decoded(content):
    """The text of a file, without a byte order mark; a byte that is not UTF-8 is named."""
    marked = len(codecs.BOM_UTF8) if content.startswith(codecs.BOM_UTF8) else 0
    try:
        return content[marked:].decode()
    except UnicodeDecodeError as error:
        at = marked + error.start
        line = 1 + content.count(b"\n", 0, at)
        raise Wrong(f"line {line}: byte {at + 1} of the file (0x{content[at]:02x}) is not UTF-8") from None


def make(content):
    """The book of a schedule, both as bytes."""
    return pack(*parse(decoded(content)))


def show(content):
    """The schedule of a book, both as bytes."""
    return "".join(line + "\n" for line in lines(*unpack(content))).encode()


def upgrade(content):
    """A book from before E, with E = 0; its steps stay byte by byte."""
    parameters, steps = parts(content)
    if len(parameters) != BEFORE_E:
        raise Wrong("this book has the parameter E already")
    return closed(parameters + bytes(PARAMETERS.size - BEFORE_E), steps)


def cut(content, count):
    """The book of so many first steps, which stay byte by byte."""
    parameters, steps = parts_of_now(content)
    return closed(parameters, steps[: STEP.size * number(count, "steps", len(steps) // STEP.size)])
